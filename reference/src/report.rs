//! The report of a script: each line's answer, and what the observer saw.

use crate::channels::Channel;
use crate::digits::hexadecimal;
use crate::kinds::{Commands, Readings, RecordKind};
use crate::link::{Heard, Link, Observer, Round, Side};
use crate::refusals::{Answer, Refusal, number};
use crate::script::{Kind, Making, Order, Setup, lines, read_making, read_order};
use crate::setups;

/// A longer script is refused.
pub const SCRIPT_MAX: usize = 4_096;

/// A smaller buffer is refused; no report is longer.
pub const REPORT_MAX: usize = 50_000;

/// The report of a script, or `page` where the script is too long.
pub fn report(script: &[u8]) -> Result<Vec<u8>, Refusal> {
    let mut buffer = vec![0; REPORT_MAX];
    let length = report_into(script, &mut buffer)?;
    buffer.truncate(length);
    Ok(buffer)
}

/// Writes the report of a script to the start of a buffer and answers its length; `page` where
/// the script is too long or the buffer too small.
pub fn report_into(script: &[u8], buffer: &mut [u8]) -> Result<usize, Refusal> {
    if script.len() > SCRIPT_MAX || buffer.len() < REPORT_MAX {
        return Err(Refusal::Page);
    }
    let mut page = Page { buffer, length: 0 };
    let mut lines = lines(script);
    if let Some(first_line) = lines.next() {
        match read_making(first_line) {
            Some(making) => make_and_run(making, lines, &mut page),
            None => page.reply(Reply::NO_ORDER),
        }
    }
    Ok(page.length)
}

/// Makes the link that the first line asks for, and performs the other lines on it.
fn make_and_run<'a>(making: Making, lines: impl Iterator<Item = &'a [u8]>, page: &mut Page) {
    let count = making.label_count;
    match (making.setup, making.kind) {
        (Setup::First, Kind::Commands) => run(setups::first::<Commands>(count), lines, page),
        (Setup::First, Kind::Readings) => run(setups::first::<Readings>(count), lines, page),
        (Setup::Second, Kind::Commands) => run(setups::second::<Commands>(count), lines, page),
        (Setup::Second, Kind::Readings) => run(setups::second::<Readings>(count), lines, page),
    }
}

/// Performs the lines after the first one on a new link.
fn run<'a, F: Channel, B: Channel, R: RecordKind>(
    mut link: Link<F, B, R>,
    lines: impl Iterator<Item = &'a [u8]>,
    page: &mut Page,
) {
    let checked = link.check();
    page.reply(Reply::single(b'P', checked));
    if checked.is_err() {
        return;
    }
    for line in lines {
        page.reply(match read_order(line) {
            Some(order) => perform(&mut link, order),
            None => Reply::NO_ORDER,
        });
    }
    page.sound(link.observer());
}

/// What a line is answered.
#[derive(Clone, Copy, Debug, PartialEq, Eq)]
pub struct Reply {
    letter: u8,
    answers: Answers,
    /// The payload of the record that was delivered.
    delivered: Option<u64>,
}

#[derive(Clone, Copy, Debug, PartialEq, Eq)]
enum Answers {
    Single(Answer),
    Heard(Heard),
    Round(Round),
}

impl Reply {
    /// The answer to a line that is no order.
    pub const NO_ORDER: Reply = Reply::single(b'?', Err(Refusal::Script));

    const fn single(letter: u8, answer: Answer) -> Reply {
        Reply {
            letter,
            answers: Answers::Single(answer),
            delivered: None,
        }
    }
}

/// Performs an order on a link.
pub fn perform<F: Channel, B: Channel, R: RecordKind>(
    link: &mut Link<F, B, R>,
    order: Order,
) -> Reply {
    match order {
        Order::Offer(payload) => {
            let offered = R::unpack(payload).and_then(|record| link.offer(record));
            Reply::single(b'o', offered)
        }
        Order::Send => Reply::single(b's', link.send()),
        Order::Hear => {
            let heard = link.hear();
            Reply {
                letter: b'h',
                answers: Answers::Heard(heard),
                delivered: delivered(link, heard),
            }
        }
        Order::Settle => Reply::single(b'a', link.settle()),
        Order::Tick => {
            link.tick();
            Reply::single(b't', Ok(()))
        }
        Order::Round => {
            let round = link.round();
            Reply {
                letter: b'r',
                answers: Answers::Round(round),
                delivered: delivered(link, round.heard),
            }
        }
        Order::SetSenderLabel(label) => {
            link.set_sender_label(label);
            Reply::single(b'S', Ok(()))
        }
        Order::SetReceiverLabel(label) => {
            link.set_receiver_label(label);
            Reply::single(b'R', Ok(()))
        }
        Order::PutForward(word) => Reply::single(b'F', link.put(Side::Forward, word)),
        Order::PutBack(word) => Reply::single(b'B', link.put(Side::Back, word)),
    }
}

/// The payload of the record that the receiver holds, if it was delivered just now.
fn delivered<F: Channel, B: Channel, R: RecordKind>(
    link: &Link<F, B, R>,
    heard: Heard,
) -> Option<u64> {
    heard.delivers().then(|| R::pack(link.receiver().delivered))
}

/// A buffer with the text that was written to it so far.
struct Page<'a> {
    buffer: &'a mut [u8],
    length: usize,
}

impl Page<'_> {
    fn text(&mut self, text: &[u8]) {
        let end = self.length + text.len();
        self.buffer[self.length..end].copy_from_slice(text);
        self.length = end;
    }

    fn decimal(&mut self, value: u16) {
        if value >= 10 {
            self.decimal(value / 10);
        }
        self.text(&[b'0' + (value % 10) as u8]);
    }

    fn answer(&mut self, answer: Answer) {
        self.text(b" ");
        self.decimal(number(answer));
    }

    fn heard(&mut self, heard: Heard) {
        self.answer(heard.word);
        self.answer(heard.reply);
    }

    fn reply(&mut self, reply: Reply) {
        self.text(&[reply.letter]);
        match reply.answers {
            Answers::Single(answer) => self.answer(answer),
            Answers::Heard(heard) => self.heard(heard),
            Answers::Round(round) => {
                self.answer(round.sent);
                self.heard(round.heard);
                self.answer(round.settled);
            }
        }
        if let Some(payload) = reply.delivered {
            self.text(b" ");
            self.text(&hexadecimal::<9>(payload));
        }
        self.text(b"\n");
    }

    fn sound(&mut self, observer: Observer) {
        self.text(b"sound ");
        self.decimal(observer.first_clean);
        self.text(b" of ");
        self.decimal(observer.completed);
        self.text(b"\n");
    }
}

#[cfg(test)]
mod tests {
    use super::*;

    fn text(script: &[u8]) -> String {
        String::from_utf8(report(script).unwrap()).unwrap()
    }

    macro_rules! example {
        ($name:ident) => {
            #[test]
            fn $name() {
                let script =
                    include_bytes!(concat!("../../examples/", stringify!($name), ".script"));
                let expected =
                    include_str!(concat!("../../examples/", stringify!($name), ".report"));
                assert_eq!(text(script), expected);
            }
        };
    }

    example!(brown_out);
    example!(losses);
    example!(full_wire);
    example!(bad_lines);

    #[test]
    fn empty_script() {
        assert_eq!(text(b""), "");
    }

    #[test]
    fn first_lines() {
        assert_eq!(text(b"\n"), "? 12\n");
        assert_eq!(text(b"x\ns\n"), "? 12\n");
        assert_eq!(text(b"P 1 C 03\nt\n"), "P 3\n");
        assert_eq!(text(b"P 2 G 09"), "P 3\n");
        assert_eq!(text(b"P 2 G 0A"), "P 0\nsound 0 of 0\n");
        assert_eq!(text(b"P 1 C 00\n\n"), "P 0\n? 12\nsound 0 of 0\n");
        assert_eq!(text(b"P 1 C 01\n"), "P 3\n");
        assert_eq!(text(b"P 3 C 04\n"), "? 12\n");
    }

    #[test]
    fn too_long_or_too_small() {
        let mut script = b"P 1 C 04\n".to_vec();
        script.resize(SCRIPT_MAX, b'\n');
        assert!(report(&script).is_ok());
        script.push(b'\n');
        assert_eq!(report(&script), Err(Refusal::Page));
        let mut small = vec![0; REPORT_MAX - 1];
        assert_eq!(report_into(b"", &mut small), Err(Refusal::Page));
    }

    #[test]
    fn offer_without_a_record_is_code_even_if_busy() {
        assert_eq!(
            text(b"P 1 C 04\no 100000000\no 100000001\no 100000000\n"),
            "P 0\no 0\no 11\no 4\nsound 0 of 0\n"
        );
    }

    #[test]
    fn long_scripts_of_rounds_fit() {
        let mut script = b"P 1 G 04\n".to_vec();
        while script.len() + 14 <= SCRIPT_MAX {
            script.extend_from_slice(b"o C82711400\nr\n");
        }
        let report = text(&script);
        assert!(report.ends_with("r 0 0 0 0 C82711400\nsound 1 of 291\n"));
    }
}
