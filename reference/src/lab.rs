//! The lab: lines that reach what no script of the bench reaches.

use std::fmt::Write;

use crate::channels::{Channel, DelayLine, Loss, Relay, Ring};
use crate::digits::{read_decimal, read_hexadecimal};
use crate::kinds::{Commands, Readings, RecordKind};
use crate::link::{Link, Side, State};
use crate::refusals::{Answer, number};
use crate::script::Kind;

/// The answer to a line of no listed form.
const NO_LINE: &str = "? 12";

/// A lab bench with at most one link on it.
#[derive(Default)]
pub struct Lab {
    subject: Option<Box<dyn Subject>>,
}

impl Lab {
    /// The answer to a line, without line ends.
    pub fn answer(&mut self, line: &[u8]) -> String {
        match (read(line), &mut self.subject) {
            (Some(Line::Make(making)), _) => {
                let subject = make(&making);
                let answer = format!("link {}", number(subject.check()));
                self.subject = Some(subject);
                answer
            }
            (Some(Line::Order(order)), Some(subject)) => subject.perform(order),
            _ => NO_LINE.to_string(),
        }
    }

    /// The link on the bench.
    pub fn subject(&self) -> Option<&dyn Subject> {
        self.subject.as_deref()
    }
}

/// What a `link` line asks for.
#[derive(Clone, Copy, Debug, PartialEq, Eq)]
struct Making {
    pair: Pair,
    kind: Kind,
    label_count: u16,
    x: u64,
    y: u64,
    a: u16,
    b: u16,
    c: u16,
    d: u16,
}

/// A pair of channels, by its number.
#[derive(Clone, Copy, Debug, PartialEq, Eq)]
enum Pair {
    LossyRings,
    Rings,
    DelayLines,
    Relays,
    LossyRelay,
}

/// What another line asks for.
#[derive(Clone, Copy, Debug, PartialEq, Eq)]
pub enum Order {
    Ask(Side),
    Peek(Side, u16),
    Put(Side, u64),
    Discard(Side),
    Sender(u8),
    Receiver(u8),
    State(State),
    Hand(u64),
    Offer(u64),
    Send,
    Hear,
    Settle,
    Tick,
    Round,
    Spin(u16),
    Check,
    Clean,
    Observer,
    Ends,
    Handover,
}

#[derive(Clone, Copy, Debug, PartialEq, Eq)]
enum Line {
    Make(Making),
    Order(Order),
}

/// Reads a line, if it has a listed form.
fn read(line: &[u8]) -> Option<Line> {
    let mut parts = line.split(|&byte| byte == b' ');
    let name = parts.next()?;
    let read = if name == b"link" {
        Line::Make(read_making(&mut parts)?)
    } else {
        Line::Order(read_order(name, &mut parts)?)
    };
    parts.next().is_none().then_some(read)
}

fn read_making<'a>(parts: &mut impl Iterator<Item = &'a [u8]>) -> Option<Making> {
    Some(Making {
        pair: read_pair(parts.next()?)?,
        kind: read_kind(parts.next()?)?,
        label_count: read_decimal(parts.next()?)?,
        x: read_word(parts.next()?)?,
        y: read_word(parts.next()?)?,
        a: read_decimal(parts.next()?)?,
        b: read_decimal(parts.next()?)?,
        c: read_decimal(parts.next()?)?,
        d: read_decimal(parts.next()?)?,
    })
}

fn read_order<'a>(name: &[u8], parts: &mut impl Iterator<Item = &'a [u8]>) -> Option<Order> {
    Some(match name {
        b"ask" => Order::Ask(read_side(parts.next()?)?),
        b"peek" => Order::Peek(read_side(parts.next()?)?, read_decimal(parts.next()?)?),
        b"put" => Order::Put(read_side(parts.next()?)?, read_word(parts.next()?)?),
        b"discard" => Order::Discard(read_side(parts.next()?)?),
        b"sender" => Order::Sender(read_label(parts.next()?)?),
        b"receiver" => Order::Receiver(read_label(parts.next()?)?),
        b"state" => Order::State(read_state(parts.next()?)?),
        b"hand" => Order::Hand(read_payload(parts.next()?)?),
        b"offer" => Order::Offer(read_payload(parts.next()?)?),
        b"send" => Order::Send,
        b"hear" => Order::Hear,
        b"settle" => Order::Settle,
        b"tick" => Order::Tick,
        b"round" => Order::Round,
        b"spin" => Order::Spin(read_decimal(parts.next()?)?),
        b"check" => Order::Check,
        b"clean" => Order::Clean,
        b"observer" => Order::Observer,
        b"ends" => Order::Ends,
        b"handover" => Order::Handover,
        _ => return None,
    })
}

fn read_pair(part: &[u8]) -> Option<Pair> {
    match part {
        b"1" => Some(Pair::LossyRings),
        b"2" => Some(Pair::Rings),
        b"3" => Some(Pair::DelayLines),
        b"4" => Some(Pair::Relays),
        b"5" => Some(Pair::LossyRelay),
        _ => None,
    }
}

fn read_kind(part: &[u8]) -> Option<Kind> {
    match part {
        [letter] => Kind::of_letter(*letter),
        _ => None,
    }
}

fn read_side(part: &[u8]) -> Option<Side> {
    match part {
        b"f" => Some(Side::Forward),
        b"b" => Some(Side::Back),
        _ => None,
    }
}

fn read_state(part: &[u8]) -> Option<State> {
    match part {
        b"0" => Some(State::Idle),
        b"1" => Some(State::UnderWay),
        _ => None,
    }
}

fn read_word(part: &[u8]) -> Option<u64> {
    read_hexadecimal(part, 16)
}

fn read_payload(part: &[u8]) -> Option<u64> {
    read_hexadecimal(part, 9)
}

fn read_label(part: &[u8]) -> Option<u8> {
    u8::try_from(read_decimal(part)?).ok()
}

/// Makes the link of a `link` line.
fn make(making: &Making) -> Box<dyn Subject> {
    match making.kind {
        Kind::Commands => make_of::<Commands>(making),
        Kind::Readings => make_of::<Readings>(making),
    }
}

fn make_of<R: RecordKind + 'static>(making: &Making) -> Box<dyn Subject> {
    let &Making {
        pair,
        label_count,
        x,
        y,
        a,
        b,
        c,
        d,
        ..
    } = making;
    match pair {
        Pair::LossyRings => join::<R>(
            label_count,
            Loss::new(x, Ring::new(a)),
            Loss::new(y, Ring::new(b)),
        ),
        Pair::Rings => join::<R>(label_count, Ring::new(a), Ring::new(b)),
        Pair::DelayLines => join::<R>(label_count, DelayLine::new(a, c), DelayLine::new(b, d)),
        Pair::Relays => join::<R>(
            label_count,
            Relay::new(
                Relay::new(Ring::new(a), DelayLine::new(b, c)),
                Loss::new(x, Ring::new(d)),
            ),
            Relay::new(Ring::new(a), Ring::new(b)),
        ),
        Pair::LossyRelay => join::<R>(
            label_count,
            Loss::new(
                x,
                Relay::new(
                    Loss::new(y, DelayLine::new(a, c)),
                    Relay::new(Ring::new(b), DelayLine::new(a, d)),
                ),
            ),
            Loss::new(y, DelayLine::new(b, d)),
        ),
    }
}

fn join<R: RecordKind + 'static>(
    label_count: u16,
    forward: impl Channel + 'static,
    back: impl Channel + 'static,
) -> Box<dyn Subject> {
    Box::new(Link::<_, _, R>::new(label_count, forward, back, R::first()))
}

/// A link of any channels and any record kind.
pub trait Subject {
    /// Performs an order and answers it.
    fn perform(&mut self, order: Order) -> String;
    /// The link's check.
    fn check(&self) -> Answer;
    /// The label count.
    fn label_count(&self) -> u16;
    /// The label bytes of sender and receiver.
    fn labels(&self) -> (u8, u8);
    /// The capacities forward and back.
    fn capacities(&self) -> (u16, u16);
    /// The loads forward and back.
    fn loads(&self) -> (u16, u16);
}

impl<F: Channel, B: Channel, R: RecordKind> Subject for Link<F, B, R> {
    fn perform(&mut self, order: Order) -> String {
        match order {
            Order::Ask(Side::Forward) => ask(self.forward()),
            Order::Ask(Side::Back) => ask(self.back()),
            Order::Peek(Side::Forward, at) => peek(self.forward(), at),
            Order::Peek(Side::Back, at) => peek(self.back(), at),
            Order::Put(side, word) => single("put", self.put(side, word)),
            Order::Discard(side) => single("discard", self.discard(side)),
            Order::Sender(label) => {
                self.set_sender_label(label);
                done("sender")
            }
            Order::Receiver(label) => {
                self.set_receiver_label(label);
                done("receiver")
            }
            Order::State(state) => {
                self.set_state(state);
                done("state")
            }
            Order::Hand(payload) => {
                let answer = R::unpack(payload).map(|record| self.set_in_hand(record));
                single("hand", answer)
            }
            Order::Offer(payload) => {
                let answer = R::unpack(payload).and_then(|record| self.offer(record));
                single("offer", answer)
            }
            Order::Send => single("send", self.send()),
            Order::Hear => {
                let heard = self.hear();
                several("hear", &[heard.word, heard.reply])
            }
            Order::Settle => single("settle", self.settle()),
            Order::Tick => {
                self.tick();
                done("tick")
            }
            Order::Round => {
                let round = self.round();
                let answers = [
                    round.sent,
                    round.heard.word,
                    round.heard.reply,
                    round.settled,
                ];
                several("round", &answers)
            }
            Order::Spin(times) => {
                spin(self, times);
                observed("spin", self)
            }
            Order::Check => single("check", Link::check(self)),
            Order::Clean => format!("clean {}", u8::from(self.is_clean())),
            Order::Observer => observed("observer", self),
            Order::Ends => ends(self),
            Order::Handover => {
                self.handover();
                done("handover")
            }
        }
    }

    fn check(&self) -> Answer {
        Link::check(self)
    }

    fn label_count(&self) -> u16 {
        Link::label_count(self)
    }

    fn labels(&self) -> (u8, u8) {
        (self.sender().label, self.receiver().label)
    }

    fn capacities(&self) -> (u16, u16) {
        (self.forward().capacity(), self.back().capacity())
    }

    fn loads(&self) -> (u16, u16) {
        (self.forward().load(), self.back().load())
    }
}

fn done(name: &str) -> String {
    single(name, Ok(()))
}

fn single(name: &str, answer: Answer) -> String {
    several(name, &[answer])
}

fn several(name: &str, answers: &[Answer]) -> String {
    let mut text = name.to_string();
    for &answer in answers {
        // Writing to a string does not fail.
        let _ = write!(text, " {}", number(answer));
    }
    text
}

fn ask(channel: &impl Channel) -> String {
    format!(
        "ask {} {} {} {} {}",
        channel.capacity(),
        channel.delay(),
        channel.losses(),
        channel.load(),
        u8::from(channel.is_open())
    )
}

fn peek(channel: &impl Channel, at: u16) -> String {
    match channel.peek(at) {
        Ok(word) => format!("peek 0 {word:016X}"),
        Err(refusal) => single("peek", Err(refusal)),
    }
}

/// So many times an offer of the record in hand, whatever it answers, then a round.
fn spin<F: Channel, B: Channel, R: RecordKind>(link: &mut Link<F, B, R>, times: u16) {
    for _ in 0..times {
        let _ = link.offer(link.sender().in_hand);
        link.round();
    }
}

fn observed<F: Channel, B: Channel, R: RecordKind>(name: &str, link: &Link<F, B, R>) -> String {
    let observer = link.observer();
    format!("{name} {} {}", observer.completed, observer.first_clean)
}

fn ends<F: Channel, B: Channel, R: RecordKind>(link: &Link<F, B, R>) -> String {
    let sender = link.sender();
    let receiver = link.receiver();
    let state = match sender.state {
        State::Idle => 0,
        State::UnderWay => 1,
    };
    format!(
        "ends {} {state} {:09X} {} {:09X}",
        sender.label,
        R::pack(sender.in_hand),
        receiver.label,
        R::pack(receiver.delivered)
    )
}

#[cfg(test)]
mod tests {
    use super::*;

    /// Lines with their answers, separated by `>`.
    fn assert_answers(talk: &str) {
        let mut lab = Lab::default();
        for exchange in talk.lines() {
            let (line, answer) = exchange.trim().split_once(" > ").unwrap();
            assert_eq!(lab.answer(line.as_bytes()), answer, "{line}");
        }
    }

    #[test]
    fn nothing_before_the_first_link() {
        assert_answers(
            "send > ? 12
             ask f > ? 12
             handover > ? 12
             link 6 C 4 0000000000000000 0000000000000000 1 1 0 0 > ? 12
             send > ? 12
             link 2 C 4 0000000000000000 0000000000000000 1 1 0 0 > link 0
             send > send 5",
        );
    }

    #[test]
    fn pairs_have_the_numbers_of_the_page() {
        assert_answers(
            "link 1 C 7 A000000000000000 4000000000000000 2 3 9 9 > link 0
             ask f > ask 2 0 2 0 1
             ask b > ask 3 0 1 0 1
             link 2 C 6 FFFFFFFFFFFFFFFF FFFFFFFFFFFFFFFF 2 3 0 0 > link 3
             ask f > ask 2 0 0 0 1
             ask b > ask 3 0 0 0 1
             link 3 G 256 0000000000000000 0000000000000000 64 65 15 3 > link 0
             ask f > ask 64 15 0 0 1
             ask b > ask 1 0 0 0 1
             link 4 G 16 8000000000000001 0000000000000000 2 3 4 5 > link 3
             ask f > ask 10 6 2 0 1
             ask b > ask 5 1 0 0 1
             link 4 G 17 8000000000000001 0000000000000000 2 3 4 5 > link 0
             link 5 G 12 8000000000000001 0000000000000001 2 3 4 5 > link 0
             ask f > ask 7 11 3 0 1
             ask b > ask 3 5 1 0 1
             link 5 G 256 FFFFFFFFFFFFFFFF FFFFFFFFFFFFFFFF 1 1 0 0 > link 2
             ask f > ask 3 2 128 0 1
             link 2 C 65535 0000000000000000 0000000000000000 1 1 0 0 > link 3
             link 2 C 0 0000000000000000 0000000000000000 1 1 0 0 > link 3",
        );
    }

    #[test]
    fn a_talk() {
        assert_answers(
            "link 2 C 4 0000000000000000 0000000000000000 1 1 0 0 > link 0
             ends > ends 0 0 100000000 0 100000000
             peek f 0 > peek 13
             offer 20000003D > offer 11
             offer 20000003C > offer 0
             offer 20000003D > offer 11
             offer 20000003C > offer 4
             send > send 0
             send > send 6
             ask f > ask 1 0 0 1 0
             peek f 0 > peek 0 01120000003C0EE3
             peek f 65535 > peek 13
             hear > hear 0 0
             peek b 0 > peek 0 0100000000001EF1
             clean > clean 0
             settle > settle 0
             settle > settle 7
             clean > clean 1
             observer > observer 1 1
             put f 0000000000000000 > put 0
             put f 0000000000000000 > put 6
             observer > observer 0 0
             clean > clean 1
             hear > hear 8 7
             discard f > discard 7
             discard b > discard 7
             sender 255 > sender 0
             receiver 254 > receiver 0
             ends > ends 255 0 20000003C 254 20000003C
             hand 300000000 > hand 11
             hand 300000001 > hand 0
             state 1 > state 0
             round > round 0 0 0 0
             ends > ends 255 0 300000001 3 300000001
             tick > tick 0
             check > check 0
             spin 40000 > spin 40001 1
             spin 40000 > spin 65535 1
             handover > handover 0
             spin 0 > spin 0 0",
        );
    }

    /// An unclean wire keeps going round with two labels; the count stops before it is clean.
    #[test]
    fn first_clean_exchange_after_the_stop() {
        let mut lab = Lab::default();
        for line in [
            "link 2 C 2 0000000000000000 0000000000000000 4 1 0 0",
            "offer 100000000",
            "send",
            "state 0",
            "offer 100000000",
            "send",
            "state 0",
        ] {
            lab.answer(line.as_bytes());
        }
        assert_eq!(lab.answer(b"spin 40000"), "spin 40000 0");
        assert_eq!(lab.answer(b"spin 40000"), "spin 65535 0");
        for line in ["hear", "settle", "hear", "settle", "hear", "settle"] {
            lab.answer(line.as_bytes());
        }
        assert_eq!(lab.answer(b"observer"), "observer 65535 0");
        assert_eq!(lab.answer(b"spin 1"), "spin 65535 65535");
    }

    #[test]
    fn lines_of_no_listed_form() {
        let mut lab = Lab::default();
        lab.answer(b"link 2 C 4 0000000000000000 0000000000000000 1 1 0 0");
        for line in [
            "",
            " ",
            "Send",
            "send ",
            " send",
            "send 1",
            "send\r",
            "ask",
            "ask x",
            "ask  f",
            "ask f 0",
            "peek f",
            "peek f 00",
            "peek f -1",
            "peek f 65536",
            "put f 000000000000000",
            "put f 00000000000000000",
            "put f 000000000000000a",
            "sender 256",
            "sender 01",
            "state 2",
            "state",
            "hand 10000000",
            "offer 1000000000",
            "spin 65536",
            "spin 1 ",
            "link",
            "link 2 C 4 0000000000000000 0000000000000000 1 1 0",
            "link 2 C 4 0000000000000000 0000000000000000 1 1 0 0 0",
            "link 2 R 4 0000000000000000 0000000000000000 1 1 0 0",
            "link 2 C 65536 0000000000000000 0000000000000000 1 1 0 0",
        ] {
            assert_eq!(lab.answer(line.as_bytes()), "? 12", "{line}");
        }
        assert_eq!(lab.answer(b"check"), "check 0");
    }
}
