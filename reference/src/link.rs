//! The link: a sender and a receiver, joined by a forward and a back channel.

use crate::channels::Channel;
use crate::kinds::RecordKind;
use crate::refusals::{Answer, Refusal};
use crate::words::Word;

/// Delays and losses left may be no larger than this.
const SPAN_MAX: u16 = 100;

/// Whether an exchange is under way.
#[derive(Clone, Copy, Debug, PartialEq, Eq)]
pub enum State {
    Idle,
    UnderWay,
}

/// The sending end.
#[derive(Clone, Copy, Debug, PartialEq, Eq)]
pub struct Sender<T> {
    /// The label byte as stored; it is read as its remainder by the label count.
    pub label: u8,
    pub state: State,
    pub in_hand: T,
}

/// The receiving end.
#[derive(Clone, Copy, Debug, PartialEq, Eq)]
pub struct Receiver<T> {
    /// The label byte as stored; it is read as its remainder by the label count.
    pub label: u8,
    pub delivered: T,
}

/// Counts completed exchanges. Both numbers stop at 65,535.
#[derive(Clone, Copy, Debug, Default, PartialEq, Eq)]
pub struct Observer {
    /// How many exchanges were completed.
    pub completed: u16,
    /// Which of them first left the link clean, 0 while none has.
    pub first_clean: u16,
}

impl Observer {
    /// Notes a completed exchange.
    fn note(&mut self, clean: bool) {
        self.completed = self.completed.saturating_add(1);
        if clean && self.first_clean == 0 {
            self.first_clean = self.completed;
        }
    }
}

/// The two answers of a hear.
#[derive(Clone, Copy, Debug, PartialEq, Eq)]
pub struct Heard {
    /// What was heard; done means that a record was delivered.
    pub word: Answer,
    /// What the reply's put answered, `silent` where there was no reply.
    pub reply: Answer,
}

impl Heard {
    /// Nothing that calls for a reply.
    fn without_reply(refusal: Refusal) -> Heard {
        Heard {
            word: Err(refusal),
            reply: Err(Refusal::Silent),
        }
    }

    /// Whether a record was delivered.
    pub fn delivers(self) -> bool {
        self.word.is_ok()
    }
}

/// The four answers of a round.
#[derive(Clone, Copy, Debug, PartialEq, Eq)]
pub struct Round {
    pub sent: Answer,
    pub heard: Heard,
    pub settled: Answer,
}

/// A direction of the link.
#[derive(Clone, Copy, Debug, PartialEq, Eq)]
pub enum Side {
    Forward,
    Back,
}

/// Refuses channels and a label count that do not suit one another: `span`, then `labels`.
pub fn check(forward: &impl Channel, back: &impl Channel, label_count: u16) -> Answer {
    let spans = [
        forward.delay(),
        forward.losses(),
        back.delay(),
        back.losses(),
    ];
    if spans.iter().any(|&span| span > SPAN_MAX) {
        return Err(Refusal::Span);
    }
    let least = u32::from(forward.capacity()) + u32::from(back.capacity()) + 2;
    if (least..=256).contains(&u32::from(label_count)) {
        Ok(())
    } else {
        Err(Refusal::Labels)
    }
}

/// A sender and a receiver of records of kind `R`, with channels `F` forward and `B` back.
#[derive(Clone, Debug)]
pub struct Link<F, B, R: RecordKind> {
    label_count: u16,
    sender: Sender<R::Record>,
    receiver: Receiver<R::Record>,
    forward: F,
    back: B,
    observer: Observer,
}

impl<F: Channel, B: Channel, R: RecordKind> Link<F, B, R> {
    /// A link at rest whose ends hold a record. A label count outside 2 to 256 becomes 2.
    pub fn new(label_count: u16, forward: F, back: B, record: R::Record) -> Self {
        let label_count = if (2..=256).contains(&label_count) {
            label_count
        } else {
            2
        };
        Link {
            label_count,
            sender: Sender {
                label: 0,
                state: State::Idle,
                in_hand: record,
            },
            receiver: Receiver {
                label: 0,
                delivered: record,
            },
            forward,
            back,
            observer: Observer::default(),
        }
    }

    /// Refuses as the check of its channels and its label count does.
    pub fn check(&self) -> Answer {
        check(&self.forward, &self.back, self.label_count)
    }

    pub fn label_count(&self) -> u16 {
        self.label_count
    }

    pub fn sender(&self) -> &Sender<R::Record> {
        &self.sender
    }

    pub fn receiver(&self) -> &Receiver<R::Record> {
        &self.receiver
    }

    pub fn forward(&self) -> &F {
        &self.forward
    }

    pub fn back(&self) -> &B {
        &self.back
    }

    pub fn observer(&self) -> Observer {
        self.observer
    }

    /// A stored label byte, as it is read.
    fn as_label(&self, byte: u8) -> u8 {
        (u16::from(byte) % self.label_count) as u8
    }

    fn sender_label(&self) -> u8 {
        self.as_label(self.sender.label)
    }

    fn receiver_label(&self) -> u8 {
        self.as_label(self.receiver.label)
    }

    fn next_label(&self) -> u8 {
        ((u16::from(self.sender_label()) + 1) % self.label_count) as u8
    }

    /// A whole word with one of the link's labels.
    fn read(&self, bits: u64) -> Option<Word> {
        Word::read(bits).filter(|word| u16::from(word.label) < self.label_count)
    }

    /// Label and record of a forward word, unless it is spoilt there.
    fn read_forward(&self, bits: u64) -> Option<(u8, R::Record)> {
        let word = self.read(bits).filter(|word| word.kind == R::NUMBER)?;
        let record = R::unpack(word.payload).ok()?;
        Some((word.label, record))
    }

    /// The label that a back word acknowledges, unless it is spoilt there.
    fn read_back(&self, bits: u64) -> Option<u8> {
        self.read(bits)
            .filter(|word| word.is_acknowledgement())
            .map(|word| word.label)
    }

    /// Accepts a record; `busy` while an exchange is under way.
    pub fn offer(&mut self, record: R::Record) -> Answer {
        if self.sender.state == State::UnderWay {
            return Err(Refusal::Busy);
        }
        self.sender = Sender {
            label: self.next_label(),
            state: State::UnderWay,
            in_hand: record,
        };
        Ok(())
    }

    /// Puts the record in hand forward; `idle` while no exchange is under way.
    pub fn send(&mut self) -> Answer {
        if self.sender.state == State::Idle {
            return Err(Refusal::Idle);
        }
        let word = Word {
            label: self.sender_label(),
            kind: R::NUMBER,
            payload: R::pack(self.sender.in_hand),
        };
        self.forward.put(word.pack())
    }

    /// Takes a word from the forward channel, delivers it if it is new, and acknowledges it.
    pub fn hear(&mut self) -> Heard {
        let Ok(bits) = self.forward.take() else {
            return Heard::without_reply(Refusal::Silent);
        };
        let Some((label, record)) = self.read_forward(bits) else {
            return Heard::without_reply(Refusal::Spoilt);
        };
        let word = if label == self.receiver_label() {
            Err(Refusal::Repeat)
        } else {
            self.receiver = Receiver {
                label,
                delivered: record,
            };
            Ok(())
        };
        let reply = self.back.put(Word::acknowledgement(label).pack());
        Heard { word, reply }
    }

    /// Takes a word from the back channel and completes the exchange that it acknowledges.
    pub fn settle(&mut self) -> Answer {
        let bits = self.back.take().map_err(|_| Refusal::Silent)?;
        let label = self.read_back(bits).ok_or(Refusal::Spoilt)?;
        if self.sender.state == State::Idle || label != self.sender_label() {
            return Err(Refusal::Stale);
        }
        self.sender.state = State::Idle;
        let clean = self.is_clean();
        self.observer.note(clean);
        Ok(())
    }

    /// One unit of time passes in both channels.
    pub fn tick(&mut self) {
        self.forward.tick();
        self.back.tick();
    }

    /// Send, hear, settle and tick.
    pub fn round(&mut self) -> Round {
        let sent = self.send();
        let heard = self.hear();
        let settled = self.settle();
        self.tick();
        Round {
            sent,
            heard,
            settled,
        }
    }

    /// Whether the sender is idle and no label but its own is in play.
    pub fn is_clean(&self) -> bool {
        let label = self.sender_label();
        self.sender.state == State::Idle
            && self.receiver_label() == label
            && words(&self.forward)
                .filter_map(|bits| self.read_forward(bits))
                .all(|(carried, _)| carried == label)
            && words(&self.back)
                .filter_map(|bits| self.read_back(bits))
                .all(|carried| carried == label)
    }

    /// Starts a stretch without faults: the observer begins anew.
    pub fn handover(&mut self) {
        self.observer = Observer::default();
    }

    /// Fault: another label byte at the sender.
    pub fn set_sender_label(&mut self, label: u8) {
        self.sender.label = label;
        self.handover();
    }

    /// Fault: another label byte at the receiver.
    pub fn set_receiver_label(&mut self, label: u8) {
        self.receiver.label = label;
        self.handover();
    }

    /// Fault: another state of the sender.
    pub fn set_state(&mut self, state: State) {
        self.sender.state = state;
        self.handover();
    }

    /// Fault: another record in hand.
    pub fn set_in_hand(&mut self, record: R::Record) {
        self.sender.in_hand = record;
        self.handover();
    }

    /// Fault: a raw word on a side; `full` where its channel is closed.
    pub fn put(&mut self, side: Side, bits: u64) -> Answer {
        match side {
            Side::Forward => self.forward.put(bits)?,
            Side::Back => self.back.put(bits)?,
        }
        self.handover();
        Ok(())
    }

    /// Fault: the oldest word of a side is gone; `silent` where none is ready.
    pub fn discard(&mut self, side: Side) -> Answer {
        match side {
            Side::Forward => self.forward.take()?,
            Side::Back => self.back.take()?,
        };
        self.handover();
        Ok(())
    }
}

/// The words of a channel below its answered load.
fn words(channel: &impl Channel) -> impl Iterator<Item = u64> {
    (0..channel.load()).filter_map(|at| channel.peek(at).ok())
}

#[cfg(test)]
mod tests {
    use super::*;
    use crate::channels::{DelayLine, Loss, Relay, Ring};
    use crate::kinds::{Command, Commands, Reading, Readings};

    type Rings = Link<Ring, Ring, Commands>;

    fn rings(forward: u16, back: u16, label_count: u16) -> Rings {
        Link::new(
            label_count,
            Ring::new(forward),
            Ring::new(back),
            Command::Stop,
        )
    }

    fn command(payload: u64) -> Command {
        Commands::unpack(payload).unwrap()
    }

    fn command_word(label: u8, payload: u64) -> u64 {
        Word {
            label,
            kind: 1,
            payload,
        }
        .pack()
    }

    fn labels_of(channel: &impl Channel) -> Vec<u8> {
        words(channel).map(|bits| (bits >> 56) as u8).collect()
    }

    const DELIVERED: Heard = Heard {
        word: Ok(()),
        reply: Ok(()),
    };

    const SPOILT: Heard = Heard {
        word: Err(Refusal::Spoilt),
        reply: Err(Refusal::Silent),
    };

    #[test]
    fn the_check_refuses_spans_before_labels() {
        let lossy = Loss::new(u64::MAX, Loss::new(u64::MAX, Ring::new(1)));
        assert_eq!(check(&lossy, &Ring::new(1), 4), Err(Refusal::Span));
        assert_eq!(check(&Ring::new(1), &lossy, 0), Err(Refusal::Span));
        let hundred = Loss::new(u64::MAX, Loss::new(u64::MAX << 28, Ring::new(1)));
        assert_eq!(hundred.losses(), 100);
        assert_eq!(check(&hundred, &hundred, 4), Ok(()));
        let ring = Ring::new(1);
        assert_eq!(check(&ring, &ring, 3), Err(Refusal::Labels));
        assert_eq!(check(&ring, &ring, 4), Ok(()));
        assert_eq!(check(&ring, &ring, 256), Ok(()));
        assert_eq!(check(&ring, &ring, 257), Err(Refusal::Labels));
        assert_eq!(check(&ring, &ring, 0), Err(Refusal::Labels));
    }

    #[test]
    fn the_check_refuses_long_delays() {
        fn longer(line: impl Channel) -> impl Channel {
            Relay::new(DelayLine::new(1, 15), line)
        }
        let line = longer(longer(longer(longer(longer(DelayLine::new(1, 15))))));
        assert_eq!(line.delay(), 95);
        assert_eq!(check(&line, &line, 256), Ok(()));
        let line = Relay::new(DelayLine::new(1, 4), line);
        assert_eq!(line.delay(), 100);
        assert_eq!(check(&line, &line, 256), Ok(()));
        let line = Relay::new(Ring::new(1), line);
        assert_eq!(line.delay(), 101);
        assert_eq!(check(&line, &Ring::new(1), 256), Err(Refusal::Span));
        assert_eq!(check(&Ring::new(1), &line, 256), Err(Refusal::Span));
    }

    #[test]
    fn a_made_link_has_a_label_count_from_2_to_256() {
        for (asked, made) in [(0, 2), (1, 2), (2, 2), (256, 256), (257, 2), (65_535, 2)] {
            assert_eq!(rings(1, 1, asked).label_count(), made);
        }
        assert_eq!(rings(1, 1, 257).check(), Err(Refusal::Labels));
    }

    #[test]
    fn an_exchange_in_one_round() {
        let mut link = rings(1, 1, 4);
        assert!(link.is_clean());
        assert_eq!(link.offer(command(0x3_0000_0002)), Ok(()));
        assert!(!link.is_clean());
        assert_eq!(link.offer(Command::Stop), Err(Refusal::Busy));
        let round = link.round();
        assert_eq!(round.sent, Ok(()));
        assert_eq!(round.heard, DELIVERED);
        assert_eq!(round.settled, Ok(()));
        assert_eq!(link.receiver().delivered, command(0x3_0000_0002));
        assert_eq!((link.sender().label, link.receiver().label), (1, 1));
        assert!(link.is_clean());
        assert_eq!(
            link.observer(),
            Observer {
                completed: 1,
                first_clean: 1
            }
        );
        let idle = link.round();
        assert_eq!(idle.sent, Err(Refusal::Idle));
        assert_eq!(idle.heard, Heard::without_reply(Refusal::Silent));
        assert_eq!(idle.settled, Err(Refusal::Silent));
    }

    #[test]
    fn labels_go_round() {
        let mut link = rings(1, 1, 4);
        for expected in [1, 2, 3, 0, 1] {
            assert_eq!(link.offer(Command::Stop), Ok(()));
            assert_eq!(link.sender().label, expected);
            assert_eq!(link.round().settled, Ok(()));
        }
    }

    #[test]
    fn label_bytes_are_read_as_remainders() {
        let mut link = rings(1, 1, 5);
        link.set_sender_label(254);
        link.set_receiver_label(255);
        assert_eq!(link.offer(Command::ZeroScale), Ok(()));
        assert_eq!(link.sender().label, 0);
        let round = link.round();
        assert_eq!(round.heard.word, Err(Refusal::Repeat));
        assert_eq!(round.settled, Ok(()));
        assert_eq!(link.receiver().label, 255);
        assert_eq!(link.receiver().delivered, Command::Stop);
        assert!(link.is_clean());
    }

    #[test]
    fn a_repeat_keeps_the_record() {
        let mut link = rings(1, 1, 4);
        assert_eq!(
            link.put(Side::Forward, command_word(0, 0x2_0000_0001)),
            Ok(())
        );
        let heard = link.hear();
        assert_eq!(heard.word, Err(Refusal::Repeat));
        assert_eq!(heard.reply, Ok(()));
        assert_eq!(link.receiver().delivered, Command::Stop);
        assert_eq!(link.settle(), Err(Refusal::Stale));
    }

    #[test]
    fn forward_words_that_are_spoilt() {
        let mut link = rings(1, 1, 4);
        let label_too_large = command_word(4, 0x1_0000_0000);
        let other_kind = Word {
            label: 1,
            kind: 2,
            payload: 0x1_0000_0000,
        };
        let no_record = command_word(1, 0x6_0000_0000);
        let repeat_without_record = command_word(0, 0);
        let not_whole = command_word(1, 0x1_0000_0000) ^ 1;
        for bits in [
            label_too_large,
            other_kind.pack(),
            no_record,
            repeat_without_record,
            not_whole,
            Word::acknowledgement(1).pack(),
        ] {
            assert_eq!(link.put(Side::Forward, bits), Ok(()));
            assert_eq!(link.hear(), SPOILT, "{bits:016X}");
            assert_eq!(link.hear().word, Err(Refusal::Silent));
        }
        assert_eq!(link.receiver().label, 0);
    }

    #[test]
    fn back_words_that_are_spoilt() {
        let mut link = rings(1, 1, 4);
        assert_eq!(link.offer(Command::Stop), Ok(()));
        let with_payload = Word {
            label: 1,
            kind: 0,
            payload: 1,
        };
        for bits in [
            Word::acknowledgement(4).pack(),
            Word::acknowledgement(1).pack() ^ 2,
            with_payload.pack(),
            command_word(1, 0x1_0000_0000),
        ] {
            assert_eq!(link.put(Side::Back, bits), Ok(()));
            assert_eq!(link.settle(), Err(Refusal::Spoilt), "{bits:016X}");
            assert_eq!(link.settle(), Err(Refusal::Silent));
        }
        assert_eq!(link.sender().state, State::UnderWay);
    }

    #[test]
    fn a_refused_reply_leaves_the_delivery() {
        let mut link = rings(1, 1, 4);
        assert_eq!(link.put(Side::Back, 0), Ok(()));
        assert_eq!(link.offer(Command::ZeroScale), Ok(()));
        assert_eq!(link.send(), Ok(()));
        assert_eq!(link.send(), Err(Refusal::Full));
        assert_eq!(
            link.hear(),
            Heard {
                word: Ok(()),
                reply: Err(Refusal::Full)
            }
        );
        assert_eq!(link.receiver().label, 1);
        assert_eq!(link.receiver().delivered, Command::ZeroScale);
    }

    #[test]
    fn only_readable_words_count_for_clean() {
        let mut link = rings(2, 2, 4);
        for (side, bits) in [(Side::Forward, 0), (Side::Back, command_word(1, 0))] {
            assert_eq!(link.put(side, bits), Ok(()));
            assert!(link.is_clean());
        }
        assert_eq!(
            link.put(Side::Back, Word::acknowledgement(0).pack()),
            Ok(())
        );
        assert!(link.is_clean());
        assert_eq!(
            link.put(Side::Forward, command_word(1, 0x1_0000_0000)),
            Ok(())
        );
        assert!(!link.is_clean());
        assert_eq!(link.discard(Side::Forward), Ok(()));
        assert_eq!(link.discard(Side::Forward), Ok(()));
        assert_eq!(link.discard(Side::Forward), Err(Refusal::Silent));
        assert!(link.is_clean());
        link.set_receiver_label(1);
        assert!(!link.is_clean());
    }

    #[test]
    fn accepted_faults_reset_the_observer_and_refused_ones_do_not() {
        let mut link = rings(1, 1, 4);
        let complete = |link: &mut Rings| {
            assert_eq!(link.offer(Command::Stop), Ok(()));
            assert_eq!(link.round().settled, Ok(()));
            assert_ne!(link.observer(), Observer::default());
        };
        complete(&mut link);
        let before = link.observer();
        assert_eq!(link.discard(Side::Forward), Err(Refusal::Silent));
        assert_eq!(link.discard(Side::Back), Err(Refusal::Silent));
        assert_eq!(link.observer(), before);

        link.set_sender_label(link.sender().label);
        assert_eq!(link.observer(), Observer::default());
        complete(&mut link);
        link.set_receiver_label(link.receiver().label);
        assert_eq!(link.observer(), Observer::default());
        complete(&mut link);
        link.set_state(State::Idle);
        assert_eq!(link.observer(), Observer::default());
        complete(&mut link);
        link.set_in_hand(Command::ZeroScale);
        assert_eq!(link.observer(), Observer::default());
        complete(&mut link);
        link.handover();
        assert_eq!(link.observer(), Observer::default());

        assert_eq!(link.put(Side::Forward, 0), Ok(()));
        assert_eq!(link.put(Side::Back, 0), Ok(()));
        assert_eq!(link.offer(Command::Stop), Ok(()));
        assert_eq!(link.hear().word, Err(Refusal::Spoilt));
        assert_eq!(link.settle(), Err(Refusal::Spoilt));
        assert_eq!(link.round().settled, Ok(()));
        assert_eq!(link.offer(Command::Stop), Ok(()));
        assert_eq!(link.send(), Ok(()));
        let before = link.observer();
        assert_eq!(link.put(Side::Forward, 0), Err(Refusal::Full));
        assert_eq!(link.observer(), before);
        assert_eq!(link.discard(Side::Forward), Ok(()));
        assert_eq!(link.observer(), Observer::default());
    }

    #[test]
    fn the_observer_stops() {
        let mut observer = Observer {
            completed: 65_534,
            first_clean: 0,
        };
        observer.note(false);
        observer.note(false);
        assert_eq!((observer.completed, observer.first_clean), (65_535, 0));
        observer.note(true);
        assert_eq!((observer.completed, observer.first_clean), (65_535, 65_535));
        observer.note(true);
        assert_eq!((observer.completed, observer.first_clean), (65_535, 65_535));
    }

    #[test]
    fn readings_go_over_the_link() {
        let mut link: Link<Ring, Ring, Readings> =
            Link::new(4, Ring::new(1), Ring::new(1), Readings::first());
        let reading: Reading = Readings::unpack(0x2_8271_1400).unwrap();
        link.set_sender_label(4);
        assert_eq!(link.offer(reading), Ok(()));
        assert_eq!(link.send(), Ok(()));
        let expected = Word {
            label: 1,
            kind: 2,
            payload: 0x2_8271_1400,
        };
        assert_eq!(link.forward().peek(0), Ok(expected.pack()));
        assert_eq!(link.hear(), DELIVERED);
        assert_eq!(link.receiver().delivered, reading);
    }

    /// The table "A worst start" of the recovery page.
    #[test]
    fn a_worst_start() {
        let mut link = rings(2, 1, 5);
        assert_eq!(link.check(), Ok(()));
        let stop = 0x1_0000_0000;
        assert_eq!(link.put(Side::Forward, command_word(2, stop)), Ok(()));
        assert_eq!(link.put(Side::Forward, command_word(3, stop)), Ok(()));
        assert_eq!(
            link.put(Side::Back, Word::acknowledgement(1).pack()),
            Ok(())
        );
        link.handover();
        let expect = |link: &Rings, forward: &[u8], back: &[u8], receiver, completed, first| {
            assert_eq!(labels_of(link.forward()), forward);
            assert_eq!(labels_of(link.back()), back);
            assert_eq!(link.receiver().label, receiver);
            let observer = link.observer();
            assert_eq!(
                (observer.completed, observer.first_clean),
                (completed, first)
            );
        };
        assert_eq!(link.offer(Command::Stop), Ok(()));
        assert_eq!(link.settle(), Ok(()));
        expect(&link, &[2, 3], &[], 0, 1, 0);
        assert_eq!(link.offer(Command::Stop), Ok(()));
        assert_eq!(link.hear(), DELIVERED);
        expect(&link, &[3], &[2], 2, 1, 0);
        assert_eq!(link.send(), Ok(()));
        assert_eq!(link.settle(), Ok(()));
        expect(&link, &[3, 2], &[], 2, 2, 0);
        assert_eq!(link.offer(Command::Stop), Ok(()));
        assert_eq!(link.hear(), DELIVERED);
        assert_eq!(link.settle(), Ok(()));
        expect(&link, &[2], &[], 3, 3, 0);
        assert_eq!(link.offer(Command::Stop), Ok(()));
        assert_eq!(link.hear(), DELIVERED);
        assert_eq!(link.settle(), Err(Refusal::Stale));
        expect(&link, &[], &[], 2, 3, 0);
        assert_eq!(link.send(), Ok(()));
        assert_eq!(link.hear(), DELIVERED);
        assert_eq!(link.settle(), Ok(()));
        expect(&link, &[], &[], 4, 4, 4);
    }
}
