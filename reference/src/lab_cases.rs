//! Lab lines from a seed.

use crate::chance::Chance;
use crate::lab::Lab;
use crate::link::Side;
use crate::material::{self, Labels, Sort};
use crate::script::Kind;

/// Lab lines about so many links, each with its line end, one text for each link.
pub fn talks(seed: u64, count: usize) -> impl Iterator<Item = Vec<u8>> {
    let mut maker = Maker {
        chance: Chance::new(seed),
        lab: Lab::default(),
        kind: Kind::Commands,
        text: Vec::new(),
    };
    (0..count).map(move |number| maker.talk(number))
}

/// A maker of lines that knows the link they act on.
struct Maker {
    chance: Chance,
    lab: Lab,
    kind: Kind,
    text: Vec<u8>,
}

/// What a random line is to do.
#[derive(Clone, Copy, Debug)]
enum Act {
    Ask,
    Peek,
    Put,
    Cram,
    Discard,
    Label,
    State,
    Hand,
    Offer,
    Step(&'static str),
    Wait,
    Spin,
    Slip,
}

const ACTS: &[(u64, Act)] = &[
    (6, Act::Ask),
    (6, Act::Peek),
    (12, Act::Put),
    (2, Act::Cram),
    (3, Act::Discard),
    (4, Act::Label),
    (2, Act::State),
    (2, Act::Hand),
    (14, Act::Offer),
    (12, Act::Step("send")),
    (12, Act::Step("hear")),
    (12, Act::Step("settle")),
    (8, Act::Step("tick")),
    (2, Act::Wait),
    (12, Act::Step("round")),
    (1, Act::Spin),
    (2, Act::Step("check")),
    (5, Act::Step("clean")),
    (4, Act::Step("observer")),
    (5, Act::Step("ends")),
    (1, Act::Step("handover")),
    (2, Act::Slip),
];

const FORWARD_SORTS: &[(u64, Sort)] = &[
    (16, Sort::Record),
    (1, Sort::Acknowledgement),
    (1, Sort::ChangedBit),
    (1, Sort::OtherCheck),
    (2, Sort::LargeLabel),
    (1, Sort::OtherKind),
    (1, Sort::NoRecord),
    (1, Sort::Anything),
];

const BACK_SORTS: &[(u64, Sort)] = &[
    (16, Sort::Acknowledgement),
    (1, Sort::Record),
    (1, Sort::ChangedBit),
    (1, Sort::OtherCheck),
    (2, Sort::LargeLabelAcknowledged),
    (1, Sort::LoadedAcknowledgement),
    (1, Sort::Anything),
];

/// Pairs to fill, with their capacities.
const FILLED: [(u64, u64); 5] = [(1, 0), (2, 65), (3, 64), (4, 1), (5, 2)];

/// Label counts at the limits and beyond.
const LABEL_COUNTS: [u64; 7] = [0, 1, 2, 255, 256, 257, 65_535];

/// Lines of no listed form.
const SLIPS: [&str; 40] = [
    "",
    " ",
    "x",
    "Send",
    "send ",
    " send",
    "round 1",
    "ask",
    "ask F",
    "ask  f",
    "ask f 1",
    "peek f",
    "peek f 00",
    "peek f :",
    "peek b 65536",
    "peek b 100000",
    "peek b +1",
    "put f 000000000000000",
    "put f 000000000000000:",
    "put b 000000000000fff1",
    "put 0000000000000000",
    "discard",
    "sender 256",
    "receiver 007",
    "receiver -1",
    "state 2",
    "state",
    "hand 1",
    "hand 10000000@",
    "offer 10000000G",
    "offer 1000000000",
    "spin 65536",
    "spin",
    "link",
    "link 6 C 4 0000000000000000 0000000000000000 1 1 0 0",
    "link 2 R 4 0000000000000000 0000000000000000 1 1 0 0",
    "link 2 C 65536 0000000000000000 0000000000000000 1 1 0 0",
    "link 2 C 4 000000000000000 0000000000000000 1 1 0 0",
    "link 2 C 4 0000000000000000 0000000000000000 01 1 0 0",
    "link 2 C 4 0000000000000000 0000000000000000 1 1 0 0 0",
];

/// What a `link` line asks for.
#[derive(Clone, Copy, Debug)]
struct Making {
    pair: u64,
    kind: Kind,
    patterns: [u64; 2],
    sizes: [u64; 4],
}

impl Making {
    fn line(&self, label_count: u64) -> String {
        let letter = self.kind.letter();
        let [x, y] = self.patterns;
        let [a, b, c, d] = self.sizes;
        let pair = self.pair;
        format!("link {pair} {letter} {label_count} {x:016X} {y:016X} {a} {b} {c} {d}")
    }

    /// The capacities of both channels together.
    fn capacity(&self) -> u64 {
        let mut lab = Lab::default();
        lab.answer(self.line(2).as_bytes());
        let (forward, back) = lab.subject().map_or((0, 0), |link| link.capacities());
        u64::from(forward) + u64::from(back)
    }
}

impl Maker {
    /// The lines about one link: the first talks are directed, the others random.
    fn talk(&mut self, number: usize) -> Vec<u8> {
        match number {
            0 => {
                self.before_the_first_link();
                self.random_talk();
            }
            1 => self.stop_of_the_count(),
            2 => self.clean_after_the_stop(),
            3 => self.losses_spent(),
            4..=8 => self.refused_replies(number as u64 - 3),
            9..=25 => self.delayed_talk(number as u64 - 9),
            26..=30 => {
                let (pair, size) = FILLED[number - 26];
                self.filled_talk(pair, [size, size, 0, size]);
            }
            31..=37 => {
                let making = self.random_making();
                self.make(making, LABEL_COUNTS[number - 31]);
                self.random_lines();
            }
            38 | 39 => self.faults_after_exchange(),
            40 => self.slips(),
            _ if self.chance.one_in(400) => self.stop_of_the_count(),
            _ if self.chance.one_in(80) => {
                let pair = self.chance.from_to(1, 5);
                self.filled_talk(pair, [64, 20, 3, 9]);
            }
            _ => self.random_talk(),
        }
        std::mem::take(&mut self.text)
    }

    /// Adds a line, and performs it.
    fn say(&mut self, line: impl AsRef<[u8]>) {
        let line = line.as_ref();
        self.lab.answer(line);
        self.text.extend_from_slice(line);
        self.text.push(b'\n');
    }

    fn before_the_first_link(&mut self) {
        for line in ["send", "ask f", "handover", "", "link 2 C 4", "spin 1"] {
            self.say(line);
        }
    }

    fn make(&mut self, making: Making, label_count: u64) {
        self.kind = making.kind;
        self.say(making.line(label_count));
    }

    fn random_talk(&mut self) {
        let making = self.random_making();
        let label_count = self.random_label_count(making.capacity());
        self.make(making, label_count);
        self.random_lines();
    }

    fn random_lines(&mut self) {
        let lines = self.chance.from_to(15, 60);
        for _ in 0..lines {
            self.random_line();
        }
        for line in ["ask f", "ask b", "ends", "clean", "observer", "check"] {
            self.say(line);
        }
    }

    /// Every fault call after a completed exchange, accepted and refused, with the observer.
    fn faults_after_exchange(&mut self) {
        let making = Making {
            sizes: [2, 2, 0, 0],
            ..self.small_rings()
        };
        self.make(making, 6);
        let payload = material::record(&mut self.chance, self.kind);
        for fault in [
            "sender 2".to_string(),
            "receiver 2".to_string(),
            "state 0".to_string(),
            "state 1".to_string(),
            format!("hand {payload:09X}"),
            "hand 000000000".to_string(),
            "put f 0000000000000000".to_string(),
            "put b 0000000000000000".to_string(),
            "discard f".to_string(),
            "discard b".to_string(),
            "handover".to_string(),
        ] {
            self.say("spin 9");
            self.say(&fault);
            self.say("observer");
        }
        // A word on its way both ways, and then as many as there is room for.
        for line in [
            "discard f",
            "discard b",
            "put f 0000000000000000",
            "put b 0000000000000000",
        ] {
            self.say("spin 9");
            self.say(format!("offer {payload:09X}"));
            let words = if line.starts_with("put") { 2 } else { 1 };
            for _ in 0..words {
                self.say("send");
                self.say("hear");
            }
            for _ in 0..words {
                self.say("send");
            }
            self.say("observer");
            self.say(line);
            self.say("observer");
        }
    }

    /// Every line of no listed form, after each of which nothing has changed.
    fn slips(&mut self) {
        let making = self.small_rings();
        self.make(making, 4);
        for line in SLIPS {
            self.say(line);
            self.say("ends");
        }
    }

    /// Words that wait: each step is tried before and after every tick.
    fn delayed_talk(&mut self, delay: u64) {
        let making = Making {
            pair: self.chance.pick(&[3, 5]),
            kind: self.random_kind(),
            patterns: [0, 0],
            sizes: [2, 2, delay, delay],
        };
        self.make(making, 256);
        self.ask();
        let payload = material::record(&mut self.chance, self.kind);
        self.say(format!("offer {payload:09X}"));
        self.say("send");
        self.put(Side::Back);
        for _ in 0..=delay.min(16) {
            self.say("hear");
            self.say("settle");
            self.say("tick");
        }
        self.say("send");
        self.say("spin 30");
        self.say("ends");
    }

    /// Puts words until both channels are full, and looks at them from end to end.
    fn filled_talk(&mut self, pair: u64, sizes: [u64; 4]) {
        let making = Making {
            pair,
            kind: self.random_kind(),
            patterns: [self.random_pattern(), 0],
            sizes,
        };
        self.make(making, 256);
        for side in [Side::Forward, Side::Back] {
            for _ in 0..making.capacity() / 2 + 2 {
                self.put(side);
                if self.chance.one_in(4) {
                    self.say("tick");
                }
            }
        }
        for _ in 0..12 {
            self.peek();
            self.ask();
            self.discard();
        }
        self.say("clean");
    }

    /// The count stops at 65,535, long after the first clean exchange.
    fn stop_of_the_count(&mut self) {
        let making = self.small_rings();
        self.make(making, 4);
        for line in ["spin 40000", "observer", "spin 40000", "spin 1", "ends"] {
            self.say(line);
        }
        self.say("handover");
        self.say("spin 3");
    }

    /// Two labels and words always on their way: the first clean exchange comes after the count
    /// has stopped.
    fn clean_after_the_stop(&mut self) {
        let making = Making {
            sizes: [4, 1, 0, 0],
            ..self.small_rings()
        };
        self.make(making, 2);
        let payload = material::record(&mut self.chance, self.kind);
        for _ in 0..2 {
            self.say(format!("offer {payload:09X}"));
            self.say("send");
            self.say("state 0");
        }
        self.say("clean");
        self.say("spin 40000");
        self.say("spin 40000");
        for _ in 0..4 {
            self.say("hear");
            self.say("settle");
        }
        self.say("observer");
        self.say("spin 1");
        self.say("spin 1");
        self.say("put b 0000000000000000");
        self.say("observer");
    }

    /// More losses than a link may have, until puts have spent enough of them.
    fn losses_spent(&mut self) {
        let making = Making {
            pair: 5,
            kind: self.random_kind(),
            patterns: [u64::MAX, u64::MAX],
            sizes: [1, 1, 0, 0],
        };
        self.make(making, 256);
        for _ in 0..27 {
            self.put(Side::Forward);
        }
        for line in ["check", "ask f", "ask b"] {
            self.say(line);
        }
        self.put(Side::Forward);
        for line in ["check", "ask f", "ask b"] {
            self.say(line);
        }
    }

    /// A delivery and a repeat whose replies find the back channel full, and a spoilt word.
    fn refused_replies(&mut self, pair: u64) {
        let making = Making {
            pair,
            kind: self.random_kind(),
            patterns: [0, 0],
            sizes: [1, 1, 0, 1],
        };
        self.make(making, 256);
        for _ in 0..3 {
            self.put(Side::Back);
            self.say("tick");
        }
        let label = self.chance.from_to(1, 255) as u8;
        let word = material::labelled(&mut self.chance, self.kind, label, Sort::Record);
        for word in [word, word, word ^ 1] {
            self.say(format!("put f {word:016X}"));
            for _ in 0..4 {
                self.say("tick");
            }
            self.say("hear");
            self.say("ends");
        }
        let payload = material::no_record(&mut self.chance, self.kind);
        self.say(format!("hand {payload:09X}"));
        for line in [
            "ends", "spin 40", "observer", "handover", "spin 40", "observer",
        ] {
            self.say(line);
        }
    }

    fn small_rings(&mut self) -> Making {
        Making {
            pair: 2,
            kind: self.random_kind(),
            patterns: [0, 0],
            sizes: [1, 1, 0, 0],
        }
    }

    fn random_kind(&mut self) -> Kind {
        self.chance.pick(&[Kind::Commands, Kind::Readings])
    }

    fn random_making(&mut self) -> Making {
        let pair = self.chance.from_to(1, 5);
        let sizes = [
            self.random_capacity(),
            self.random_capacity(),
            self.random_delay(),
            if pair == 4 {
                self.random_capacity()
            } else {
                self.random_delay()
            },
        ];
        Making {
            pair,
            kind: self.random_kind(),
            patterns: [self.random_pattern(), self.random_pattern()],
            sizes,
        }
    }

    fn random_capacity(&mut self) -> u64 {
        match self.chance.below(16) {
            0..=10 => self.chance.from_to(1, 4),
            11 => 2,
            12 => 64,
            13 => self.chance.pick(&[0, 65, 65_535]),
            _ => self.chance.from_to(1, 64),
        }
    }

    fn random_delay(&mut self) -> u64 {
        match self.chance.below(12) {
            0..=7 => self.chance.below(4),
            8 => self.chance.pick(&[15, 16, 65_535]),
            _ => self.chance.from_to(0, 15),
        }
    }

    fn random_pattern(&mut self) -> u64 {
        let bits = self.chance.bits();
        match self.chance.below(10) {
            0..=2 => 0,
            3 => 1 << 63,
            4 => 1,
            5 => 1 << 63 | 1,
            6 => u64::MAX,
            7 => bits,
            _ => bits & bits.rotate_left(17) & bits.rotate_left(40),
        }
    }

    fn random_label_count(&mut self, capacity: u64) -> u64 {
        match self.chance.below(12) {
            0..=4 => capacity + 2,
            5 => capacity + 1,
            6 => capacity + 3,
            7 => 256,
            8 => self.chance.pick(&[0, 1, 2, 3, 255, 257, 65_535]),
            9 => 2,
            _ => self.chance.from_to(2, 256),
        }
    }

    fn random_line(&mut self) {
        match self.chance.weighted(ACTS) {
            Act::Ask => self.ask(),
            Act::Peek => self.peek(),
            Act::Put => {
                let side = self.random_side();
                self.put(side);
            }
            Act::Cram => {
                let side = self.random_side();
                for _ in 0..4 {
                    self.put(side);
                }
            }
            Act::Discard => self.discard(),
            Act::Label => {
                let end = self.chance.pick(&["sender", "receiver"]);
                let labels = self.labels();
                let byte = material::label_byte(&mut self.chance, labels);
                self.say(format!("{end} {byte}"));
            }
            Act::State => {
                let state = self.chance.below(2);
                self.say(format!("state {state}"));
            }
            Act::Hand => {
                let payload = self.random_payload();
                self.say(format!("hand {payload:09X}"));
            }
            Act::Offer => {
                let payload = self.random_payload();
                self.say(format!("offer {payload:09X}"));
            }
            Act::Step(name) => self.say(name),
            Act::Wait => {
                for _ in 0..self.chance.from_to(2, 8) {
                    self.say("tick");
                }
            }
            Act::Spin => {
                let times = self.chance.below(40);
                self.say(format!("spin {times}"));
            }
            Act::Slip => self.slip(),
        }
    }

    fn ask(&mut self) {
        let side = self.random_side();
        self.say(format!("ask {}", letter(side)));
    }

    fn put(&mut self, side: Side) {
        let word = self.random_word(side);
        self.say(format!("put {} {word:016X}", letter(side)));
    }

    fn discard(&mut self) {
        let side = self.random_side();
        self.say(format!("discard {}", letter(side)));
    }

    /// Peeks within the load, at its end or beyond it.
    fn peek(&mut self) {
        let side = self.random_side();
        let load = u64::from(self.load(side));
        let within = self.chance.below(load + 1);
        let at = self.chance.pick(&[
            0,
            1,
            within,
            within,
            load.saturating_sub(1),
            load,
            load + 1,
            64,
            65_535,
        ]);
        self.say(format!("peek {} {at}", letter(side)));
    }

    fn slip(&mut self) {
        if self.chance.one_in(2) {
            let line = self.chance.pick(&SLIPS);
            self.say(line);
        } else {
            let line = self
                .chance
                .pick(&["peek f 1", "state 1", "sender 7", "send", "spin 10"]);
            let line = material::spoil_line(&mut self.chance, line.as_bytes());
            self.say(line);
        }
    }

    fn random_side(&mut self) -> Side {
        self.chance.pick(&[Side::Forward, Side::Back])
    }

    fn random_word(&mut self, side: Side) -> u64 {
        let sort = self.chance.weighted(match side {
            Side::Forward => FORWARD_SORTS,
            Side::Back => BACK_SORTS,
        });
        let labels = self.labels();
        material::word(&mut self.chance, self.kind, labels, sort)
    }

    fn random_payload(&mut self) -> u64 {
        if self.chance.one_in(8) {
            material::no_record(&mut self.chance, self.kind)
        } else {
            material::record(&mut self.chance, self.kind)
        }
    }

    fn labels(&self) -> Labels {
        match self.lab.subject() {
            Some(link) => {
                let (sender, receiver) = link.labels();
                Labels {
                    sender,
                    receiver,
                    count: link.label_count(),
                }
            }
            None => Labels {
                sender: 0,
                receiver: 0,
                count: 2,
            },
        }
    }

    fn load(&self, side: Side) -> u16 {
        let (forward, back) = self.lab.subject().map_or((0, 0), |link| link.loads());
        match side {
            Side::Forward => forward,
            Side::Back => back,
        }
    }
}

fn letter(side: Side) -> char {
    match side {
        Side::Forward => 'f',
        Side::Back => 'b',
    }
}

#[cfg(test)]
mod tests {
    use std::collections::BTreeSet;

    use super::*;

    /// As many as in the stored set.
    const COUNT: usize = 200;

    /// Every answer of some lines, each with the pair of its link and the numbers cut where they
    /// are free.
    fn answers(seed: u64) -> BTreeSet<(char, String)> {
        let mut lab = Lab::default();
        let mut pair = '0';
        let mut seen = BTreeSet::new();
        for text in talks(seed, COUNT) {
            for line in text.strip_suffix(b"\n").unwrap().split(|&b| b == b'\n') {
                let answer = lab.answer(line);
                if answer.starts_with("link") {
                    pair = char::from(line[5]);
                }
                seen.insert((pair, short(&answer)));
            }
        }
        seen
    }

    fn short(answer: &str) -> String {
        let parts: Vec<&str> = answer.split(' ').collect();
        match parts[0] {
            "ask" => format!("ask {}", parts[5]),
            "peek" => parts[..2].join(" "),
            "ends" => "ends".to_string(),
            "spin" | "observer" => match (parts[1], parts[2]) {
                ("65535", "0") | ("65535", "1") | ("65535", "65535") => answer.to_string(),
                (_, "0" | "1") => format!("{} N {}", parts[0], parts[2]),
                _ => format!("{} N M", parts[0]),
            },
            _ => answer.to_string(),
        }
    }

    #[test]
    fn every_pair_gets_every_answer() {
        let seen = answers(1);
        let mut missing = Vec::new();
        for pair in ['1', '2', '3', '4', '5'] {
            for answer in [
                "link 0",
                "link 3",
                "ask 0",
                "ask 1",
                "peek 0",
                "peek 13",
                "put 0",
                "put 6",
                "discard 0",
                "discard 7",
                "sender 0",
                "receiver 0",
                "state 0",
                "hand 0",
                "hand 11",
                "offer 0",
                "offer 4",
                "offer 11",
                "send 0",
                "send 5",
                "send 6",
                "hear 0 0",
                "hear 0 6",
                "hear 9 0",
                "hear 9 6",
                "hear 8 7",
                "hear 7 7",
                "settle 0",
                "settle 7",
                "settle 8",
                "settle 10",
                "tick 0",
                "check 0",
                "check 3",
                "clean 0",
                "clean 1",
                "ends",
                "handover 0",
                "? 12",
                "observer N 0",
                "observer N 1",
                "spin N 0",
                "spin N 1",
            ] {
                if !seen.contains(&(pair, answer.to_string())) {
                    missing.push((pair, answer));
                }
            }
        }
        for (pair, answer) in [
            ('0', "? 12"),
            ('5', "link 2"),
            ('5', "check 2"),
            ('2', "spin 65535 0"),
            ('2', "spin 65535 1"),
            ('2', "spin 65535 65535"),
        ] {
            if !seen.contains(&(pair, answer.to_string())) {
                missing.push((pair, answer));
            }
        }
        assert!(missing.is_empty(), "not reached: {missing:?}");
    }

    #[test]
    fn the_same_seed_makes_the_same_lines() {
        assert!(talks(5, 20).eq(talks(5, 20)));
        assert!(talks(5, 20).ne(talks(6, 20)));
    }
}
