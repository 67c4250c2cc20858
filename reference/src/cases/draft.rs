//! A script under way, which knows the link that its lines act on.

use crate::chance::Chance;
use crate::channels::Channel;
use crate::kinds::{Commands, Readings, RecordKind};
use crate::link::Link;
use crate::material::{self, Labels, Sort};
use crate::report::perform;
use crate::script::{Kind, Making, Order, Setup, read_order};
use crate::setups;

/// A link of any set-up and kind.
trait Bench {
    fn perform(&mut self, order: Order);
    fn labels(&self) -> Labels;
}

impl<F: Channel, B: Channel, R: RecordKind> Bench for Link<F, B, R> {
    fn perform(&mut self, order: Order) {
        perform(self, order);
    }

    fn labels(&self) -> Labels {
        Labels {
            sender: self.sender().label,
            receiver: self.receiver().label,
            count: self.label_count(),
        }
    }
}

fn bench(making: Making) -> Box<dyn Bench> {
    let count = making.label_count;
    match (making.setup, making.kind) {
        (Setup::First, Kind::Commands) => Box::new(setups::first::<Commands>(count)),
        (Setup::First, Kind::Readings) => Box::new(setups::first::<Readings>(count)),
        (Setup::Second, Kind::Commands) => Box::new(setups::second::<Commands>(count)),
        (Setup::Second, Kind::Readings) => Box::new(setups::second::<Readings>(count)),
    }
}

/// A script under way.
pub struct Draft {
    setup: Setup,
    kind: Kind,
    bench: Box<dyn Bench>,
    script: Vec<u8>,
}

/// What a random line is to do.
#[derive(Clone, Copy, Debug)]
pub enum Act {
    Offer,
    OfferNoRecord,
    Send,
    Hear,
    Settle,
    Tick,
    Round,
    SetSenderLabel,
    SetReceiverLabel,
    PutForward,
    PutBack,
    Malformed,
}

/// How likely each act is.
pub type Habit = &'static [(u64, Act)];

/// Offers and rounds.
pub const ROUNDS: Habit = &[
    (30, Act::Offer),
    (80, Act::Round),
    (2, Act::Send),
    (2, Act::Hear),
    (2, Act::Settle),
    (2, Act::Tick),
    (1, Act::PutForward),
    (1, Act::PutBack),
];

/// Single steps.
pub const STEPS: Habit = &[
    (10, Act::Offer),
    (1, Act::OfferNoRecord),
    (16, Act::Send),
    (16, Act::Hear),
    (14, Act::Settle),
    (12, Act::Tick),
    (4, Act::Round),
];

/// Single steps among faults.
pub const FAULTS: Habit = &[
    (8, Act::Offer),
    (1, Act::OfferNoRecord),
    (8, Act::Send),
    (10, Act::Hear),
    (10, Act::Settle),
    (8, Act::Tick),
    (10, Act::Round),
    (3, Act::SetSenderLabel),
    (3, Act::SetReceiverLabel),
    (14, Act::PutForward),
    (14, Act::PutBack),
];

/// Lines of which many are no orders.
pub const SLIPS: Habit = &[
    (6, Act::Offer),
    (4, Act::OfferNoRecord),
    (4, Act::Send),
    (4, Act::Hear),
    (4, Act::Settle),
    (4, Act::Tick),
    (4, Act::Round),
    (2, Act::PutForward),
    (2, Act::PutBack),
    (30, Act::Malformed),
];

impl Draft {
    /// A script with its first line.
    pub fn new(making: Making) -> Draft {
        Draft {
            setup: making.setup,
            kind: making.kind,
            bench: bench(making),
            script: format!("{making}\n").into_bytes(),
        }
    }

    pub fn kind(&self) -> Kind {
        self.kind
    }

    pub fn setup(&self) -> Setup {
        self.setup
    }

    pub fn labels(&self) -> Labels {
        self.bench.labels()
    }

    pub fn length(&self) -> usize {
        self.script.len()
    }

    /// The script so far.
    pub fn finish(self) -> Vec<u8> {
        self.script
    }

    /// The script so far, without the end of its last line.
    pub fn finish_open(mut self) -> Vec<u8> {
        self.script.pop();
        self.script
    }

    /// Adds a line, an order or not.
    pub fn line(&mut self, line: &[u8]) {
        if let Some(order) = read_order(line) {
            self.bench.perform(order);
        }
        self.script.extend_from_slice(line);
        self.script.push(b'\n');
    }

    /// Adds an order.
    pub fn order(&mut self, order: Order) {
        self.line(order.to_string().as_bytes());
    }

    /// Adds an order some times.
    pub fn orders(&mut self, order: Order, times: usize) {
        for _ in 0..times {
            self.order(order);
        }
    }

    /// Adds a random line.
    pub fn random_line(&mut self, chance: &mut Chance, habit: Habit) {
        match chance.weighted(habit) {
            Act::Malformed => self.malformed_line(chance),
            act => {
                let order = self.random_order(chance, act);
                self.order(order);
            }
        }
    }

    /// Adds random lines.
    pub fn random_lines(&mut self, chance: &mut Chance, habit: Habit, times: u64) {
        for _ in 0..times {
            self.random_line(chance, habit);
        }
    }

    fn malformed_line(&mut self, chance: &mut Chance) {
        let line = if chance.one_in(12) {
            b"P 1 C 04".to_vec()
        } else {
            let act = chance.weighted(FAULTS);
            self.random_order(chance, act).to_string().into_bytes()
        };
        let keep = line.starts_with(b"P") && chance.one_in(2);
        if keep {
            self.line(&line);
        } else {
            self.line(&material::spoil_line(chance, &line));
        }
    }

    fn random_order(&self, chance: &mut Chance, act: Act) -> Order {
        let kind = self.kind;
        let labels = self.labels();
        match act {
            Act::Offer => Order::Offer(material::record(chance, kind)),
            Act::OfferNoRecord | Act::Malformed => Order::Offer(material::no_record(chance, kind)),
            Act::Send => Order::Send,
            Act::Hear => Order::Hear,
            Act::Settle => Order::Settle,
            Act::Tick => Order::Tick,
            Act::Round => Order::Round,
            Act::SetSenderLabel => Order::SetSenderLabel(material::label_byte(chance, labels)),
            Act::SetReceiverLabel => Order::SetReceiverLabel(material::label_byte(chance, labels)),
            Act::PutForward => Order::PutForward(self.random_word(chance, FORWARD_SORTS)),
            Act::PutBack => Order::PutBack(self.random_word(chance, BACK_SORTS)),
        }
    }

    fn random_word(&self, chance: &mut Chance, sorts: &[(u64, Sort)]) -> u64 {
        let sort = chance.weighted(sorts);
        material::word(chance, self.kind, self.labels(), sort)
    }

    /// Adds what a brown-out leaves: other labels, and old words both ways.
    pub fn brown_out(&mut self, chance: &mut Chance) {
        let labels = self.labels();
        self.order(Order::SetSenderLabel(material::label_byte(chance, labels)));
        let labels = self.labels();
        self.order(Order::SetReceiverLabel(material::label_byte(
            chance, labels,
        )));
        let (forward, back) = match self.setup {
            Setup::First => (1, 1),
            Setup::Second => (6, 4),
        };
        for _ in 0..chance.below(forward + 1) {
            let word = self.random_word(chance, FORWARD_SORTS);
            self.order(Order::PutForward(word));
            if chance.one_in(3) {
                self.order(Order::Tick);
            }
        }
        for _ in 0..chance.below(back + 1) {
            let word = self.random_word(chance, BACK_SORTS);
            self.order(Order::PutBack(word));
        }
    }
}

const FORWARD_SORTS: &[(u64, Sort)] = &[
    (20, Sort::Record),
    (1, Sort::Acknowledgement),
    (1, Sort::ChangedBit),
    (1, Sort::OtherCheck),
    (2, Sort::LargeLabel),
    (1, Sort::OtherKind),
    (1, Sort::UnknownKind),
    (2, Sort::NoRecord),
    (1, Sort::LoadedAcknowledgement),
    (1, Sort::Anything),
];

const BACK_SORTS: &[(u64, Sort)] = &[
    (20, Sort::Acknowledgement),
    (1, Sort::Record),
    (1, Sort::ChangedBit),
    (1, Sort::OtherCheck),
    (2, Sort::LargeLabelAcknowledged),
    (1, Sort::OtherKind),
    (1, Sort::UnknownKind),
    (1, Sort::LoadedAcknowledgement),
    (1, Sort::Anything),
];
