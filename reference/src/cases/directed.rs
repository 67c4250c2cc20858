//! Scripts that lead to a certain answer or have a certain form.

use super::draft::{Act, Draft, FAULTS, Habit, ROUNDS, SLIPS, STEPS};
use super::random::{self, label_count};
use super::rounds::{lead_to, reachable};
use super::{Case, KINDS, SETUPS, tag};
use crate::chance::Chance;
use crate::link::Round;
use crate::material::{self, Labels, SPOILT_BACK, SPOILT_FORWARD, Sort};
use crate::refusals::number;
use crate::report::SCRIPT_MAX;
use crate::script::{Kind, Making, Order, Setup};

/// How many cases take the steps of a round one by one, for each set-up and kind.
const STEPPED: usize = 6;

/// All directed cases.
pub fn cases(chance: &mut Chance) -> Vec<Case> {
    let mut cases = Vec::new();
    first_lines(&mut cases);
    limits(&mut cases, chance);
    for setup in SETUPS {
        for kind in KINDS {
            spoilt_words(&mut cases, chance, setup, kind);
            malformed_lines(&mut cases, chance, setup, kind);
            brown_outs(&mut cases, chance, setup, kind);
            records(&mut cases, chance, setup, kind);
            faults_after_exchange(&mut cases, chance, setup, kind);
            completions(&mut cases, chance, setup, kind);
            rounds(&mut cases, chance, setup, kind);
            long_run(&mut cases, chance, setup, kind);
        }
    }
    cases
}

fn add(cases: &mut Vec<Case>, name: String, script: Vec<u8>) {
    cases.push(Case { name, script });
}

/// A script of this set-up and kind.
fn draft(chance: &mut Chance, setup: Setup, kind: Kind) -> Draft {
    let label_count = label_count(chance, setup);
    Draft::new(Making {
        setup,
        kind,
        label_count,
    })
}

/// First lines that are none, and label counts that are too small or just enough.
fn first_lines(cases: &mut Vec<Case>) {
    let whole_scripts: [&[u8]; 28] = [
        b"",
        b"\n",
        b"\n\n",
        b"\nP 1 C 04\n",
        b"P",
        b"P\n",
        b"P 1\nr\n",
        b"P 1 C\nr\n",
        b"P 1 C \nr\n",
        b"P 1 C 4\nr\n",
        b"P 1 C 004\nr\n",
        b"P 1 C 04 \nr\n",
        b"P 1 C 04\r\nr\r\n",
        b"P 1 C 04\0\nr\n",
        b"P 1 C 0a\nr\n",
        b"P 1 C FG\nr\n",
        b"P 1 C \xB04\nr\n",
        b" P 1 C 04\nr\n",
        b"P  1 C 04\nr\n",
        b"P\t1 C 04\nr\n",
        b"p 1 C 04\nr\n",
        b"P 1 c 04\nr\n",
        b"P 1 R 04\nr\n",
        b"P 1 g 04\nr\n",
        b"P 0 C 04\nr\n",
        b"P 3 C 04\nr\n",
        b"P12C04\nr\n",
        b"o 100000000\nr\n",
    ];
    for (number, script) in (1..).zip(whole_scripts) {
        add(cases, format!("first_line-{number}"), script.to_vec());
    }
    for (setup, counts) in [
        ("1", ["00", "01", "02", "03", "04", "05", "FF"]),
        ("2", ["00", "02", "04", "09", "0A", "0B", "FF"]),
    ] {
        for count in counts {
            for letter in ["C", "G"] {
                let script = format!("P {setup} {letter} {count}\nr");
                let name = format!("labels-{setup}{letter}-{count}");
                add(cases, name, script.into_bytes());
            }
        }
    }
}

/// Scripts about as long as a script may be.
fn limits(cases: &mut Vec<Case>, chance: &mut Chance) {
    let long = |chance: &mut Chance, habit, length| {
        let mut draft = Draft::new(random::making(chance));
        fill(&mut draft, chance, habit, length);
        draft
    };
    let script = long(chance, ROUNDS, SCRIPT_MAX).finish();
    add(cases, "limit-4096".into(), script);
    let script = long(chance, STEPS, SCRIPT_MAX + 1).finish_open();
    add(cases, "limit-4096-open".into(), script);
    let script = long(chance, FAULTS, SCRIPT_MAX - 1).finish();
    add(cases, "limit-4095".into(), script);
    let script = long(chance, ROUNDS, SCRIPT_MAX + 1).finish();
    add(cases, "limit-4097".into(), script);
    let script = long(chance, SLIPS, SCRIPT_MAX + 2).finish_open();
    add(cases, "limit-4097-open".into(), script);
    let empty_lines = padded(b"P 1 C 04\n", b'\n', SCRIPT_MAX);
    add(cases, "limit-empty_lines".into(), empty_lines);
    let one_line = padded(b"P 2 G 0A\nF 01", b'0', SCRIPT_MAX);
    add(cases, "limit-one_line".into(), one_line);
    let first_line = padded(b"P 1 C 04", b'0', SCRIPT_MAX);
    add(cases, "limit-first_line".into(), first_line);
    let no_first_line = padded(b"", b'\n', SCRIPT_MAX);
    add(cases, "limit-no_first_line".into(), no_first_line);
    let too_long = padded(b"P 1 C 04\n", 0, SCRIPT_MAX + 1);
    add(cases, "limit-4097-zeros".into(), too_long);
}

/// Adds lines until the script has a length.
fn fill(draft: &mut Draft, chance: &mut Chance, habit: Habit, length: usize) {
    const LONGEST: usize = 24;
    while draft.length() + LONGEST <= length {
        draft.random_line(chance, habit);
    }
    while draft.length() + 2 <= length {
        draft.order(Order::Round);
    }
    if draft.length() < length {
        draft.line(b"");
    }
}

fn padded(start: &[u8], byte: u8, length: usize) -> Vec<u8> {
    let mut script = start.to_vec();
    script.resize(length, byte);
    script
}

/// As many exchanges as a script has room for.
fn long_run(cases: &mut Vec<Case>, chance: &mut Chance, setup: Setup, kind: Kind) {
    const EXCHANGES: Habit = &[(1, Act::Offer), (2, Act::Round)];
    let mut draft = draft(chance, setup, kind);
    fill(&mut draft, chance, EXCHANGES, SCRIPT_MAX);
    let name = format!("long-{}", tag(setup, kind));
    add(cases, name, draft.finish());
}

/// Every sort of word that an end calls spoilt, with and without an exchange under way.
fn spoilt_words(cases: &mut Vec<Case>, chance: &mut Chance, setup: Setup, kind: Kind) {
    for under_way in [false, true] {
        let label_count = match label_count(chance, setup) {
            256 => 255,
            count => count,
        };
        let mut draft = Draft::new(Making {
            setup,
            kind,
            label_count,
        });
        if under_way {
            draft.order(Order::Offer(material::record(chance, kind)));
        }
        spend_losses(&mut draft);
        for sort in SPOILT_FORWARD {
            let word = material::word(chance, kind, draft.labels(), sort);
            draft.order(Order::PutForward(word));
            hear_and_settle(&mut draft);
        }
        for sort in SPOILT_BACK {
            let word = material::word(chance, kind, draft.labels(), sort);
            draft.order(Order::PutBack(word));
            draft.order(Order::Settle);
        }
        let congruent = material::congruent_reading(chance, draft.labels());
        draft.order(Order::PutForward(congruent));
        hear_and_settle(&mut draft);
        let record = material::word(chance, kind, draft.labels(), Sort::Record);
        draft.order(Order::PutForward(record));
        hear_and_settle(&mut draft);
        let state = if under_way { "under_way" } else { "idle" };
        let name = format!("spoilt-{}-{state}", tag(setup, kind));
        add(cases, name, draft.finish());
    }
}

/// The second set-up loses the first and the third word forward, and the second back.
fn spend_losses(draft: &mut Draft) {
    draft.orders(Order::PutForward(0), 3);
    draft.orders(Order::PutBack(0), 2);
    hear_and_settle(draft);
}

fn hear_and_settle(draft: &mut Draft) {
    if draft.setup() == Setup::Second {
        draft.orders(Order::Tick, 2);
    }
    draft.order(Order::Hear);
    draft.order(Order::Settle);
}

/// Lines that are no orders, after each of which nothing has changed.
fn malformed_lines(cases: &mut Vec<Case>, chance: &mut Chance, setup: Setup, kind: Kind) {
    const LINES: [&[u8]; 44] = [
        b"",
        b" ",
        b"x",
        b"?",
        b"\0",
        b"\xFF\xFE",
        b"\r",
        b"P 1 C 04",
        b"P 2 G 0A",
        b"P",
        b"s ",
        b" s",
        b"s\r",
        b"ss",
        b"s 0",
        b"h\0",
        b"\xE8",
        b"H",
        b"A",
        b"T",
        b"r\t",
        b"R",
        b"R 0",
        b"R 000",
        b"R 0a",
        b"R  0",
        b"S",
        b"S ",
        b"S 1",
        b"S G0",
        b"S 01 ",
        b"o",
        b"o 10000000",
        b"o 1000000000",
        b"o 10000000:",
        b"o 1000000/0",
        b"o  00000000",
        b"O 100000000",
        b"F 000000000000000",
        b"F 00000000000000000",
        b"F 000000000000000@",
        b"F 000000000000fff1",
        b"b 000000000000FFF1",
        b"B 000000000000FFF1\r",
    ];
    let mut draft = draft(chance, setup, kind);
    for line in LINES {
        draft.line(line);
        if chance.one_in(3) {
            draft.random_line(chance, STEPS);
        }
    }
    draft.random_lines(chance, SLIPS, 20);
    let name = format!("malformed-{}", tag(setup, kind));
    add(cases, name, draft.finish());
}

/// Brown-outs with complete exchanges behind them.
fn brown_outs(cases: &mut Vec<Case>, chance: &mut Chance, setup: Setup, kind: Kind) {
    for number in 1..=2 {
        let mut draft = draft(chance, setup, kind);
        for _ in 0..number {
            draft.random_lines(chance, STEPS, 6);
            draft.brown_out(chance);
            for _ in 0..5 {
                draft.order(Order::Offer(material::record(chance, kind)));
                let rounds = match setup {
                    Setup::First => 2,
                    Setup::Second => 4,
                };
                draft.orders(Order::Round, rounds);
            }
        }
        let name = format!("brown_out-{}-{number}", tag(setup, kind));
        add(cases, name, draft.finish());
    }
}

/// Payloads at the limits of records and beyond them, offered and as raw words.
fn records(cases: &mut Vec<Case>, chance: &mut Chance, setup: Setup, kind: Kind) {
    let mut draft = draft(chance, setup, kind);
    for &payload in material::at_limits(kind) {
        draft.order(Order::Offer(payload));
        draft.orders(Order::Round, 4);
    }
    for &payload in material::beyond_limits(kind) {
        draft.order(Order::Offer(payload));
        let label = material::label(chance, draft.labels());
        let word = material::labelled_payload(kind, label, payload);
        draft.order(Order::PutForward(word));
        hear_and_settle(&mut draft);
    }
    let name = format!("records-{}", tag(setup, kind));
    add(cases, name, draft.finish());
}

/// A fault line as the last one after completed exchanges, accepted or refused.
fn faults_after_exchange(cases: &mut Vec<Case>, chance: &mut Chance, setup: Setup, kind: Kind) {
    for letter in ["S", "R", "F", "B", "refused"] {
        let mut draft = draft(chance, setup, kind);
        draft.order(Order::Offer(material::record(chance, kind)));
        draft.orders(Order::Round, 8);
        let Labels {
            sender, receiver, ..
        } = draft.labels();
        match letter {
            "S" => draft.order(Order::SetSenderLabel(sender)),
            "R" => draft.order(Order::SetReceiverLabel(receiver)),
            "F" => draft.order(Order::PutForward(chance.bits())),
            "B" => draft.order(Order::PutBack(chance.bits())),
            _ => {
                fill_channels(&mut draft, chance);
                draft.order(Order::PutForward(chance.bits()));
                draft.order(Order::PutBack(chance.bits()));
            }
        }
        let name = format!("fault-{}-{letter}", tag(setup, kind));
        add(cases, name, draft.finish());
    }
}

/// Fills both channels without a fault: words are heard and sent, and nothing is settled.
fn fill_channels(draft: &mut Draft, chance: &mut Chance) {
    draft.order(Order::Offer(material::record(chance, draft.kind())));
    for _ in 0..8 {
        draft.order(Order::Send);
        draft.order(Order::Tick);
        draft.order(Order::Hear);
    }
    draft.orders(Order::Send, 4);
}

/// The words that a completed exchange leaves, and whether the receiver has another label.
struct Left {
    name: &'static str,
    receiver_differs: bool,
    forward: &'static [Carried],
    back: &'static [Carried],
}

/// The label that a word carries.
#[derive(Clone, Copy)]
enum Carried {
    Own,
    Other,
    /// Another label, on a word that is spoilt.
    Spoilt,
}

impl Left {
    const fn nothing(name: &'static str) -> Left {
        Left {
            name,
            receiver_differs: false,
            forward: &[],
            back: &[],
        }
    }
}

/// What completed exchanges leave on any set-up.
const LEFT: [Left; 5] = [
    Left::nothing("nothing"),
    Left {
        receiver_differs: true,
        ..Left::nothing("receiver")
    },
    Left {
        forward: &[Carried::Other],
        ..Left::nothing("forward")
    },
    Left {
        forward: &[Carried::Own],
        ..Left::nothing("own")
    },
    Left {
        forward: &[Carried::Spoilt],
        ..Left::nothing("spoilt")
    },
];

/// What completed exchanges leave where there is room for more words.
const MORE_LEFT: [Left; 6] = [
    Left {
        forward: &[Carried::Other, Carried::Own, Carried::Spoilt],
        ..Left::nothing("forward_first")
    },
    Left {
        forward: &[Carried::Own, Carried::Spoilt, Carried::Other],
        ..Left::nothing("forward_last")
    },
    Left {
        back: &[Carried::Other],
        ..Left::nothing("back")
    },
    Left {
        back: &[Carried::Other, Carried::Own],
        ..Left::nothing("back_first")
    },
    Left {
        back: &[Carried::Spoilt, Carried::Other],
        ..Left::nothing("back_last")
    },
    Left {
        forward: &[Carried::Own, Carried::Spoilt, Carried::Own],
        back: &[Carried::Own, Carried::Spoilt],
        ..Left::nothing("own_and_spoilt")
    },
];

/// Exchanges whose completion leaves the link clean, or unclean for one reason.
fn completions(cases: &mut Vec<Case>, chance: &mut Chance, setup: Setup, kind: Kind) {
    let more: &[Left] = match setup {
        Setup::First => &[],
        Setup::Second => &MORE_LEFT,
    };
    for left in LEFT.iter().chain(more) {
        let mut draft = draft(chance, setup, kind);
        if setup == Setup::Second {
            spend_losses(&mut draft);
        }
        draft.order(Order::SetSenderLabel(chance.bits() as u8));
        draft.order(Order::Offer(material::record(chance, kind)));
        complete_and_leave(&mut draft, chance, left);
        let name = format!("completion-{}-{}", tag(setup, kind), left.name);
        add(cases, name, draft.finish());
    }
}

/// Completes the exchange under way by an old acknowledgement.
fn complete_and_leave(draft: &mut Draft, chance: &mut Chance, left: &Left) {
    let kind = draft.kind();
    let labels = draft.labels();
    let own = labels.of_sender();
    let other = labels.wrap(u64::from(own) + chance.from_to(1, u64::from(labels.count) - 1));
    draft.order(Order::SetReceiverLabel(if left.receiver_differs {
        other
    } else {
        own
    }));
    for carried in left.forward {
        let word = match carried {
            Carried::Own => material::labelled(chance, kind, own, Sort::Record),
            Carried::Other => material::labelled(chance, kind, other, Sort::Record),
            Carried::Spoilt => material::labelled(chance, kind, other, Sort::NoRecord),
        };
        draft.order(Order::PutForward(word));
    }
    let acknowledgement = material::labelled(chance, kind, own, Sort::Acknowledgement);
    draft.order(Order::PutBack(acknowledgement));
    for carried in left.back {
        let word = match carried {
            Carried::Own => material::labelled(chance, kind, own, Sort::Acknowledgement),
            Carried::Other => material::labelled(chance, kind, other, Sort::Acknowledgement),
            Carried::Spoilt => material::labelled(chance, kind, other, Sort::LoadedAcknowledgement),
        };
        draft.order(Order::PutBack(word));
    }
    draft.order(Order::Settle);
}

/// Every answer of a round, and some of them in single steps.
fn rounds(cases: &mut Vec<Case>, chance: &mut Chance, setup: Setup, kind: Kind) {
    let aims = reachable(setup);
    for aim in &aims {
        let mut draft = led(chance, setup, kind, aim);
        draft.order(Order::Round);
        finish_round(cases, chance, draft, "round", aim);
    }
    let start = chance.below(aims.len() as u64) as usize;
    let stride = aims.len() / STEPPED;
    for aim in aims
        .iter()
        .cycle()
        .skip(start)
        .step_by(stride)
        .take(STEPPED)
    {
        let mut draft = led(chance, setup, kind, aim);
        for step in [Order::Send, Order::Hear, Order::Settle, Order::Tick] {
            draft.order(step);
        }
        finish_round(cases, chance, draft, "steps", aim);
    }
}

fn led(chance: &mut Chance, setup: Setup, kind: Kind, aim: &Round) -> Draft {
    let mut draft = draft(chance, setup, kind);
    lead_to(&mut draft, chance, aim);
    draft
}

fn finish_round(
    cases: &mut Vec<Case>,
    chance: &mut Chance,
    mut draft: Draft,
    topic: &str,
    aim: &Round,
) {
    let tail = chance.below(6);
    draft.random_lines(chance, STEPS, tail);
    let name = format!(
        "{topic}-{}-{}-{}-{}-{}",
        tag(draft.setup(), draft.kind()),
        number(aim.sent),
        number(aim.heard.word),
        number(aim.heard.reply),
        number(aim.settled)
    );
    add(cases, name, draft.finish());
}
