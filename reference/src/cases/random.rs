//! Random scripts in which something happens.

use super::draft::{Draft, FAULTS, Habit, ROUNDS, SLIPS, STEPS};
use super::{Case, KINDS, SETUPS, tag};
use crate::chance::Chance;
use crate::script::{Making, Setup};

/// A random making whose check answers 0, often with few labels.
pub fn making(chance: &mut Chance) -> Making {
    let setup = chance.pick(&SETUPS);
    let kind = chance.pick(&KINDS);
    Making {
        setup,
        kind,
        label_count: label_count(chance, setup),
    }
}

/// A label count that suits a set-up.
pub fn label_count(chance: &mut Chance, setup: Setup) -> u16 {
    let least = match setup {
        Setup::First => 4,
        Setup::Second => 10,
    };
    match chance.below(8) {
        0..=2 => least,
        3 => least + 1,
        4 => 256,
        5 => chance.pick(&[16, 17, 127, 128, 255]),
        _ => chance.from_to(least.into(), 256) as u16,
    }
}

/// A random case.
pub fn case(chance: &mut Chance, number: u64) -> Case {
    let making = making(chance);
    let mut draft = Draft::new(making);
    let topic = match chance.below(16) {
        0..=2 => filled(&mut draft, chance, "rounds", ROUNDS),
        3..=6 => filled(&mut draft, chance, "steps", STEPS),
        7..=9 => filled(&mut draft, chance, "faults", FAULTS),
        10..=12 => brown_outs(&mut draft, chance),
        13 | 14 => filled(&mut draft, chance, "slips", SLIPS),
        _ => mixed(&mut draft, chance),
    };
    let mut script = if chance.one_in(6) {
        draft.finish_open()
    } else {
        draft.finish()
    };
    if chance.one_in(12) {
        damage(&mut script, chance);
    }
    let tag = tag(making.setup, making.kind);
    Case {
        name: format!("random-{topic}-{tag}-{number}"),
        script,
    }
}

/// Mostly few lines, now and then many.
fn line_count(chance: &mut Chance) -> u64 {
    match chance.below(64) {
        0 => chance.from_to(200, 800),
        1..=6 => chance.from_to(60, 150),
        7..=10 => chance.below(4),
        _ => chance.from_to(5, 45),
    }
}

fn filled(
    draft: &mut Draft,
    chance: &mut Chance,
    topic: &'static str,
    habit: Habit,
) -> &'static str {
    let lines = line_count(chance);
    draft.random_lines(chance, habit, lines);
    topic
}

/// Brown-outs at the start and in mid-script, each with a stretch behind it.
fn brown_outs(draft: &mut Draft, chance: &mut Chance) -> &'static str {
    for _ in 0..chance.from_to(1, 3) {
        draft.brown_out(chance);
        let habit = chance.pick(&[ROUNDS, ROUNDS, STEPS]);
        let lines = chance.from_to(3, 25);
        draft.random_lines(chance, habit, lines);
    }
    "brown_out"
}

fn mixed(draft: &mut Draft, chance: &mut Chance) -> &'static str {
    for _ in 0..chance.from_to(2, 5) {
        let habit = chance.pick(&[ROUNDS, STEPS, FAULTS, SLIPS]);
        let lines = chance.from_to(2, 12);
        draft.random_lines(chance, habit, lines);
    }
    "mixed"
}

/// Changes some bytes of a script, wherever they are.
fn damage(script: &mut Vec<u8>, chance: &mut Chance) {
    for _ in 0..chance.from_to(1, 3) {
        let place = chance.below(script.len() as u64) as usize;
        match chance.below(4) {
            0 => script[place] ^= 1 << chance.below(8),
            1 => script[place] = chance.pick(b"\n\r \0PoshatrSRFB09AFG\xFF"),
            2 => script.insert(place, chance.pick(b"\n\n\r 0r")),
            _ => {
                script.remove(place);
            }
        }
    }
}
