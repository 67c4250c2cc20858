//! Bench cases: scripts with the reports that the reference gives.

mod directed;
mod draft;
mod random;
mod rounds;

use std::io::{self, Write};

use crate::chance::Chance;
use crate::report::report;
use crate::script::{Kind, Setup};

/// A script with a name.
#[derive(Clone, Debug, PartialEq, Eq)]
pub struct Case {
    pub name: String,
    pub script: Vec<u8>,
}

const SETUPS: [Setup; 2] = [Setup::First, Setup::Second];
const KINDS: [Kind; 2] = [Kind::Commands, Kind::Readings];

/// Makes cases from a seed: first the directed ones, then random ones.
pub fn cases(seed: u64, count: usize) -> impl Iterator<Item = Case> {
    let mut chance = Chance::new(seed);
    let directed = directed::cases(&mut chance);
    let random = (1..).map(move |number| random::case(&mut chance, number));
    directed
        .into_iter()
        .chain(random)
        .take(count)
        .map(move |case| Case {
            name: format!("s{seed}-{}", case.name),
            script: case.script,
        })
}

/// Writes a case with its header and the answer of the reference.
pub fn write_case(case: &Case, output: &mut impl Write) -> io::Result<()> {
    let Case { name, script } = case;
    let length = script.len();
    match report(script) {
        Ok(report) => {
            writeln!(
                output,
                "case {name} script {length} report {}",
                report.len()
            )?;
            output.write_all(script)?;
            output.write_all(&report)
        }
        Err(refusal) => {
            writeln!(
                output,
                "case {name} script {length} refused {}",
                refusal.number()
            )?;
            output.write_all(script)
        }
    }
}

/// The number of a set-up and the letter of a kind, as in names.
fn tag(setup: Setup, kind: Kind) -> &'static str {
    match (setup, kind) {
        (Setup::First, Kind::Commands) => "1C",
        (Setup::First, Kind::Readings) => "1G",
        (Setup::Second, Kind::Commands) => "2C",
        (Setup::Second, Kind::Readings) => "2G",
    }
}

#[cfg(test)]
mod tests {
    use std::collections::BTreeSet;

    use super::*;
    use crate::link::Round;
    use crate::refusals::{Refusal, number};
    use crate::script::{lines, read_making};

    /// As many as in the stored set.
    const COUNT: usize = 400;

    type Answers = BTreeSet<(&'static str, String)>;

    fn round_text(round: &Round) -> String {
        format!(
            "r {} {} {} {}",
            number(round.sent),
            number(round.heard.word),
            number(round.heard.reply),
            number(round.settled)
        )
    }

    /// Every answer that a line of a script can get on a set-up, without delivered records.
    fn reachable_answers(setup: Setup) -> Vec<String> {
        let single = [
            "P 0", "P 3", "? 12", "o 0", "o 4", "o 11", "s 0", "s 5", "s 6", "h 0 0", "h 0 6",
            "h 9 0", "h 9 6", "h 8 7", "h 7 7", "a 0", "a 7", "a 8", "a 10", "t 0", "S 0", "R 0",
            "F 0", "F 6", "B 0", "B 6",
        ];
        let rounds = rounds::reachable(setup);
        let rounds = rounds.iter().map(round_text);
        single.map(String::from).into_iter().chain(rounds).collect()
    }

    /// An answer line without its record, which stands there exactly after a delivery.
    fn without_record(line: &str) -> String {
        let parts: Vec<&str> = line.split(' ').collect();
        let (delivers, length) = match parts[0] {
            "h" => (parts[1] == "0", 3),
            "r" => (parts[2] == "0", 5),
            _ => (false, parts.len()),
        };
        assert_eq!(parts.len(), length + usize::from(delivers), "{line}");
        parts[..length].join(" ")
    }

    fn answers_of(cases: &[Case]) -> Answers {
        let mut answers = Answers::new();
        for case in cases {
            let Some(making) = lines(&case.script).next().and_then(read_making) else {
                continue;
            };
            let Ok(report) = report(&case.script) else {
                continue;
            };
            let text = String::from_utf8(report).unwrap();
            let replies = text.lines().filter(|line| !line.starts_with("sound"));
            let tag = tag(making.setup, making.kind);
            answers.extend(replies.map(|line| (tag, without_record(line))));
        }
        answers
    }

    #[test]
    fn every_answer_that_can_be_reached_is_reached() {
        let cases: Vec<Case> = cases(1, COUNT).collect();
        let mut expected = Answers::new();
        for setup in SETUPS {
            for kind in KINDS {
                let answers = reachable_answers(setup);
                expected.extend(answers.into_iter().map(|answer| (tag(setup, kind), answer)));
            }
        }
        let seen = answers_of(&cases);
        let missing: Vec<_> = expected.difference(&seen).collect();
        let unforeseen: Vec<_> = seen.difference(&expected).collect();
        assert!(missing.is_empty(), "not reached: {missing:?}");
        assert!(unforeseen.is_empty(), "not foreseen: {unforeseen:?}");
    }

    #[test]
    fn directed_rounds_answer_as_their_names_say() {
        let mut aimed = 0;
        for case in cases(7, COUNT) {
            let Some(name) = case.name.strip_prefix("s7-round-") else {
                continue;
            };
            let aim = format!("r {}", name[3..].replace('-', " "));
            let text = String::from_utf8(report(&case.script).unwrap()).unwrap();
            let first = text.lines().find(|line| line.starts_with('r')).unwrap();
            assert_eq!(without_record(first), aim, "{}", case.name);
            aimed += 1;
        }
        assert_eq!(aimed, 2 * (34 + 60));
    }

    #[test]
    fn spoilt_words_are_spoilt() {
        for case in cases(3, COUNT).filter(|case| case.name.contains("-spoilt-")) {
            let text = String::from_utf8(report(&case.script).unwrap()).unwrap();
            let heard = text.lines().filter(|&line| line == "h 8 7").count();
            let settled = text.lines().filter(|&line| line == "a 8").count();
            assert!(heard > crate::material::SPOILT_FORWARD.len(), "{text}");
            assert!(settled >= crate::material::SPOILT_BACK.len(), "{text}");
        }
    }

    #[test]
    fn sound_lines_of_every_sort() {
        let mut none_completed = 0;
        let mut none_clean = 0;
        let mut later_clean = 0;
        for case in cases(1, COUNT) {
            let text = String::from_utf8(report(&case.script).unwrap_or_default()).unwrap();
            let Some(sound) = text.lines().find_map(|line| line.strip_prefix("sound ")) else {
                continue;
            };
            match sound.split_once(" of ").unwrap() {
                ("0", "0") => none_completed += 1,
                ("0", _) => none_clean += 1,
                ("1", _) => {}
                _ => later_clean += 1,
            }
        }
        assert!(none_completed > 0 && none_clean > 0 && later_clean > 0);
    }

    #[test]
    fn too_long_scripts_are_refused_and_others_are_not() {
        let cases: Vec<Case> = cases(1, COUNT).collect();
        let lengths: BTreeSet<usize> = cases.iter().map(|case| case.script.len()).collect();
        for length in [0, 1, 4_095, 4_096, 4_097] {
            assert!(lengths.contains(&length), "{length}");
        }
        for case in &cases {
            let refused = report(&case.script) == Err(Refusal::Page);
            assert_eq!(refused, case.script.len() > 4_096);
        }
    }

    #[test]
    fn names_are_plain_and_differ() {
        let cases: Vec<Case> = cases(2, COUNT).collect();
        let names: BTreeSet<&str> = cases.iter().map(|case| case.name.as_str()).collect();
        assert_eq!(names.len(), COUNT);
        let is_plain = |c: char| c.is_ascii_alphanumeric() || c == '_' || c == '-';
        assert!(names.iter().all(|name| name.chars().all(is_plain)));
    }

    #[test]
    fn cases_are_written_with_their_lengths() {
        let mut file = Vec::new();
        let short = Case {
            name: "short".into(),
            script: b"P 1 C 04".to_vec(),
        };
        write_case(&short, &mut file).unwrap();
        let long = Case {
            name: "long".into(),
            script: vec![b'x'; 4_097],
        };
        write_case(&long, &mut file).unwrap();
        let start = "case short script 8 report 17\nP 1 C 04P 0\nsound 0 of 0\n";
        let next = "case long script 4097 refused 14\n";
        assert!(file.starts_with(format!("{start}{next}x").as_bytes()));
        assert_eq!(file.len(), start.len() + next.len() + 4_097);
    }

    #[test]
    fn the_same_seed_makes_the_same_cases() {
        assert!(cases(5, COUNT).eq(cases(5, COUNT)));
        assert!(cases(5, COUNT).ne(cases(6, COUNT)));
    }
}
