//! Why a call is refused, and the numbers that stand for it in answers.

use std::fmt;

/// A refused call says which of these it met.
#[derive(Clone, Copy, Debug, PartialEq, Eq, Hash, PartialOrd, Ord)]
pub enum Refusal {
    /// A capacity or a delay out of a channel's limits.
    Size,
    /// A delay or a number of losses too large for a link.
    Span,
    /// A label count that does not suit the capacities.
    Labels,
    /// An offer while an exchange is under way.
    Busy,
    /// A send while no exchange is under way.
    Idle,
    /// A put into a closed channel.
    Full,
    /// A take where no word is ready.
    Silent,
    /// A word that its end cannot read.
    Spoilt,
    /// A word with the receiver's own label.
    Repeat,
    /// An acknowledgement that nobody waits for.
    Stale,
    /// A payload that is no record.
    Code,
    /// A script line of no listed form.
    Script,
    /// A peek at or beyond the load.
    Place,
    /// A script that is too long, or a buffer that is too small.
    Page,
}

impl Refusal {
    /// Every refusal, in the order of the table.
    pub const ALL: [Refusal; 14] = [
        Refusal::Size,
        Refusal::Span,
        Refusal::Labels,
        Refusal::Busy,
        Refusal::Idle,
        Refusal::Full,
        Refusal::Silent,
        Refusal::Spoilt,
        Refusal::Repeat,
        Refusal::Stale,
        Refusal::Code,
        Refusal::Script,
        Refusal::Place,
        Refusal::Page,
    ];

    /// The number of the refusal table.
    pub fn number(self) -> u16 {
        match self {
            Refusal::Size => 1,
            Refusal::Span => 2,
            Refusal::Labels => 3,
            Refusal::Busy => 4,
            Refusal::Idle => 5,
            Refusal::Full => 6,
            Refusal::Silent => 7,
            Refusal::Spoilt => 8,
            Refusal::Repeat => 9,
            Refusal::Stale => 10,
            Refusal::Code => 11,
            Refusal::Script => 12,
            Refusal::Place => 13,
            Refusal::Page => 14,
        }
    }

    /// The name of the refusal table.
    pub fn name(self) -> &'static str {
        match self {
            Refusal::Size => "size",
            Refusal::Span => "span",
            Refusal::Labels => "labels",
            Refusal::Busy => "busy",
            Refusal::Idle => "idle",
            Refusal::Full => "full",
            Refusal::Silent => "silent",
            Refusal::Spoilt => "spoilt",
            Refusal::Repeat => "repeat",
            Refusal::Stale => "stale",
            Refusal::Code => "code",
            Refusal::Script => "script",
            Refusal::Place => "place",
            Refusal::Page => "page",
        }
    }
}

impl fmt::Display for Refusal {
    fn fmt(&self, f: &mut fmt::Formatter<'_>) -> fmt::Result {
        f.write_str(self.name())
    }
}

impl std::error::Error for Refusal {}

/// What a call answers: done, or why not.
pub type Answer = Result<(), Refusal>;

/// The number of an answer: 0 for done, otherwise the refusal's.
pub fn number(answer: Answer) -> u16 {
    match answer {
        Ok(()) => 0,
        Err(refusal) => refusal.number(),
    }
}

#[cfg(test)]
mod tests {
    use super::*;

    #[test]
    fn numbers_count_up_from_one() {
        let numbers: Vec<u16> = Refusal::ALL.iter().map(|r| r.number()).collect();
        assert_eq!(numbers, (1..=14).collect::<Vec<u16>>());
    }

    #[test]
    fn names_stand_in_the_table() {
        let page = include_str!("../../docs/REFUSALS.md");
        for refusal in Refusal::ALL {
            let row = format!("| {} | {} |", refusal.number(), refusal);
            assert!(page.contains(&row), "{row}");
        }
    }

    #[test]
    fn done_is_zero() {
        assert_eq!(number(Ok(())), 0);
        assert_eq!(number(Err(Refusal::Stale)), 10);
    }
}
