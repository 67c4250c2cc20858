//! The two standard set-ups of the bench.

use crate::channels::{DelayLine, Loss, Relay, Ring};
use crate::kinds::RecordKind;
use crate::link::Link;

/// The forward channel of the second set-up.
pub type SecondForward = Loss<Relay<Ring, DelayLine>>;

/// The back channel of the second set-up.
pub type SecondBack = Loss<Ring>;

/// A link of the first set-up.
pub type FirstLink<R> = Link<Ring, Ring, R>;

/// A link of the second set-up.
pub type SecondLink<R> = Link<SecondForward, SecondBack, R>;

/// Two rings of one word.
pub fn first<R: RecordKind>(label_count: u16) -> FirstLink<R> {
    Link::new(label_count, Ring::new(1), Ring::new(1), R::first())
}

/// A lossy relay forward, a lossy ring back.
pub fn second<R: RecordKind>(label_count: u16) -> SecondLink<R> {
    let relay = Relay::new(Ring::new(3), DelayLine::new(2, 1));
    Link::new(
        label_count,
        Loss::new(0xA000_0000_0000_0000, relay),
        Loss::new(0x4000_0000_0000_0000, Ring::new(3)),
        R::first(),
    )
}

#[cfg(test)]
mod tests {
    use super::*;
    use crate::channels::Channel;
    use crate::kinds::{Commands, Readings};
    use crate::refusals::Refusal;

    fn numbers(channel: &impl Channel) -> (u16, u16, u16) {
        (channel.capacity(), channel.delay(), channel.losses())
    }

    #[test]
    fn numbers_of_the_page() {
        let first: FirstLink<Commands> = first(4);
        assert_eq!(numbers(first.forward()), (1, 0, 0));
        assert_eq!(numbers(first.back()), (1, 0, 0));
        let second: SecondLink<Readings> = second(10);
        assert_eq!(numbers(second.forward()), (5, 2, 2));
        assert_eq!(numbers(second.back()), (3, 0, 1));
    }

    #[test]
    fn least_label_counts_of_the_page() {
        assert_eq!(first::<Commands>(3).check(), Err(Refusal::Labels));
        assert_eq!(first::<Commands>(4).check(), Ok(()));
        assert_eq!(second::<Readings>(9).check(), Err(Refusal::Labels));
        assert_eq!(second::<Readings>(10).check(), Ok(()));
        assert_eq!(second::<Readings>(256).check(), Ok(()));
    }
}
