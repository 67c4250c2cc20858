//! Channels, which carry words in order: two queues, and two layers over any channels.

use std::collections::VecDeque;

use crate::refusals::{Answer, Refusal};

/// One end of a wire to the other.
pub trait Channel {
    /// How many words there is room for.
    fn capacity(&self) -> u16;
    /// The longest that a word at the front can wait, in ticks.
    fn delay(&self) -> u16;
    /// How many words may still be lost.
    fn losses(&self) -> u16;
    /// How many words are held.
    fn load(&self) -> u16;
    /// Whether a word can be put.
    fn is_open(&self) -> bool;
    /// The word at a position, 0 being the oldest; `place` from the load on.
    fn peek(&self, at: u16) -> Result<u64, Refusal>;
    /// Puts a word; `full` where the channel is closed.
    fn put(&mut self, word: u64) -> Answer;
    /// Takes the oldest word; `silent` where none is ready.
    fn take(&mut self) -> Result<u64, Refusal>;
    /// One unit of time passes.
    fn tick(&mut self);
}

/// The largest capacity of a queue.
const CAPACITY_MAX: u16 = 64;

/// The longest delay of a delay line.
const DELAY_MAX: u16 = 15;

/// A queue without delay.
#[derive(Clone, Debug)]
pub struct Ring {
    capacity: u16,
    words: VecDeque<u64>,
}

impl Ring {
    /// Refuses a capacity outside 1 to 64 as `size`.
    pub fn check(capacity: u16) -> Answer {
        if (1..=CAPACITY_MAX).contains(&capacity) {
            Ok(())
        } else {
            Err(Refusal::Size)
        }
    }

    /// An empty ring; where the check refuses, one of capacity 1.
    pub fn new(capacity: u16) -> Ring {
        let capacity = match Ring::check(capacity) {
            Ok(()) => capacity,
            Err(_) => 1,
        };
        Ring {
            capacity,
            words: VecDeque::with_capacity(capacity.into()),
        }
    }
}

impl Channel for Ring {
    fn capacity(&self) -> u16 {
        self.capacity
    }

    fn delay(&self) -> u16 {
        0
    }

    fn losses(&self) -> u16 {
        0
    }

    #[inline]
    fn load(&self) -> u16 {
        self.words.len() as u16
    }

    #[inline]
    fn is_open(&self) -> bool {
        self.load() < self.capacity
    }

    #[inline]
    fn peek(&self, at: u16) -> Result<u64, Refusal> {
        self.words
            .get(usize::from(at))
            .copied()
            .ok_or(Refusal::Place)
    }

    #[inline]
    fn put(&mut self, word: u64) -> Answer {
        if !self.is_open() {
            return Err(Refusal::Full);
        }
        self.words.push_back(word);
        Ok(())
    }

    #[inline]
    fn take(&mut self) -> Result<u64, Refusal> {
        self.words.pop_front().ok_or(Refusal::Silent)
    }

    #[inline]
    fn tick(&mut self) {}
}

/// A word on a delay line, with the time from which on it can be taken.
#[derive(Clone, Copy, Debug)]
struct Delayed {
    word: u64,
    ready: u64,
}

/// A queue in which each word waits.
///
/// It keeps a clock instead of due numbers: a word is due from its time of arrival on.
#[derive(Clone, Debug)]
pub struct DelayLine {
    capacity: u16,
    delay: u16,
    now: u64,
    words: VecDeque<Delayed>,
}

impl DelayLine {
    /// Refuses a capacity outside 1 to 64 or a delay above 15 as `size`.
    pub fn check(capacity: u16, delay: u16) -> Answer {
        Ring::check(capacity)?;
        if delay > DELAY_MAX {
            return Err(Refusal::Size);
        }
        Ok(())
    }

    /// An empty line; where the check refuses, one of capacity 1 and delay 0.
    pub fn new(capacity: u16, delay: u16) -> DelayLine {
        let (capacity, delay) = match DelayLine::check(capacity, delay) {
            Ok(()) => (capacity, delay),
            Err(_) => (1, 0),
        };
        DelayLine {
            capacity,
            delay,
            now: 0,
            words: VecDeque::with_capacity(capacity.into()),
        }
    }
}

impl Channel for DelayLine {
    fn capacity(&self) -> u16 {
        self.capacity
    }

    fn delay(&self) -> u16 {
        self.delay
    }

    fn losses(&self) -> u16 {
        0
    }

    #[inline]
    fn load(&self) -> u16 {
        self.words.len() as u16
    }

    #[inline]
    fn is_open(&self) -> bool {
        self.load() < self.capacity
    }

    #[inline]
    fn peek(&self, at: u16) -> Result<u64, Refusal> {
        match self.words.get(usize::from(at)) {
            Some(delayed) => Ok(delayed.word),
            None => Err(Refusal::Place),
        }
    }

    #[inline]
    fn put(&mut self, word: u64) -> Answer {
        if !self.is_open() {
            return Err(Refusal::Full);
        }
        let ready = self.now + u64::from(self.delay);
        self.words.push_back(Delayed { word, ready });
        Ok(())
    }

    #[inline]
    fn take(&mut self) -> Result<u64, Refusal> {
        match self.words.front() {
            Some(&Delayed { word, ready }) if ready <= self.now => {
                self.words.pop_front();
                Ok(word)
            }
            _ => Err(Refusal::Silent),
        }
    }

    #[inline]
    fn tick(&mut self) {
        self.now += 1;
    }
}

/// A layer that loses chosen words on their way into the channel below.
#[derive(Clone, Debug)]
pub struct Loss<C> {
    pattern: u64,
    below: C,
}

impl<C: Channel> Loss<C> {
    /// The first word put is lost if the pattern's highest bit is set, and so on.
    pub fn new(pattern: u64, below: C) -> Loss<C> {
        Loss { pattern, below }
    }

    /// Spends a bit of the pattern, and says whether it was set.
    fn next_is_lost(&mut self) -> bool {
        let lost = self.pattern >> 63 == 1;
        self.pattern <<= 1;
        lost
    }
}

impl<C: Channel> Channel for Loss<C> {
    fn capacity(&self) -> u16 {
        self.below.capacity()
    }

    fn delay(&self) -> u16 {
        self.below.delay()
    }

    fn losses(&self) -> u16 {
        (self.pattern.count_ones() as u16).saturating_add(self.below.losses())
    }

    fn load(&self) -> u16 {
        self.below.load()
    }

    fn is_open(&self) -> bool {
        self.below.is_open()
    }

    fn peek(&self, at: u16) -> Result<u64, Refusal> {
        self.below.peek(at)
    }

    fn put(&mut self, word: u64) -> Answer {
        if !self.below.is_open() {
            return Err(Refusal::Full);
        }
        if self.next_is_lost() {
            return Ok(());
        }
        self.below.put(word)
    }

    fn take(&mut self) -> Result<u64, Refusal> {
        self.below.take()
    }

    fn tick(&mut self) {
        self.below.tick();
    }
}

/// Two channels in a row: words go into the upper and come out of the lower.
#[derive(Clone, Debug)]
pub struct Relay<U, L> {
    upper: U,
    lower: L,
}

impl<U: Channel, L: Channel> Relay<U, L> {
    /// The relay of these two.
    pub fn new(upper: U, lower: L) -> Relay<U, L> {
        Relay { upper, lower }
    }

    /// Moves a word down, if the lower channel is open and the upper gives one.
    fn pass_down(&mut self) {
        if !self.lower.is_open() {
            return;
        }
        if let Ok(word) = self.upper.take() {
            // The lower channel is open, so it does not refuse.
            let _ = self.lower.put(word);
        }
    }
}

impl<U: Channel, L: Channel> Channel for Relay<U, L> {
    fn capacity(&self) -> u16 {
        self.upper.capacity().saturating_add(self.lower.capacity())
    }

    fn delay(&self) -> u16 {
        self.upper
            .delay()
            .saturating_add(self.lower.delay())
            .saturating_add(1)
    }

    fn losses(&self) -> u16 {
        self.upper.losses().saturating_add(self.lower.losses())
    }

    fn load(&self) -> u16 {
        self.upper.load().saturating_add(self.lower.load())
    }

    fn is_open(&self) -> bool {
        self.upper.is_open()
    }

    fn peek(&self, at: u16) -> Result<u64, Refusal> {
        let in_lower = self.lower.load();
        if at < in_lower {
            self.lower.peek(at)
        } else {
            self.upper.peek(at - in_lower)
        }
    }

    fn put(&mut self, word: u64) -> Answer {
        self.upper.put(word)
    }

    fn take(&mut self) -> Result<u64, Refusal> {
        self.lower.take()
    }

    fn tick(&mut self) {
        self.upper.tick();
        self.lower.tick();
        self.pass_down();
    }
}

#[cfg(test)]
mod tests {
    use super::*;

    fn contents(channel: &impl Channel) -> Vec<u64> {
        (0..channel.load())
            .map(|at| channel.peek(at).unwrap())
            .collect()
    }

    fn questions(channel: &impl Channel) -> (u16, u16, u16, u16, bool) {
        (
            channel.capacity(),
            channel.delay(),
            channel.losses(),
            channel.load(),
            channel.is_open(),
        )
    }

    #[test]
    fn ring_keeps_order_and_refuses_when_full() {
        let mut ring = Ring::new(2);
        assert_eq!(ring.take(), Err(Refusal::Silent));
        assert_eq!(ring.put(10), Ok(()));
        assert_eq!(ring.put(11), Ok(()));
        assert_eq!(ring.put(12), Err(Refusal::Full));
        assert_eq!(contents(&ring), [10, 11]);
        assert_eq!(ring.peek(2), Err(Refusal::Place));
        assert_eq!(ring.take(), Ok(10));
        assert_eq!(ring.put(12), Ok(()));
        assert_eq!(ring.take(), Ok(11));
        assert_eq!(ring.take(), Ok(12));
        assert_eq!(questions(&ring), (2, 0, 0, 0, true));
    }

    #[test]
    fn sizes_out_of_limits() {
        assert_eq!(Ring::check(0), Err(Refusal::Size));
        assert_eq!(Ring::check(1), Ok(()));
        assert_eq!(Ring::check(64), Ok(()));
        assert_eq!(Ring::check(65), Err(Refusal::Size));
        assert_eq!(DelayLine::check(64, 15), Ok(()));
        assert_eq!(DelayLine::check(64, 16), Err(Refusal::Size));
        assert_eq!(DelayLine::check(0, 3), Err(Refusal::Size));
        assert_eq!(Ring::new(65).capacity(), 1);
        assert_eq!(questions(&DelayLine::new(9, 16)), (1, 0, 0, 0, true));
        assert_eq!(questions(&DelayLine::new(0, 3)), (1, 0, 0, 0, true));
        assert_eq!(questions(&DelayLine::new(64, 15)), (64, 15, 0, 0, true));
    }

    #[test]
    fn delay_line_makes_each_word_wait() {
        let mut line = DelayLine::new(2, 2);
        assert_eq!(line.put(10), Ok(()));
        line.tick();
        assert_eq!(line.put(11), Ok(()));
        assert_eq!(line.put(12), Err(Refusal::Full));
        assert_eq!(line.take(), Err(Refusal::Silent));
        line.tick();
        assert_eq!(line.take(), Ok(10));
        assert_eq!(line.take(), Err(Refusal::Silent));
        line.tick();
        assert_eq!(line.take(), Ok(11));
        assert_eq!(line.take(), Err(Refusal::Silent));
    }

    #[test]
    fn delay_line_without_delay_is_a_ring() {
        let mut line = DelayLine::new(1, 0);
        assert_eq!(line.put(10), Ok(()));
        assert_eq!(line.take(), Ok(10));
    }

    #[test]
    fn loss_spends_a_bit_for_each_accepted_word() {
        let mut loss = Loss::new(0xA000_0000_0000_0000, Ring::new(1));
        assert_eq!(loss.losses(), 2);
        assert_eq!(loss.put(1), Ok(()));
        assert_eq!(loss.losses(), 1);
        assert_eq!(contents(&loss), []);
        assert_eq!(loss.put(2), Ok(()));
        assert_eq!(loss.put(3), Err(Refusal::Full));
        assert_eq!(loss.losses(), 1);
        assert_eq!(loss.take(), Ok(2));
        assert_eq!(loss.put(4), Ok(()));
        assert_eq!(questions(&loss), (1, 0, 0, 0, true));
        assert_eq!(loss.put(5), Ok(()));
        assert_eq!(contents(&loss), [5]);
    }

    #[test]
    fn relay_moves_one_word_at_a_tick() {
        let mut relay = Relay::new(Ring::new(3), DelayLine::new(2, 1));
        assert_eq!(questions(&relay), (5, 2, 0, 0, true));
        for word in 1..=3 {
            assert_eq!(relay.put(word), Ok(()));
        }
        assert_eq!(relay.put(4), Err(Refusal::Full));
        relay.tick();
        assert_eq!(relay.put(4), Ok(()));
        assert_eq!(contents(&relay), [1, 2, 3, 4]);
        assert_eq!(relay.take(), Err(Refusal::Silent));
        relay.tick();
        relay.tick();
        assert_eq!(relay.lower.load(), 2);
        assert_eq!(contents(&relay), [1, 2, 3, 4]);
        assert_eq!(relay.peek(4), Err(Refusal::Place));
        assert_eq!(relay.take(), Ok(1));
        assert_eq!(relay.take(), Ok(2));
        assert_eq!(relay.take(), Err(Refusal::Silent));
        assert_eq!(contents(&relay), [3, 4]);
    }

    #[test]
    fn the_lower_channel_of_a_relay_may_lose_a_word() {
        let mut relay = Relay::new(Ring::new(2), Loss::new(1 << 63, Ring::new(1)));
        assert_eq!(relay.put(1), Ok(()));
        assert_eq!(relay.put(2), Ok(()));
        assert_eq!(relay.losses(), 1);
        relay.tick();
        assert_eq!(relay.losses(), 0);
        assert_eq!(contents(&relay), [2]);
        relay.tick();
        assert_eq!(relay.take(), Ok(2));
    }
}
