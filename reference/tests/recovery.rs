//! The recovery promise, tried on random brown-outs of the two set-ups.

use reference::chance::Chance;
use reference::channels::Channel;
use reference::kinds::{Commands, Readings, RecordKind};
use reference::link::{Link, Side, State};
use reference::material::{self, Labels, Sort};
use reference::script::Kind;
use reference::setups;

const TRIALS: u64 = 300;
const STEPS: u64 = 2_000;

/// Whatever a brown-out may leave.
fn brown_out<F: Channel, B: Channel, R: RecordKind>(
    link: &mut Link<F, B, R>,
    kind: Kind,
    chance: &mut Chance,
) {
    link.set_sender_label(chance.bits() as u8);
    link.set_receiver_label(chance.bits() as u8);
    link.set_state(chance.pick(&[State::Idle, State::UnderWay]));
    let labels = Labels {
        sender: link.sender().label,
        receiver: link.receiver().label,
        count: link.label_count(),
    };
    for _ in 0..chance.below(12) {
        let record = material::word(chance, kind, labels, Sort::Record);
        let acknowledgement = material::word(chance, kind, labels, Sort::Acknowledgement);
        // Where there is no room, there are old words enough.
        let _ = link.put(Side::Forward, record);
        let _ = link.put(Side::Back, acknowledgement);
        if chance.one_in(3) {
            link.tick();
        }
    }
}

/// Random calls after a handover: at most f + b + 1 exchanges are unclean, none of them after a
/// clean one, and after it each accepted record is delivered once and in order.
fn assert_recovers<F: Channel, B: Channel, R: RecordKind>(
    link: &mut Link<F, B, R>,
    kind: Kind,
    chance: &mut Chance,
) {
    let most_unclean = link.forward().capacity() + link.back().capacity() + 1;
    let mut accepted = Vec::new();
    let mut delivered = Vec::new();
    for _ in 0..STEPS {
        let before = link.observer();
        match chance.below(6) {
            0 | 1 => {
                let record = R::unpack(material::record(chance, kind)).unwrap();
                if link.offer(record).is_ok() {
                    accepted.push(record);
                }
            }
            2 => {
                let _ = link.send();
            }
            3 => {
                if link.hear().delivers() {
                    delivered.push(link.receiver().delivered);
                }
            }
            4 => {
                let _ = link.settle();
            }
            _ => link.tick(),
        }
        let after = link.observer();
        if after.completed > before.completed {
            assert!(after.completed <= most_unclean || link.is_clean());
            assert!(after.first_clean == 0 || link.is_clean());
            if before.first_clean == 0 && after.first_clean > 0 {
                accepted.clear();
                delivered.clear();
            }
        }
        if after.first_clean > 0 {
            assert!(accepted.starts_with(&delivered));
            let missing = accepted.len() - delivered.len();
            assert!(missing == 0 || (missing == 1 && link.sender().state == State::UnderWay));
        }
    }
    assert!(link.observer().first_clean > 0);
}

/// An exchange takes no more rounds than promised.
fn assert_in_time<F: Channel, B: Channel, R: RecordKind>(link: &mut Link<F, B, R>) {
    if link.sender().state == State::Idle {
        link.offer(link.sender().in_hand).unwrap();
    }
    let (forward, back) = (link.forward(), link.back());
    let losses = forward.losses() + back.losses();
    let forward_rounds = (forward.capacity() + 2) * (forward.delay() + 1);
    let back_rounds = (back.capacity() + 1) * (back.delay() + 1);
    let rounds = (losses + 1) * (forward_rounds + back_rounds);
    assert!((0..rounds).any(|_| link.round().settled.is_ok()));
}

fn try_brown_outs<F: Channel, B: Channel, R: RecordKind>(
    make: impl Fn(u16) -> Link<F, B, R>,
    least: u64,
    kind: Kind,
) {
    let mut chance = Chance::new(least);
    for _ in 0..TRIALS {
        let few = chance.from_to(least, least + 2);
        let label_count = chance.pick(&[least, few, 256]) as u16;
        let mut link = make(label_count);
        assert_eq!(link.check(), Ok(()));
        brown_out(&mut link, kind, &mut chance);
        link.handover();
        assert_in_time(&mut link);
        brown_out(&mut link, kind, &mut chance);
        link.handover();
        assert_recovers(&mut link, kind, &mut chance);
    }
}

#[test]
fn the_first_set_up_recovers() {
    try_brown_outs(setups::first::<Commands>, 4, Kind::Commands);
    try_brown_outs(setups::first::<Readings>, 4, Kind::Readings);
}

#[test]
fn the_second_set_up_recovers() {
    try_brown_outs(setups::second::<Commands>, 10, Kind::Commands);
    try_brown_outs(setups::second::<Readings>, 10, Kind::Readings);
}
