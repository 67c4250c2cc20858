//! What cases are made of: payloads, labels and words that are likely to matter.

use crate::chance::Chance;
use crate::kinds::{Commands, Readings, RecordKind};
use crate::script::Kind;
use crate::words::{PAYLOAD_MAX, Word};

/// What a maker of words knows of a link.
#[derive(Clone, Copy, Debug, PartialEq, Eq)]
pub struct Labels {
    /// The sender's label byte as stored.
    pub sender: u8,
    /// The receiver's label byte as stored.
    pub receiver: u8,
    /// The label count.
    pub count: u16,
}

impl Labels {
    /// A number as the link reads it.
    pub fn wrap(self, number: u64) -> u8 {
        (number % u64::from(self.count)) as u8
    }

    /// The sender's label as the link reads it.
    pub fn of_sender(self) -> u8 {
        self.wrap(self.sender.into())
    }

    /// The receiver's label as the link reads it.
    pub fn of_receiver(self) -> u8 {
        self.wrap(self.receiver.into())
    }
}

/// A sort of word.
#[derive(Clone, Copy, Debug, PartialEq, Eq)]
pub enum Sort {
    /// A record of the link's kind.
    Record,
    /// An acknowledgement.
    Acknowledgement,
    /// A record or an acknowledgement with a bit changed.
    ChangedBit,
    /// A record or an acknowledgement with another check.
    OtherCheck,
    /// A record of the link's kind with a label of K or more.
    LargeLabel,
    /// An acknowledgement with a label of K or more.
    LargeLabelAcknowledged,
    /// A record of the other kind.
    OtherKind,
    /// A payload of the link's kind, under a kind that no records have.
    UnknownKind,
    /// The link's kind with a payload that is no record.
    NoRecord,
    /// Kind 0 with a payload.
    LoadedAcknowledgement,
    /// Any 64 bits.
    Anything,
}

/// The sorts that a receiver calls spoilt.
pub const SPOILT_FORWARD: [Sort; 8] = [
    Sort::Acknowledgement,
    Sort::ChangedBit,
    Sort::OtherCheck,
    Sort::LargeLabel,
    Sort::OtherKind,
    Sort::UnknownKind,
    Sort::NoRecord,
    Sort::LoadedAcknowledgement,
];

/// The sorts that a sender calls spoilt.
pub const SPOILT_BACK: [Sort; 7] = [
    Sort::Record,
    Sort::ChangedBit,
    Sort::OtherCheck,
    Sort::LargeLabelAcknowledged,
    Sort::OtherKind,
    Sort::UnknownKind,
    Sort::LoadedAcknowledgement,
];

/// The number of a kind in words.
fn number_of(kind: Kind) -> u8 {
    match kind {
        Kind::Commands => Commands::NUMBER,
        Kind::Readings => Readings::NUMBER,
    }
}

/// The kind that a link does not carry.
fn other(kind: Kind) -> Kind {
    match kind {
        Kind::Commands => Kind::Readings,
        Kind::Readings => Kind::Commands,
    }
}

/// Whether a payload is a record.
fn is_record(kind: Kind, payload: u64) -> bool {
    match kind {
        Kind::Commands => Commands::unpack(payload).is_ok(),
        Kind::Readings => Readings::unpack(payload).is_ok(),
    }
}

/// A payload that is a record, often at a limit.
pub fn record(chance: &mut Chance, kind: Kind) -> u64 {
    match kind {
        Kind::Commands => command(chance),
        Kind::Readings => {
            let axle = edgy(chance, 1, 12);
            let side = chance.below(2);
            let force = edgy(chance, 0, 6_000);
            let pressure = edgy(chance, 0, 1_500);
            axle << 32 | side << 31 | force << 15 | pressure << 3
        }
    }
}

fn command(chance: &mut Chance) -> u64 {
    let code = chance.from_to(1, 5);
    let argument = match code {
        2 => edgy(chance, 1, 60),
        3 => edgy(chance, 1, 12),
        5 => edgy(chance, 0, 7),
        _ => 0,
    };
    code << 32 | argument
}

/// A number within limits, often one of them.
fn edgy(chance: &mut Chance, least: u64, most: u64) -> u64 {
    let between = chance.from_to(least, most);
    chance.pick(&[least, most, between, between])
}

/// A payload that is no record, often nearly one.
pub fn no_record(chance: &mut Chance, kind: Kind) -> u64 {
    loop {
        let payload = match chance.below(4) {
            0 => chance.pick(beyond_limits(kind)),
            1 => record(chance, kind) ^ 1 << chance.below(36),
            2 => record(chance, other(kind)),
            _ => chance.bits() & PAYLOAD_MAX,
        };
        if !is_record(kind, payload) {
            return payload;
        }
    }
}

/// Records with a field at its limit.
pub fn at_limits(kind: Kind) -> &'static [u64] {
    match kind {
        Kind::Commands => &[
            0x1_0000_0000,
            0x2_0000_0001,
            0x2_0000_003C,
            0x3_0000_0001,
            0x3_0000_000C,
            0x4_0000_0000,
            0x5_0000_0000,
            0x5_0000_0007,
        ],
        Kind::Readings => &[
            0x1_0000_0000,
            0xC_0000_0000,
            0x1_8000_0000,
            0x1_0000_0000 | 6_000 << 15,
            0x1_0000_0000 | 1_500 << 3,
            0xC_8000_0000 | 6_000 << 15 | 1_500 << 3,
        ],
    }
}

/// Payloads with a field just beyond its limit.
pub fn beyond_limits(kind: Kind) -> &'static [u64] {
    match kind {
        Kind::Commands => &[
            0,
            0x1_0000_0001,
            0x2_0000_0000,
            0x2_0000_003D,
            0x3_0000_0000,
            0x3_0000_000D,
            0x4_0000_0001,
            0x5_0000_0008,
            0x6_0000_0000,
            0xF_0000_0000,
            0x2_0001_0001,
            0x3_8000_0001,
        ],
        Kind::Readings => &[
            0,
            0xD_0000_0000,
            0xF_0000_0000,
            0x1_0000_0001,
            0x1_0000_0002,
            0x1_0000_0004,
            0x1_0000_0000 | 6_001 << 15,
            0x1_0000_0000 | 0xFFFF << 15,
            0x1_0000_0000 | 1_501 << 3,
            0x1_0000_0000 | 0xFFF << 3,
        ],
    }
}

/// A label byte, often one in play or next to one.
pub fn label_byte(chance: &mut Chance, labels: Labels) -> u8 {
    let count = u64::from(labels.count);
    let base = u64::from(chance.pick(&[labels.of_sender(), labels.of_receiver()]));
    let number = match chance.below(12) {
        0..=3 => base,
        4 | 5 => base + 1,
        6 => base + count - 1,
        7 => base + count,
        8 => chance.pick(&[0, count - 1, count, 255]),
        9 => chance.below(count),
        10 => base + 2,
        _ => chance.below(256),
    };
    number as u8
}

/// A label below K, often one in play or next to one.
pub fn label(chance: &mut Chance, labels: Labels) -> u8 {
    let byte = label_byte(chance, labels);
    labels.wrap(byte.into())
}

/// A label of K or more, where there is one; otherwise any.
fn large_label(chance: &mut Chance, labels: Labels) -> u8 {
    let count = u64::from(labels.count);
    if count > 255 {
        return chance.below(256) as u8;
    }
    let base = u64::from(chance.pick(&[labels.of_sender(), labels.of_receiver()]));
    let number = match chance.below(4) {
        0 => count,
        1 => 255,
        2 => base + count,
        _ => chance.from_to(count, 255),
    };
    number.clamp(count, 255) as u8
}

/// A word of a sort, with a label below K unless the sort says otherwise.
pub fn word(chance: &mut Chance, kind: Kind, labels: Labels, sort: Sort) -> u64 {
    let label = match sort {
        Sort::LargeLabel | Sort::LargeLabelAcknowledged => large_label(chance, labels),
        _ => label(chance, labels),
    };
    labelled(chance, kind, label, sort)
}

/// A word of a sort with this label.
pub fn labelled(chance: &mut Chance, kind: Kind, label: u8, sort: Sort) -> u64 {
    let number = number_of(kind);
    match sort {
        Sort::Record | Sort::LargeLabel => pack(label, number, record(chance, kind)),
        Sort::Acknowledgement | Sort::LargeLabelAcknowledged => Word::acknowledgement(label).pack(),
        Sort::ChangedBit => whole(chance, kind, label) ^ 1 << chance.below(64),
        Sort::OtherCheck => {
            let bits = whole(chance, kind, label);
            with_other_check(chance, bits)
        }
        Sort::OtherKind => {
            let other = other(kind);
            pack(label, number_of(other), record(chance, other))
        }
        Sort::UnknownKind => {
            let unknown = chance.from_to(3, 15) as u8;
            pack(label, unknown, record(chance, kind))
        }
        Sort::NoRecord => pack(label, number, no_record(chance, kind)),
        Sort::LoadedAcknowledgement => {
            let any = chance.from_to(1, PAYLOAD_MAX);
            let record = record(chance, kind);
            let payload = chance.pick(&[1, 1 << 35, record, any]);
            pack(label, 0, payload)
        }
        Sort::Anything => chance.bits(),
    }
}

/// A word of the link's kind with this label and payload.
pub fn labelled_payload(kind: Kind, label: u8, payload: u64) -> u64 {
    pack(label, number_of(kind), payload)
}

fn pack(label: u8, kind: u8, payload: u64) -> u64 {
    Word {
        label,
        kind,
        payload,
    }
    .pack()
}

/// A record or an acknowledgement.
fn whole(chance: &mut Chance, kind: Kind, label: u8) -> u64 {
    if chance.one_in(2) {
        pack(label, number_of(kind), record(chance, kind))
    } else {
        Word::acknowledgement(label).pack()
    }
}

/// A whole word with a wrong check.
fn with_other_check(chance: &mut Chance, bits: u64) -> u64 {
    let right = bits & 0xFFFF;
    loop {
        let check = match chance.below(6) {
            0 => 0,
            1 => 65_521 - right,
            2 => right + 1,
            3 => right.wrapping_sub(1),
            4 => !right,
            _ => chance.bits(),
        } & 0xFFFF;
        if check != right {
            return bits & !0xFFFF | check;
        }
    }
}

/// A reading whose check is wrong but differs from the right one by 65,521. No command has one.
pub fn congruent_reading(chance: &mut Chance, labels: Labels) -> u64 {
    loop {
        let label = labels.wrap(chance.bits());
        let bits = labelled(chance, Kind::Readings, label, Sort::Record);
        if let Some(congruent) = congruent(bits) {
            return congruent;
        }
    }
}

/// A whole word with the check that differs from its own by 65,521, if 16 bits hold it.
fn congruent(bits: u64) -> Option<u64> {
    match bits & 0xFFFF {
        1..=14 => Some(bits + 65_521),
        65_521 => Some(bits - 65_521),
        _ => None,
    }
}

/// A line with a change that mostly makes it no order.
pub fn spoil_line(chance: &mut Chance, line: &[u8]) -> Vec<u8> {
    let mut line = line.to_vec();
    let last = line.len().saturating_sub(1);
    let place = chance.below(line.len() as u64 + 1) as usize;
    let inside = place.min(last);
    match chance.below(14) {
        0 => line.make_ascii_lowercase(),
        1 => line.make_ascii_uppercase(),
        2 => line.truncate(last),
        3 => line.push(chance.pick(b"0F \r\t\0\x80\xFF")),
        4 => line.push(b' '),
        5 => line.push(b'\r'),
        6 => line.insert(0, b' '),
        7 => line.insert(place, chance.pick(b" \0\r\t0\x7F\xC3")),
        8 if !line.is_empty() => line[inside] = chance.pick(b"/:@G`gaf \0\xB0"),
        9 if !line.is_empty() => line[inside] ^= 1 << chance.below(8),
        10 if !line.is_empty() => line[inside] |= 0x80,
        11 if !line.is_empty() => {
            line.remove(inside);
        }
        12 => line.extend_from_slice(b" 0"),
        _ => line.clear(),
    }
    line.retain(|&byte| byte != b'\n');
    line
}

#[cfg(test)]
mod tests {
    use super::*;
    use crate::words::is_whole;

    const KINDS: [Kind; 2] = [Kind::Commands, Kind::Readings];

    #[test]
    fn records_are_records_and_others_are_not() {
        let mut chance = Chance::new(1);
        for kind in KINDS {
            for _ in 0..2_000 {
                assert!(is_record(kind, record(&mut chance, kind)));
                let payload = no_record(&mut chance, kind);
                assert!(payload <= PAYLOAD_MAX && !is_record(kind, payload));
            }
            assert!(at_limits(kind).iter().all(|&p| is_record(kind, p)));
            assert!(!beyond_limits(kind).iter().any(|&p| is_record(kind, p)));
        }
    }

    #[test]
    fn labels_are_below_the_count_or_not() {
        let mut chance = Chance::new(2);
        for count in [2, 4, 255] {
            let labels = Labels {
                sender: 254,
                receiver: 7,
                count,
            };
            for _ in 0..500 {
                assert!(u16::from(label(&mut chance, labels)) < count);
                assert!(u16::from(large_label(&mut chance, labels)) >= count);
            }
        }
    }

    #[test]
    fn changed_words_are_not_whole() {
        let mut chance = Chance::new(3);
        let labels = Labels {
            sender: 1,
            receiver: 0,
            count: 256,
        };
        for kind in KINDS {
            for _ in 0..500 {
                assert!(!is_whole(word(&mut chance, kind, labels, Sort::ChangedBit)));
                assert!(!is_whole(word(&mut chance, kind, labels, Sort::OtherCheck)));
            }
        }
        let bits = congruent_reading(&mut chance, labels);
        assert!(!is_whole(bits));
        assert_eq!(((bits >> 16) + (bits & 0xFFFF)) % 65_521, 0);
        assert_eq!(congruent(Word::acknowledgement(0).pack()), Some(0));
    }
}
