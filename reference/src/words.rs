//! Words of 64 bits: label, kind, payload and check.

/// The check is taken by this modulus.
const MODULUS: u64 = 65_521;

/// How many bits a payload has.
pub const PAYLOAD_BITS: u32 = 36;

/// The largest payload.
pub const PAYLOAD_MAX: u64 = (1 << PAYLOAD_BITS) - 1;

/// What a whole word says.
///
/// The kind is below 16 and the payload below 2^36; packing keeps no more of them.
#[derive(Clone, Copy, Debug, PartialEq, Eq)]
pub struct Word {
    pub label: u8,
    pub kind: u8,
    pub payload: u64,
}

impl Word {
    /// The acknowledgement of a label.
    #[inline]
    pub fn acknowledgement(label: u8) -> Word {
        Word {
            label,
            kind: 0,
            payload: 0,
        }
    }

    /// The 64 bits of this word, with its check.
    #[inline]
    pub fn pack(self) -> u64 {
        let value = u64::from(self.label) << 40
            | u64::from(self.kind & 15) << PAYLOAD_BITS
            | self.payload & PAYLOAD_MAX;
        with_check(value)
    }

    /// What 64 bits say, if they are whole.
    #[inline]
    pub fn read(bits: u64) -> Option<Word> {
        is_whole(bits).then_some(Word {
            label: (bits >> 56) as u8,
            kind: (bits >> 52 & 15) as u8,
            payload: bits >> 16 & PAYLOAD_MAX,
        })
    }

    /// Whether this word acknowledges its label.
    pub fn is_acknowledgement(self) -> bool {
        self.kind == 0 && self.payload == 0
    }
}

/// Whether the check field holds the check of the upper 48 bits.
#[inline]
pub fn is_whole(bits: u64) -> bool {
    with_check(bits >> 16) == bits
}

/// The word whose upper 48 bits are this value.
fn with_check(value: u64) -> u64 {
    value << 16 | (MODULUS - value % MODULUS)
}

#[cfg(test)]
mod tests {
    use super::*;

    #[test]
    fn acknowledgements_of_the_page() {
        assert_eq!(Word::acknowledgement(0).pack(), 0x0000_0000_0000_FFF1);
        assert_eq!(Word::acknowledgement(1).pack(), 0x0100_0000_0000_1EF1);
        assert_eq!(Word::acknowledgement(3).pack(), 0x0300_0000_0000_5CD3);
    }

    #[test]
    fn reading_of_the_page() {
        let word = Word {
            label: 5,
            kind: 2,
            payload: 0x2_8271_1400,
        };
        assert_eq!(word.pack(), 0x0522_8271_1400_C3BC);
        assert_eq!(Word::read(0x0522_8271_1400_C3BC), Some(word));
    }

    #[test]
    fn word_that_is_not_whole() {
        assert!(!is_whole(0x0100_0000_0000_1EF0));
        assert_eq!(Word::read(0x0100_0000_0000_1EF0), None);
        assert_eq!(Word::read(0), None);
    }

    #[test]
    fn a_changed_bit_is_seen() {
        for bits in [0x0522_8271_1400_C3BC, 0xFFF1, 0x0312_0000_0032_4CCF] {
            assert!(is_whole(bits));
            for place in 0..64 {
                assert!(!is_whole(bits ^ 1 << place));
            }
        }
    }

    #[test]
    fn fields_do_not_run_into_one_another() {
        let word = Word {
            label: 255,
            kind: 15,
            payload: PAYLOAD_MAX,
        };
        assert_eq!(Word::read(word.pack()), Some(word));
        assert_eq!(word.pack() >> 16, (1 << 48) - 1);
    }

    #[test]
    fn acknowledgement_has_no_payload() {
        assert!(Word::acknowledgement(9).is_acknowledgement());
        let with_payload = Word {
            label: 9,
            kind: 0,
            payload: 1,
        };
        assert!(!with_payload.is_acknowledgement());
    }
}
