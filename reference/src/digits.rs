//! Upper-case hexadecimal digits with a fixed count, and decimal numbers without leading zeros.

/// Reads exactly `count` upper-case hexadecimal digits, at most sixteen.
pub fn read_hexadecimal(text: &[u8], count: usize) -> Option<u64> {
    if text.len() != count {
        return None;
    }
    text.iter().try_fold(0, |value, &digit| {
        Some(value << 4 | u64::from(hexadecimal_digit(digit)?))
    })
}

fn hexadecimal_digit(digit: u8) -> Option<u8> {
    match digit {
        b'0'..=b'9' => Some(digit - b'0'),
        b'A'..=b'F' => Some(digit - b'A' + 10),
        _ => None,
    }
}

/// The last `N` hexadecimal digits of a value, the most significant first.
pub fn hexadecimal<const N: usize>(value: u64) -> [u8; N] {
    std::array::from_fn(|place| {
        let shift = 4 * (N - 1 - place);
        b"0123456789ABCDEF"[(value >> shift & 15) as usize]
    })
}

/// Reads a decimal number up to 65,535 without sign or leading zeros.
pub fn read_decimal(text: &[u8]) -> Option<u16> {
    if text.is_empty() || text.len() > 5 || (text[0] == b'0' && text.len() > 1) {
        return None;
    }
    let value = text.iter().try_fold(0u32, |value, digit| {
        digit
            .is_ascii_digit()
            .then(|| value * 10 + u32::from(digit - b'0'))
    })?;
    u16::try_from(value).ok()
}

#[cfg(test)]
mod tests {
    use super::*;

    #[test]
    fn hexadecimal_digits_are_exact() {
        assert_eq!(read_hexadecimal(b"0A", 2), Some(10));
        assert_eq!(read_hexadecimal(b"FFFFFFFFFFFFFFFF", 16), Some(u64::MAX));
        for bad in [
            &b"0a"[..],
            b"A",
            b"00A",
            b"0G",
            b"0@",
            b"0:",
            b"/0",
            b"+1",
            b"",
        ] {
            assert_eq!(read_hexadecimal(bad, 2), None, "{bad:?}");
        }
    }

    #[test]
    fn hexadecimal_is_written_with_leading_zeros() {
        assert_eq!(&hexadecimal::<9>(0x2_0000_0032), b"200000032");
        assert_eq!(&hexadecimal::<16>(0x5CD3), b"0000000000005CD3");
    }

    #[test]
    fn decimals_have_no_sign_and_no_leading_zeros() {
        assert_eq!(read_decimal(b"0"), Some(0));
        assert_eq!(read_decimal(b"65535"), Some(65_535));
        for bad in [
            &b""[..],
            b"00",
            b"01",
            b"+1",
            b"-1",
            b"65536",
            b"100000",
            b"1x",
            b" 1",
        ] {
            assert_eq!(read_decimal(bad), None, "{bad:?}");
        }
    }
}
