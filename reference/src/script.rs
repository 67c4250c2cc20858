//! Scripts: their lines, the first line, and the orders of the others.

use std::fmt;

use crate::digits::read_hexadecimal;
use crate::kinds::{Commands, Readings, RecordKind};

/// A set-up of the bench.
#[derive(Clone, Copy, Debug, PartialEq, Eq, Hash)]
pub enum Setup {
    First,
    Second,
}

/// A record kind of the bench, as its letter names it.
#[derive(Clone, Copy, Debug, PartialEq, Eq, Hash)]
pub enum Kind {
    Commands,
    Readings,
}

impl Kind {
    /// The kind of a letter.
    pub fn of_letter(letter: u8) -> Option<Kind> {
        match letter {
            Commands::LETTER => Some(Kind::Commands),
            Readings::LETTER => Some(Kind::Readings),
            _ => None,
        }
    }

    /// The letter of this kind.
    pub fn letter(self) -> char {
        char::from(match self {
            Kind::Commands => Commands::LETTER,
            Kind::Readings => Readings::LETTER,
        })
    }
}

/// What the first line asks for.
#[derive(Clone, Copy, Debug, PartialEq, Eq)]
pub struct Making {
    pub setup: Setup,
    pub kind: Kind,
    pub label_count: u16,
}

/// What another line asks for.
#[derive(Clone, Copy, Debug, PartialEq, Eq)]
pub enum Order {
    Offer(u64),
    Send,
    Hear,
    Settle,
    Tick,
    Round,
    SetSenderLabel(u8),
    SetReceiverLabel(u8),
    PutForward(u64),
    PutBack(u64),
}

impl fmt::Display for Making {
    fn fmt(&self, f: &mut fmt::Formatter<'_>) -> fmt::Result {
        let setup = match self.setup {
            Setup::First => '1',
            Setup::Second => '2',
        };
        let letter = self.kind.letter();
        write!(f, "P {setup} {letter} {:02X}", self.label_count % 256)
    }
}

impl fmt::Display for Order {
    fn fmt(&self, f: &mut fmt::Formatter<'_>) -> fmt::Result {
        match self {
            Order::Offer(payload) => write!(f, "o {payload:09X}"),
            Order::Send => f.write_str("s"),
            Order::Hear => f.write_str("h"),
            Order::Settle => f.write_str("a"),
            Order::Tick => f.write_str("t"),
            Order::Round => f.write_str("r"),
            Order::SetSenderLabel(label) => write!(f, "S {label:02X}"),
            Order::SetReceiverLabel(label) => write!(f, "R {label:02X}"),
            Order::PutForward(word) => write!(f, "F {word:016X}"),
            Order::PutBack(word) => write!(f, "B {word:016X}"),
        }
    }
}

/// The lines of a script. A last line end is followed by no further line.
pub fn lines(script: &[u8]) -> impl Iterator<Item = &[u8]> {
    script.split_inclusive(|&byte| byte == b'\n').map(|line| {
        let end = line.strip_suffix(b"\n");
        end.unwrap_or(line)
    })
}

/// Reads the first line, if it has its form.
pub fn read_making(line: &[u8]) -> Option<Making> {
    let [b'P', b' ', setup, b' ', letter, b' ', labels @ ..] = line else {
        return None;
    };
    let setup = match setup {
        b'1' => Setup::First,
        b'2' => Setup::Second,
        _ => return None,
    };
    let kind = Kind::of_letter(*letter)?;
    let label_count = match read_hexadecimal(labels, 2)? {
        0 => 256,
        count => count as u16,
    };
    Some(Making {
        setup,
        kind,
        label_count,
    })
}

/// Reads a line after the first, if it is an order.
pub fn read_order(line: &[u8]) -> Option<Order> {
    match line {
        b"s" => Some(Order::Send),
        b"h" => Some(Order::Hear),
        b"a" => Some(Order::Settle),
        b"t" => Some(Order::Tick),
        b"r" => Some(Order::Round),
        [letter, b' ', digits @ ..] => read_order_with_number(*letter, digits),
        _ => None,
    }
}

fn read_order_with_number(letter: u8, digits: &[u8]) -> Option<Order> {
    match letter {
        b'o' => read_hexadecimal(digits, 9).map(Order::Offer),
        b'S' => read_label(digits).map(Order::SetSenderLabel),
        b'R' => read_label(digits).map(Order::SetReceiverLabel),
        b'F' => read_hexadecimal(digits, 16).map(Order::PutForward),
        b'B' => read_hexadecimal(digits, 16).map(Order::PutBack),
        _ => None,
    }
}

fn read_label(digits: &[u8]) -> Option<u8> {
    read_hexadecimal(digits, 2).map(|label| label as u8)
}

#[cfg(test)]
mod tests {
    use super::*;

    fn split(script: &[u8]) -> Vec<&[u8]> {
        lines(script).collect()
    }

    #[test]
    fn lines_end_with_a_line_end_or_with_the_script() {
        assert_eq!(split(b""), Vec::<&[u8]>::new());
        assert_eq!(split(b"\n"), [b""]);
        assert_eq!(split(b"s"), [b"s"]);
        assert_eq!(split(b"s\n"), [b"s"]);
        assert_eq!(split(b"s\n\n"), [&b"s"[..], b""]);
        assert_eq!(split(b"s\n\nh"), [&b"s"[..], b"", b"h"]);
        assert_eq!(split(b"s\r\n"), [b"s\r"]);
    }

    #[test]
    fn first_lines() {
        assert_eq!(
            read_making(b"P 1 C 04"),
            Some(Making {
                setup: Setup::First,
                kind: Kind::Commands,
                label_count: 4
            })
        );
        assert_eq!(
            read_making(b"P 2 G 00"),
            Some(Making {
                setup: Setup::Second,
                kind: Kind::Readings,
                label_count: 256
            })
        );
        for line in ["P 1 C 04", "P 2 G 00", "P 1 G FF"] {
            let making = read_making(line.as_bytes()).unwrap();
            assert_eq!(making.to_string(), line);
        }
        for bad in [
            &b""[..],
            b"P",
            b"P 1 C",
            b"P 1 C ",
            b"P 1 C 4",
            b"P 1 C 004",
            b"P 1 C 0a",
            b"P 1 C 04 ",
            b"P 1 C 04\r",
            b" P 1 C 04",
            b"P  1 C 04",
            b"P 0 C 04",
            b"P 3 C 04",
            b"P 1 R 04",
            b"P 1 c 04",
            b"p 1 C 04",
            b"P\t1 C 04",
            b"P1C04",
        ] {
            assert_eq!(read_making(bad), None, "{}", bad.escape_ascii());
        }
    }

    #[test]
    fn orders() {
        for (line, order) in [
            (&b"o 20000003C"[..], Order::Offer(0x2_0000_003C)),
            (b"s", Order::Send),
            (b"h", Order::Hear),
            (b"a", Order::Settle),
            (b"t", Order::Tick),
            (b"r", Order::Round),
            (b"S FF", Order::SetSenderLabel(255)),
            (b"R 0A", Order::SetReceiverLabel(10)),
            (
                b"F 0100000000001EF1",
                Order::PutForward(0x0100_0000_0000_1EF1),
            ),
            (b"B 0000000000000000", Order::PutBack(0)),
        ] {
            assert_eq!(read_order(line), Some(order), "{}", line.escape_ascii());
            assert_eq!(order.to_string().as_bytes(), line);
        }
    }

    #[test]
    fn lines_that_are_no_orders() {
        for bad in [
            &b""[..],
            b" ",
            b"x",
            b"r ",
            b" r",
            b"r\r",
            b"R",
            b"rr",
            b"H",
            b"s 0",
            b"o",
            b"o ",
            b"o 20000003c",
            b"o 2000003C",
            b"o 020000003C",
            b"o 20000003C ",
            b"o  20000003C",
            b"o\t20000003C",
            b"o20000003C",
            b"S 1",
            b"S 001",
            b"S 0g",
            b"s 01",
            b"F 100000000001EF1",
            b"f 0100000000001EF1",
            b"F 0100000000001EF1\0",
            b"B 0100000000001ef1",
            b"P 1 C 04",
            b"\0",
            b"\xff",
            b"h\0",
        ] {
            assert_eq!(read_order(bad), None, "{}", bad.escape_ascii());
        }
    }
}
