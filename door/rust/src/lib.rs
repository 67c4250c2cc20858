//! A safe wrapper of Gelmuska's door: reports of scripts, words of the wire, and records.
//!
//! The functions behind it are proved; this wrapper and its declarations of them are not.

mod door;

use std::fmt;

/// A page has at least so many bytes: the report of every script fits.
const PAGE: usize = 50_000;

/// Why a call was refused.
#[derive(Clone, Copy, Debug, PartialEq, Eq)]
pub enum Refusal {
    /// The word is not whole.
    Spoilt,
    /// No record, or parts that do not fit a word.
    Code,
    /// A script that is too long.
    Page,
    /// There is no such set-up.
    Size,
    /// Too few labels for the channels, or too many.
    Labels,
    /// Another number of the refusal table. The door gives none.
    Other(u32),
}

impl Refusal {
    /// The table's number.
    pub fn number(self) -> u32 {
        match self {
            Refusal::Size => 1,
            Refusal::Labels => 3,
            Refusal::Spoilt => 8,
            Refusal::Code => 11,
            Refusal::Page => 14,
            Refusal::Other(number) => number,
        }
    }
}

impl fmt::Display for Refusal {
    fn fmt(&self, f: &mut fmt::Formatter<'_>) -> fmt::Result {
        match self {
            Refusal::Size => f.write_str("size"),
            Refusal::Labels => f.write_str("labels"),
            Refusal::Spoilt => f.write_str("spoilt"),
            Refusal::Code => f.write_str("code"),
            Refusal::Page => f.write_str("page"),
            Refusal::Other(number) => write!(f, "refusal {number}"),
        }
    }
}

impl std::error::Error for Refusal {}

/// What a status says: 0 is done.
fn answer(status: u32) -> Result<(), Refusal> {
    match status {
        0 => Ok(()),
        1 => Err(Refusal::Size),
        3 => Err(Refusal::Labels),
        8 => Err(Refusal::Spoilt),
        11 => Err(Refusal::Code),
        14 => Err(Refusal::Page),
        number => Err(Refusal::Other(number)),
    }
}

/// The report of a script of at most 4,096 bytes.
pub fn report(script: &[u8]) -> Result<Vec<u8>, Refusal> {
    let mut page = vec![0; PAGE];
    let length = report_into(script, &mut page)?;
    page.truncate(length);
    Ok(page)
}

/// The same on a page of at least 50,000 bytes, with the report's length; bytes beyond it stay.
pub fn report_into(script: &[u8], page: &mut [u8]) -> Result<usize, Refusal> {
    let mut length = 0;
    // The pointers and lengths are those of the two slices, which do not overlap.
    let status = unsafe { door::gelmuska_report(script.as_ptr(), script.len(), page.as_mut_ptr(), page.len(), &mut length) };
    answer(status)?;
    Ok(length as usize)
}

/// How many exchanges were completed, and which of them was the first that left the link clean, 0 while none has. Both stop at
/// 65,535.
#[repr(C)]
#[derive(Clone, Copy, Debug, PartialEq, Eq, Default)]
pub struct Observer {
    pub completed: u16,
    pub first: u16,
}

/// Makes a link of commands over a standard set-up, 1 or 2; offers it the command to stop and performs a round, so many times.
pub fn rounds(setup: u8, labels: u16, rounds: u32) -> Result<Observer, Refusal> {
    let mut observer = Observer::default();
    answer(unsafe { door::gelmuska_rounds(setup, labels, rounds, &mut observer) })?;
    Ok(observer)
}

/// What a word of the wire carries besides its check: a kind up to 15 and a payload below 2^36.
#[repr(C)]
#[derive(Clone, Copy, Debug, PartialEq, Eq, Default)]
pub struct Word {
    pub label: u8,
    pub kind: u8,
    pub payload: u64,
}

impl Word {
    /// The 64 bits, with their check. Refused `code` where kind or payload do not fit.
    pub fn pack(self) -> Result<u64, Refusal> {
        let mut word = 0;
        answer(unsafe { door::gelmuska_word_pack(&self, &mut word) })?;
        Ok(word)
    }

    /// What 64 bits carry. Refused `spoilt` where they are not whole.
    pub fn read(bits: u64) -> Result<Word, Refusal> {
        let mut word = Word::default();
        answer(unsafe { door::gelmuska_word_read(bits, &mut word) })?;
        Ok(word)
    }
}

/// A command: 1 stop, 2 run in tenths of km/h, 3 choose axle, 4 set scale to zero, 5 lamp.
#[repr(C)]
#[derive(Clone, Copy, Debug, PartialEq, Eq, Default)]
pub struct Command {
    pub code: u8,
    pub argument: u32,
}

impl Command {
    /// Its payload. Refused `code` where the table does not take it.
    pub fn pack(self) -> Result<u64, Refusal> {
        let mut payload = 0;
        answer(unsafe { door::gelmuska_command_pack(&self, &mut payload) })?;
        Ok(payload)
    }

    /// The command that a payload is. Refused `code` where it is none.
    pub fn unpack(payload: u64) -> Result<Command, Refusal> {
        let mut command = Command::default();
        answer(unsafe { door::gelmuska_command_unpack(payload, &mut command) })?;
        Ok(command)
    }
}

/// A reading: axle 1 to 12; side 0 left, 1 right; force in units of 10 newtons; pressure in hundredths of a bar.
#[repr(C)]
#[derive(Clone, Copy, Debug, PartialEq, Eq, Default)]
pub struct Reading {
    pub axle: u8,
    pub side: u8,
    pub force: u16,
    pub pressure: u16,
}

impl Reading {
    /// Its payload. Refused `code` where a part is out of range.
    pub fn pack(self) -> Result<u64, Refusal> {
        let mut payload = 0;
        answer(unsafe { door::gelmuska_reading_pack(&self, &mut payload) })?;
        Ok(payload)
    }

    /// The reading that a payload is. Refused `code` where it is none.
    pub fn unpack(payload: u64) -> Result<Reading, Refusal> {
        let mut reading = Reading::default();
        answer(unsafe { door::gelmuska_reading_unpack(payload, &mut reading) })?;
        Ok(reading)
    }
}
