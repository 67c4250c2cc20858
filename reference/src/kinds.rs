//! Record kinds: what a payload of 36 bits means.

use std::fmt::Debug;

use crate::refusals::Refusal;

/// A kind of record that a link can carry.
pub trait RecordKind {
    /// The records of this kind.
    type Record: Copy + Debug + PartialEq;

    /// The number in a word's kind field, from 1 to 15.
    const NUMBER: u8;

    /// The letter in a script's first line.
    const LETTER: u8;

    /// The record that both ends of a bench's new link hold.
    fn first() -> Self::Record;

    /// The payload of a record, below 2^36.
    fn pack(record: Self::Record) -> u64;

    /// The record that a number is the payload of, or `code`.
    fn unpack(payload: u64) -> Result<Self::Record, Refusal>;
}

/// A number from 1 to 12 that names an axle.
#[derive(Clone, Copy, Debug, PartialEq, Eq)]
pub struct Axle(u8);

/// A number within its limits, or `code`.
fn within(value: u64, least: u64, most: u64) -> Result<u64, Refusal> {
    if (least..=most).contains(&value) {
        Ok(value)
    } else {
        Err(Refusal::Code)
    }
}

impl Axle {
    /// The axle of this number, or `code`.
    pub fn new(number: u64) -> Result<Axle, Refusal> {
        Ok(Axle(within(number, 1, 12)? as u8))
    }

    /// Its number.
    pub fn number(self) -> u8 {
        self.0
    }
}

/// A speed from 0.1 to 6.0 km/h, in tenths.
#[derive(Clone, Copy, Debug, PartialEq, Eq)]
pub struct Speed(u8);

impl Speed {
    /// The speed of so many tenths of km/h, or `code`.
    pub fn new(tenths: u64) -> Result<Speed, Refusal> {
        Ok(Speed(within(tenths, 1, 60)? as u8))
    }

    /// Its tenths of km/h.
    pub fn tenths(self) -> u8 {
        self.0
    }
}

/// What a lamp shows, from 0 to 7.
#[derive(Clone, Copy, Debug, PartialEq, Eq)]
pub struct Lamp(u8);

impl Lamp {
    /// The lamp of this number, or `code`.
    pub fn new(number: u64) -> Result<Lamp, Refusal> {
        Ok(Lamp(within(number, 0, 7)? as u8))
    }

    /// Its number.
    pub fn number(self) -> u8 {
        self.0
    }
}

/// An order to the bench.
#[derive(Clone, Copy, Debug, PartialEq, Eq)]
pub enum Command {
    Stop,
    Run(Speed),
    ChooseAxle(Axle),
    ZeroScale,
    ShowLamp(Lamp),
}

/// The kind of commands: 4 bits of code above 32 bits of argument.
#[derive(Clone, Copy, Debug)]
pub struct Commands;

impl RecordKind for Commands {
    type Record = Command;

    const NUMBER: u8 = 1;
    const LETTER: u8 = b'C';

    fn first() -> Command {
        Command::Stop
    }

    #[inline]
    fn pack(command: Command) -> u64 {
        let (code, argument) = match command {
            Command::Stop => (1, 0),
            Command::Run(speed) => (2, speed.tenths()),
            Command::ChooseAxle(axle) => (3, axle.number()),
            Command::ZeroScale => (4, 0),
            Command::ShowLamp(lamp) => (5, lamp.number()),
        };
        code << 32 | u64::from(argument)
    }

    #[inline]
    fn unpack(payload: u64) -> Result<Command, Refusal> {
        let argument = payload & 0xFFFF_FFFF;
        match (payload >> 32, argument) {
            (1, 0) => Ok(Command::Stop),
            (2, tenths) => Speed::new(tenths).map(Command::Run),
            (3, number) => Axle::new(number).map(Command::ChooseAxle),
            (4, 0) => Ok(Command::ZeroScale),
            (5, number) => Lamp::new(number).map(Command::ShowLamp),
            _ => Err(Refusal::Code),
        }
    }
}

/// A side of the vehicle.
#[derive(Clone, Copy, Debug, PartialEq, Eq)]
pub enum Side {
    Left,
    Right,
}

/// A measured brake force with its pressure.
#[derive(Clone, Copy, Debug, PartialEq, Eq)]
pub struct Reading {
    axle: Axle,
    side: Side,
    force: u16,
    pressure: u16,
}

impl Reading {
    /// A reading with a force in units of 10 newtons, up to 6,000, and a pressure in hundredths
    /// of a bar, up to 1,500; otherwise `code`.
    pub fn new(axle: Axle, side: Side, force: u64, pressure: u64) -> Result<Reading, Refusal> {
        Ok(Reading {
            axle,
            side,
            force: within(force, 0, 6_000)? as u16,
            pressure: within(pressure, 0, 1_500)? as u16,
        })
    }
}

/// The kind of readings: axle, side, force, pressure and three spare bits.
#[derive(Clone, Copy, Debug)]
pub struct Readings;

impl RecordKind for Readings {
    type Record = Reading;

    const NUMBER: u8 = 2;
    const LETTER: u8 = b'G';

    fn first() -> Reading {
        Reading {
            axle: Axle(1),
            side: Side::Left,
            force: 0,
            pressure: 0,
        }
    }

    #[inline]
    fn pack(reading: Reading) -> u64 {
        let side = match reading.side {
            Side::Left => 0,
            Side::Right => 1,
        };
        u64::from(reading.axle.number()) << 32
            | side << 31
            | u64::from(reading.force) << 15
            | u64::from(reading.pressure) << 3
    }

    #[inline]
    fn unpack(payload: u64) -> Result<Reading, Refusal> {
        within(payload & 7, 0, 0)?;
        let axle = Axle::new(payload >> 32)?;
        let side = if payload >> 31 & 1 == 0 {
            Side::Left
        } else {
            Side::Right
        };
        Reading::new(axle, side, payload >> 15 & 0xFFFF, payload >> 3 & 0xFFF)
    }
}

#[cfg(test)]
mod tests {
    use super::*;

    fn assert_command(payload: u64, command: Command) {
        assert_eq!(Commands::unpack(payload), Ok(command));
        assert_eq!(Commands::pack(command), payload);
    }

    #[test]
    fn commands_of_the_table() {
        assert_command(0x1_0000_0000, Command::Stop);
        assert_command(0x2_0000_0001, Command::Run(Speed(1)));
        assert_command(0x2_0000_003C, Command::Run(Speed(60)));
        assert_command(0x3_0000_0001, Command::ChooseAxle(Axle(1)));
        assert_command(0x3_0000_000C, Command::ChooseAxle(Axle(12)));
        assert_command(0x4_0000_0000, Command::ZeroScale);
        assert_command(0x5_0000_0000, Command::ShowLamp(Lamp(0)));
        assert_command(0x5_0000_0007, Command::ShowLamp(Lamp(7)));
    }

    #[test]
    fn payloads_that_are_no_commands() {
        for payload in [
            0x0_0000_0000,
            0x1_0000_0001,
            0x2_0000_0000,
            0x2_0000_003D,
            0x2_0001_0001,
            0x3_0000_0000,
            0x3_0000_000D,
            0x4_0000_0001,
            0x5_0000_0008,
            0x6_0000_0000,
            0xF_0000_0000,
            0x11_0000_0000,
            u64::MAX,
        ] {
            assert_eq!(Commands::unpack(payload), Err(Refusal::Code), "{payload:X}");
        }
    }

    #[test]
    fn reading_of_the_page() {
        let reading = Reading::new(Axle(2), Side::Right, 1_250, 640).unwrap();
        assert_eq!(Readings::pack(reading), 0x2_8271_1400);
        assert_eq!(Readings::unpack(0x2_8271_1400), Ok(reading));
    }

    #[test]
    fn readings_at_their_limits() {
        for (axle, side, force, pressure) in [
            (1, Side::Left, 0, 0),
            (12, Side::Right, 6_000, 1_500),
            (12, Side::Left, 0, 1_500),
        ] {
            let reading = Reading::new(Axle(axle), side, force, pressure).unwrap();
            assert_eq!(Readings::unpack(Readings::pack(reading)), Ok(reading));
        }
    }

    #[test]
    fn payloads_that_are_no_readings() {
        for payload in [
            0x0_0000_0000,
            0xD_0000_0000,
            0x1_0000_0001,
            0x1_0000_0004,
            0x1_0000_0000 | 6_001 << 15,
            0x1_0000_0000 | 1_501 << 3,
            0x11_0000_0000,
            u64::MAX,
        ] {
            assert_eq!(Readings::unpack(payload), Err(Refusal::Code), "{payload:X}");
        }
    }

    #[test]
    fn first_records_are_records() {
        assert_eq!(Commands::pack(Commands::first()), 0x1_0000_0000);
        assert_eq!(Readings::pack(Readings::first()), 0x1_0000_0000);
        assert_eq!(Readings::unpack(0x1_0000_0000), Ok(Readings::first()));
    }
}
