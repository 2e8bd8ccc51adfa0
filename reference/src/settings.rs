//! The values a controller holds, its registers, and the settings block of WELCOME.

use std::ops::Range;

use crate::packet::Way;

/// The length of a settings block.
pub const BLOCK: usize = 37;

/// The registers of a settings block, in its order.
pub const IN_BLOCK: [Register; 15] = [
    Register::Backlight,
    Register::Master,
    Register::Park,
    Register::Splash,
    Register::Strength,
    Register::Heater,
    Register::Bezel,
    Register::Pixels,
    Register::Calibration,
    Register::Red,
    Register::Green,
    Register::Blue,
    Register::CurrentLimit,
    Register::Gain,
    Register::Status,
];

/// Each register's place in a settings block.
pub fn places() -> impl Iterator<Item = (Register, Range<usize>)> {
    let mut end = 0;
    IN_BLOCK.into_iter().map(move |register| {
        let start = end;
        end += register.size();
        (register, start..end)
    })
}

/// Where a register stands in a settings block.
pub fn place(register: Register) -> Range<usize> {
    let found = places().find(|(other, _)| *other == register);
    found.expect("all registers stand in a settings block").1
}

#[derive(Clone, Copy, Debug, PartialEq, Eq)]
pub enum Register {
    Backlight,
    Master,
    Park,
    Splash,
    Strength,
    Heater,
    Bezel,
    Status,
    Pixels,
    Calibration,
    Red,
    Green,
    Blue,
    CurrentLimit,
    Gain,
}

impl Register {
    pub fn of_id(id: u8) -> Option<Register> {
        Some(match id {
            0x00 => Register::Backlight,
            0x01 => Register::Master,
            0x02 => Register::Park,
            0x25 => Register::Splash,
            0x26 => Register::Strength,
            0x27 => Register::Heater,
            0x28 => Register::Bezel,
            0x33 => Register::Status,
            0x53 => Register::Pixels,
            0x64 => Register::Calibration,
            0x65 => Register::Red,
            0x66 => Register::Green,
            0x67 => Register::Blue,
            0x68 => Register::CurrentLimit,
            0x69 => Register::Gain,
            _ => return None,
        })
    }

    pub fn has(self, way: Way) -> bool {
        way == Way::Read || self != Register::Status
    }

    /// Whether it is written in calibration mode only. All registers are read in either mode.
    pub fn is_trimmed(self) -> bool {
        matches!(
            self,
            Register::Red | Register::Green | Register::Blue | Register::CurrentLimit | Register::Gain
        )
    }

    /// Data bytes of the write, and of the read's reply.
    pub fn size(self) -> usize {
        match self {
            Register::Master | Register::Park | Register::Splash | Register::Strength => 1,
            Register::Calibration | Register::Gain => 1,
            Register::Backlight => 2,
            Register::Red | Register::Green | Register::Blue | Register::CurrentLimit => 2,
            Register::Heater => 3,
            Register::Status => 4,
            Register::Bezel => 6,
            Register::Pixels => 8,
        }
    }
}

#[derive(Clone, Copy, Debug, PartialEq, Eq)]
pub enum Flag {
    Incomplete,
    NotAvailable,
    InvalidCommand,
    OutOfRange,
    EscapeSeen,
    Length,
    BytesIgnored,
    Checksum,
}

impl Flag {
    /// Byte of the status, and bit in it.
    pub fn place(self) -> (usize, u8) {
        match self {
            Flag::Incomplete => (0, 3),
            Flag::NotAvailable => (0, 2),
            Flag::InvalidCommand => (0, 0),
            Flag::OutOfRange => (1, 5),
            Flag::EscapeSeen => (3, 7),
            Flag::Length => (3, 6),
            Flag::BytesIgnored => (3, 5),
            Flag::Checksum => (3, 4),
        }
    }
}

#[derive(Clone, Copy, Debug, PartialEq, Eq)]
pub struct Heater {
    pub khz: u16,
    pub duty: u8,
}

#[derive(Clone, Copy, Debug, PartialEq, Eq)]
pub struct Settings {
    pub backlight: u16,
    pub master: bool,
    pub parked: bool,
    pub splash: bool,
    pub strength: u8,
    pub heater: Heater,
    /// Horizontal, vertical.
    pub bezel: [i32; 2],
    /// Start x, start y, end x, end y.
    pub pixels: [u16; 4],
    /// In calibration mode, else in normal mode.
    pub calibration: bool,
    pub red: u16,
    pub green: u16,
    pub blue: u16,
    pub current_limit: u16,
    pub gain: u8,
    pub status: [u8; 4],
}

impl Settings {
    pub fn fresh() -> Settings {
        Settings {
            backlight: 0,
            master: true,
            parked: false,
            splash: false,
            strength: 0,
            heater: Heater { khz: 0, duty: 0 },
            bezel: [0; 2],
            pixels: [0; 4],
            calibration: false,
            red: 0,
            green: 0,
            blue: 0,
            current_limit: 0,
            gain: 0,
            status: [0; 4],
        }
    }

    /// Whether a command is available: any but master's while master is on, and of those the writes that
    /// trim in calibration mode alone.
    pub fn available(&self, register: Register, way: Way) -> bool {
        let with_master = self.master || register == Register::Master;
        let in_mode = self.calibration || way == Way::Read || !register.is_trimmed();
        with_master && in_mode
    }

    pub fn flag(&mut self, flag: Flag) {
        let (byte, bit) = flag.place();
        self.status[byte] |= 1 << bit;
    }

    /// Takes data of the register's size; false, with nothing changed, if not accepted.
    pub fn write(&mut self, register: Register, data: &[u8]) -> bool {
        match (register, data) {
            (Register::Backlight, &[low, high]) => self.backlight = word(low, high),
            (Register::Master, &[value @ 0..=1]) => self.master = value == 1,
            (Register::Park, &[value @ 0..=1]) => self.parked = value == 1,
            (Register::Splash, &[value @ 0..=1]) => self.splash = value == 1,
            (Register::Strength, &[value @ 0..=2]) => self.strength = value,
            (Register::Heater, &[low, high, duty @ 0..=100]) => {
                let khz = word(low, high);
                self.heater = Heater { khz, duty };
            }
            (Register::Bezel, &[xl, xh, xs @ 0..=1, yl, yh, ys @ 0..=1]) => {
                self.bezel = [offset(word(xl, xh), xs), offset(word(yl, yh), ys)];
            }
            (Register::Pixels, &[a, b, c, d, e, f, g, h]) => {
                self.pixels = [word(a, b), word(c, d), word(e, f), word(g, h)];
            }
            (Register::Calibration, &[value @ 0..=1]) => self.calibration = value == 1,
            (Register::Red, &[low, high]) => self.red = word(low, high),
            (Register::Green, &[low, high]) => self.green = word(low, high),
            (Register::Blue, &[low, high]) => self.blue = word(low, high),
            (Register::CurrentLimit, &[low, high]) => self.current_limit = word(low, high),
            (Register::Gain, &[value @ 0..=3]) => self.gain = value,
            _ => return false,
        }
        true
    }

    pub fn read(&self, register: Register) -> Vec<u8> {
        match register {
            Register::Backlight => self.backlight.to_le_bytes().to_vec(),
            Register::Master => vec![u8::from(self.master)],
            Register::Park => vec![if self.parked { 2 } else { 0 }],
            Register::Splash => vec![u8::from(self.splash)],
            Register::Strength => vec![self.strength],
            Register::Heater => {
                let [low, high] = self.heater.khz.to_le_bytes();
                vec![low, high, self.heater.duty]
            }
            Register::Bezel => self.bezel.into_iter().flat_map(offset_bytes).collect(),
            Register::Status => self.status.to_vec(),
            Register::Pixels => self.pixels.into_iter().flat_map(u16::to_le_bytes).collect(),
            Register::Calibration => vec![u8::from(self.calibration)],
            Register::Red => self.red.to_le_bytes().to_vec(),
            Register::Green => self.green.to_le_bytes().to_vec(),
            Register::Blue => self.blue.to_le_bytes().to_vec(),
            Register::CurrentLimit => self.current_limit.to_le_bytes().to_vec(),
            Register::Gain => vec![self.gain],
        }
    }

    pub fn to_block(&self) -> Vec<u8> {
        let part = |register| match register {
            // As it is held, not as it is read.
            Register::Park => vec![u8::from(self.parked)],
            _ => self.read(register),
        };
        IN_BLOCK.into_iter().flat_map(part).collect()
    }

    /// The settings of a block that a controller could hold.
    pub fn from_block(block: &[u8]) -> Option<Settings> {
        if block.len() != BLOCK {
            return None;
        }
        let mut settings = Settings::fresh();
        for (register, place) in places() {
            let part = &block[place];
            if register == Register::Status {
                settings.status.copy_from_slice(part);
            } else if !settings.write(register, part) {
                return None;
            }
        }
        // A bezel offset of minus 0 comes out changed here.
        (settings.to_block() == block).then_some(settings)
    }
}

fn word(low: u8, high: u8) -> u16 {
    u16::from_le_bytes([low, high])
}

fn offset(amount: u16, sign: u8) -> i32 {
    let amount = i32::from(amount);
    if sign == 0 { -amount } else { amount }
}

fn offset_bytes(offset: i32) -> [u8; 3] {
    let [low, high, ..] = offset.unsigned_abs().to_le_bytes();
    [low, high, if offset < 0 { 0 } else { 1 }]
}
