//! Frames wrapped in an outer field, for a link that hands over bytes in pieces of any size.

use crate::fault::{Fault, Wrong};
use crate::link::{HEAD, field};
use crate::refusal::Refusal;

pub const TAG: u8 = 0x01;
/// The longest frame that is wrapped.
pub const MOST_CONTENTS: usize = 64;

/// The offset is counted from the outer field's tag.
const BAD_LENGTH: Fault = Fault {
    offset: 0,
    wrong: Wrong::Length,
};

pub fn wrap(frame: &[u8], room: usize) -> Result<Vec<u8>, Refusal> {
    if !is_length(frame.len()) {
        return Err(Refusal::TooMuchData);
    }
    if room < HEAD + frame.len() {
        return Err(Refusal::ShortOutput);
    }
    Ok(field(TAG, frame))
}

fn is_length(length: usize) -> bool {
    (1..=MOST_CONTENTS).contains(&length)
}

/// What the last byte taken completed.
#[derive(Clone, Debug, PartialEq, Eq)]
pub enum Came {
    Frame(Vec<u8>),
    Refused(Fault),
}

/// How many bytes a call took, and what came with the last of them.
#[derive(Clone, Debug, PartialEq, Eq)]
pub struct Taken {
    pub count: usize,
    pub came: Option<Came>,
}

/// Where in the stream the next byte stands.
#[derive(Clone, Debug, PartialEq, Eq)]
enum Place {
    Tag,
    LengthLow,
    LengthHigh { low: u8 },
    Contents { length: usize, had: Vec<u8> },
    Skipped { left: u16 },
}

#[derive(Clone, Debug, PartialEq, Eq)]
pub struct Receiver {
    place: Place,
    dropped: u32,
}

impl Default for Receiver {
    fn default() -> Receiver {
        Receiver::new()
    }
}

impl Receiver {
    pub fn new() -> Receiver {
        Receiver::with_dropped(0)
    }

    /// One where a tag should stand, which has dropped that many bytes.
    pub fn with_dropped(dropped: u32) -> Receiver {
        Receiver {
            place: Place::Tag,
            dropped,
        }
    }

    pub fn dropped(&self) -> u32 {
        self.dropped
    }

    pub fn at_tag(&self) -> bool {
        self.place == Place::Tag
    }

    /// How many bytes are still to be skipped.
    pub fn skipping(&self) -> usize {
        match self.place {
            Place::Skipped { left } => usize::from(left),
            _ => 0,
        }
    }

    /// Takes bytes up to the next frame or refusal, or all of them.
    pub fn take(&mut self, bytes: &[u8]) -> Taken {
        for (place, byte) in bytes.iter().enumerate() {
            let came = self.byte(*byte);
            if came.is_some() {
                return Taken {
                    count: place + 1,
                    came,
                };
            }
        }
        Taken {
            count: bytes.len(),
            came: None,
        }
    }

    fn byte(&mut self, byte: u8) -> Option<Came> {
        match &mut self.place {
            Place::Tag if byte == TAG => self.place = Place::LengthLow,
            Place::Tag => self.dropped = self.dropped.saturating_add(1),
            Place::LengthLow => self.place = Place::LengthHigh { low: byte },
            Place::LengthHigh { low } => {
                let length = u16::from_le_bytes([*low, byte]);
                return self.length(length);
            }
            Place::Contents { length, had } => {
                had.push(byte);
                if had.len() == *length {
                    let frame = std::mem::take(had);
                    self.place = Place::Tag;
                    return Some(Came::Frame(frame));
                }
            }
            Place::Skipped { left } => {
                *left -= 1;
                if *left == 0 {
                    self.place = Place::Tag;
                }
            }
        }
        None
    }

    fn length(&mut self, length: u16) -> Option<Came> {
        if is_length(usize::from(length)) {
            self.place = Place::Contents {
                length: usize::from(length),
                had: Vec::new(),
            };
            return None;
        }
        self.place = match length {
            0 => Place::Tag,
            left => Place::Skipped { left },
        };
        Some(Came::Refused(BAD_LENGTH))
    }
}
