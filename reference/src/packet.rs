//! The packet writer and the reply reader.

use crate::refusal::Refusal;

pub const START: u8 = 0xA5;
pub const ESCAPE: u8 = 0x5A;
pub const DUMMY: u8 = 0xFF;
pub const LONGEST_PACKET: usize = 516;

#[derive(Clone, Copy, Debug, PartialEq, Eq)]
pub enum Way {
    Write,
    Read,
}

impl Way {
    pub fn of_command(command: u8) -> Way {
        if command & 1 == 0 { Way::Write } else { Way::Read }
    }
}

pub fn sum(bytes: &[u8]) -> u8 {
    bytes.iter().fold(0, |sum, byte| sum.wrapping_add(*byte))
}

pub fn command_byte(way: Way, id: u8) -> u8 {
    match way {
        Way::Write => 2 * id,
        Way::Read => 2 * id + 1,
    }
}

/// The packet as sent: start, then command byte, length, data and checksum, escaped.
pub fn write_packet(way: Way, id: u8, data: &[u8], room: usize) -> Result<Vec<u8>, Refusal> {
    if id > 127 {
        return Err(Refusal::IdTooHigh);
    }
    let length = u8::try_from(data.len()).map_err(|_| Refusal::TooMuchData)?;

    let mut plain = vec![command_byte(way, id), length];
    plain.extend_from_slice(data);
    plain.push(sum(&plain));

    let mut packet = vec![START];
    for byte in plain {
        match byte {
            START => packet.extend([ESCAPE, 0x00]),
            ESCAPE => packet.extend([ESCAPE, ESCAPE]),
            _ => packet.push(byte),
        }
    }
    if packet.len() > room {
        return Err(Refusal::ShortOutput);
    }
    Ok(packet)
}

#[derive(Clone, Debug, PartialEq, Eq)]
pub struct Reply {
    pub response: u8,
    pub data: Vec<u8>,
    /// How many of the bytes given the reply takes up, leading dummies included.
    pub end: usize,
}

/// Reads the answer to a packet of the given way; length, data and sum follow a
/// response of 01 only where a read was asked.
pub fn read_reply(asked: Way, bytes: &[u8]) -> Result<Reply, Refusal> {
    let first = bytes
        .iter()
        .position(|byte| *byte != DUMMY)
        .ok_or(Refusal::ReplyRunsOut)?;
    let response = bytes[first];
    match response {
        0x01 if asked == Way::Read => {}
        0x01..=0x05 | 0x07 | 0x08 => {
            return Ok(Reply {
                response,
                data: Vec::new(),
                end: first + 1,
            });
        }
        _ => return Err(Refusal::BadReply),
    }

    let length = *bytes.get(first + 1).ok_or(Refusal::ReplyRunsOut)?;
    let after_data = first + 2 + usize::from(length);
    let found = *bytes.get(after_data).ok_or(Refusal::ReplyRunsOut)?;
    if found != sum(&bytes[first..after_data]) {
        return Err(Refusal::BadReply);
    }
    Ok(Reply {
        response,
        data: bytes[first + 2..after_data].to_vec(),
        end: after_data + 1,
    })
}
