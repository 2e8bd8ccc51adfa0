//! A line of the script as a call.

use std::collections::VecDeque;
use std::fmt;

use super::OFFICES;
use super::log::Log;
use crate::link::Order;
use crate::packet::Way;
use crate::refusal::Refusal;

const LONGEST_LINE: usize = 4096;
const MOST_ROOM: u64 = 512;
const MOST_LENT: u64 = 516;
const MOST_WRAP_ROOM: u64 = 128;
const LONGEST_PIECE: usize = 128;

pub enum Call {
    /// The place of an office, from 0.
    Use(usize),
    Room(usize),
    Restart(Option<u32>),
    Open(u32),
    Reopen,
    Issue(Order),
    Resend(u16),
    ToBox(Vec<u8>),
    ToOffice(Vec<u8>),
    Many(Many, Option<usize>),
    Bus(Vec<u8>),
    Packet {
        way: Way,
        id: u8,
        data: Vec<u8>,
    },
    Reply {
        asked: Way,
        bytes: Vec<u8>,
    },
    Wrap {
        room: usize,
        frame: Vec<u8>,
    },
    Stream(Receives, Vec<u8>),
    Pieces(Receives, Pieces),
    Dropped,
    Explain(Refusal),
    Show,
    Describe,
}

/// What is done in one call; beside it stands the output that the line itself lends, if it does.
pub enum Many {
    Issue(Vec<Order>),
    /// Frames, joined, and the length of each.
    ToBox {
        lengths: Vec<u64>,
        bytes: Vec<u8>,
    },
}

impl Many {
    fn frames(frames: Vec<Vec<u8>>) -> Many {
        Many::ToBox {
            lengths: frames.iter().map(|frame| frame.len() as u64).collect(),
            bytes: frames.concat(),
        }
    }
}

/// Whose receiver.
#[derive(Clone, Copy)]
pub enum Receives {
    Bench,
    Box,
    Office,
}

/// A frame to be wrapped and given in pieces of that length.
pub struct Pieces {
    pub frame: Vec<u8>,
    pub length: usize,
}

#[derive(Clone, Copy, Debug, PartialEq, Eq)]
pub enum ParseError {
    TooLong,
    NotACall,
    NotANumber,
    OutOfRange,
    NotBytes,
    NoSuchFrame,
    NotARefusal,
    TooManyWords,
}

impl fmt::Display for ParseError {
    fn fmt(&self, f: &mut fmt::Formatter<'_>) -> fmt::Result {
        f.write_str(match self {
            ParseError::TooLong => "line too long",
            ParseError::NotACall => "not a call",
            ParseError::NotANumber => "not a number",
            ParseError::OutOfRange => "number out of range",
            ParseError::NotBytes => "not bytes",
            ParseError::NoSuchFrame => "no such frame",
            ParseError::NotARefusal => "not a refusal",
            ParseError::TooManyWords => "too many words",
        })
    }
}

/// The call of a line, if it has one; the logs have the frames that it may name.
pub fn parse(line: &[u8], from_cab: &Log, from_offices: &Log) -> Result<Option<Call>, ParseError> {
    if line.len() > LONGEST_LINE {
        return Err(ParseError::TooLong);
    }
    let mut words = Words::of(line);
    let Some(first) = words.next() else {
        return Ok(None);
    };
    let call = match first {
        b"use" => Call::Use(words.office()?),
        b"room" => Call::Room(words.number(MOST_ROOM)? as usize),
        b"restart" if words.is_empty() => Call::Restart(None),
        b"restart" => Call::Restart(Some(words.number_u32()?)),
        b"open" => Call::Open(words.number_u32()?),
        b"reopen" => Call::Reopen,
        b"raise" | b"lower" | b"command" => Call::Issue(words.order(first)?),
        b"issue-all" => words.many(Words::orders)?,
        b"resend" => Call::Resend(words.number_u16()?),
        b"to-box" => Call::ToBox(words.frame(from_offices)?),
        b"to-office" => Call::ToOffice(words.frame(from_cab)?),
        b"box" => Call::ToBox(words.bytes()?),
        b"office" => Call::ToOffice(words.bytes()?),
        b"box-all" => words.many(Words::run)?,
        b"to-box-all" => words.many(|words| words.written_run(from_offices))?,
        b"box-cut" => words.many(Words::cut_run)?,
        b"bus" => Call::Bus(words.bytes()?),
        b"packet" => Call::Packet {
            way: words.way()?,
            id: words.byte()?,
            data: words.bytes()?,
        },
        b"reply" => Call::Reply {
            asked: words.way()?,
            bytes: words.bytes()?,
        },
        b"wrap" => Call::Wrap {
            room: words.number(MOST_WRAP_ROOM)? as usize,
            frame: words.bytes()?,
        },
        b"stream" => Call::Stream(Receives::Bench, words.bytes()?),
        b"stream-box" => Call::Stream(Receives::Box, words.bytes()?),
        b"stream-office" => Call::Stream(Receives::Office, words.bytes()?),
        b"pieces-box" => Call::Pieces(Receives::Box, words.pieces(from_offices)?),
        b"pieces-office" => Call::Pieces(Receives::Office, words.pieces(from_cab)?),
        b"dropped" => Call::Dropped,
        b"explain" => Call::Explain(words.refusal().ok_or(ParseError::NotARefusal)?),
        b"show" => Call::Show,
        b"describe" => Call::Describe,
        _ => return Err(ParseError::NotACall),
    };
    words.end()?;
    Ok(Some(call))
}

/// What is left of a line's words.
struct Words<'a>(VecDeque<&'a [u8]>);

impl<'a> Words<'a> {
    fn of(line: &'a [u8]) -> Words<'a> {
        let end = line.iter().position(|byte| *byte == b'#').unwrap_or(line.len());
        let words = line[..end].split(|byte| *byte == b' ');
        Words(words.filter(|word| !word.is_empty()).collect())
    }

    fn next(&mut self) -> Option<&'a [u8]> {
        self.0.pop_front()
    }

    fn is_empty(&self) -> bool {
        self.0.is_empty()
    }

    fn end(&self) -> Result<(), ParseError> {
        if !self.is_empty() {
            return Err(ParseError::TooManyWords);
        }
        Ok(())
    }

    /// A number of any length; none for those past 64 bits.
    fn any_number(&mut self) -> Result<Option<u64>, ParseError> {
        let word = self.next().ok_or(ParseError::NotANumber)?;
        if !word.iter().all(u8::is_ascii_digit) {
            return Err(ParseError::NotANumber);
        }
        Ok(word.iter().try_fold(0u64, |number, byte| {
            number.checked_mul(10)?.checked_add(u64::from(byte - b'0'))
        }))
    }

    fn number(&mut self, most: u64) -> Result<u64, ParseError> {
        let number = self.any_number()?;
        number
            .filter(|number| *number <= most)
            .ok_or(ParseError::OutOfRange)
    }

    fn number_from_1(&mut self, most: usize) -> Result<usize, ParseError> {
        match self.number(most as u64)? {
            0 => Err(ParseError::OutOfRange),
            number => Ok(number as usize),
        }
    }

    fn number_u32(&mut self) -> Result<u32, ParseError> {
        Ok(self.number(u32::MAX.into())? as u32)
    }

    fn number_u16(&mut self) -> Result<u16, ParseError> {
        Ok(self.number(u16::MAX.into())? as u16)
    }

    fn frame(&mut self, log: &Log) -> Result<Vec<u8>, ParseError> {
        let index = self.any_number()?;
        let frame = index.and_then(|index| log.get(index));
        Ok(frame.ok_or(ParseError::NoSuchFrame)?.to_vec())
    }

    /// An order, of which the first word was taken already.
    fn order(&mut self, first: &[u8]) -> Result<Order, ParseError> {
        Ok(match first {
            b"raise" => Order::Raise(self.number_u16()?),
            b"lower" => Order::Lower(self.number_u16()?),
            b"command" => Order::Command {
                command: self.byte()?,
                data: self.bytes()?,
            },
            _ => return Err(ParseError::NotACall),
        })
    }

    /// What the words before `into` say, and the length behind it.
    fn many(&mut self, said: impl FnOnce(Words<'a>) -> Result<Many, ParseError>) -> Result<Call, ParseError> {
        let many = said(self.before(b"into"))?;
        let lent = match self.next() {
            Some(_) => Some(self.number(MOST_LENT)? as usize),
            None => None,
        };
        Ok(Call::Many(many, lent))
    }

    /// The words before this one, or all that are left.
    fn before(&mut self, word: &[u8]) -> Words<'a> {
        let end = self.0.iter().position(|other| *other == word);
        Words(self.0.drain(..end.unwrap_or(self.0.len())).collect())
    }

    /// What stands between slashes; without any word there is nothing, not even something empty.
    fn items(mut self) -> Vec<Words<'a>> {
        let mut items = Vec::new();
        if self.is_empty() {
            return items;
        }
        loop {
            items.push(self.before(b"/"));
            if self.next().is_none() {
                return items;
            }
        }
    }

    fn orders(self) -> Result<Many, ParseError> {
        let orders = self.items().into_iter().map(|mut item| {
            let first = item.next().ok_or(ParseError::NotACall)?;
            let order = item.order(first)?;
            item.end()?;
            Ok(order)
        });
        Ok(Many::Issue(orders.collect::<Result<_, _>>()?))
    }

    fn run(self) -> Result<Many, ParseError> {
        let frames = self.items().into_iter().map(|mut item| item.bytes());
        Ok(Many::frames(frames.collect::<Result<_, _>>()?))
    }

    fn written_run(mut self, log: &Log) -> Result<Many, ParseError> {
        let mut frames = Vec::new();
        while !self.is_empty() {
            frames.push(self.frame(log)?);
        }
        Ok(Many::frames(frames))
    }

    fn cut_run(mut self) -> Result<Many, ParseError> {
        let mut before = self.before(b"/");
        let mut lengths = Vec::new();
        while !before.is_empty() {
            lengths.push(before.number(u64::MAX)?);
        }
        // The slash, if it is there.
        self.next();
        let bytes = self.bytes()?;
        Ok(Many::ToBox { lengths, bytes })
    }

    /// The place of an office that is named by its number.
    fn office(&mut self) -> Result<usize, ParseError> {
        Ok(self.number_from_1(OFFICES)? - 1)
    }

    fn pieces(&mut self, log: &Log) -> Result<Pieces, ParseError> {
        Ok(Pieces {
            frame: self.frame(log)?,
            length: self.number_from_1(LONGEST_PIECE)?,
        })
    }

    /// A refusal as an answer tells it; it takes all words that are left, whatever they are.
    fn refusal(&mut self) -> Option<Refusal> {
        let number = self.number(u8::MAX.into()).ok()? as u8;
        let offset = match self.next() {
            None => None,
            Some(b"at") => Some(self.number_u32().ok()? as usize),
            Some(_) => return None,
        };
        Refusal::told(number, offset).filter(|_| self.is_empty())
    }

    fn byte(&mut self) -> Result<u8, ParseError> {
        match self.next() {
            Some(&[high, low]) => Ok(16 * digit(high)? + digit(low)?),
            _ => Err(ParseError::NotBytes),
        }
    }

    fn bytes(&mut self) -> Result<Vec<u8>, ParseError> {
        let mut bytes = Vec::with_capacity(self.0.len());
        while !self.is_empty() {
            bytes.push(self.byte()?);
        }
        Ok(bytes)
    }

    fn way(&mut self) -> Result<Way, ParseError> {
        match self.next() {
            Some(b"write") => Ok(Way::Write),
            Some(b"read") => Ok(Way::Read),
            _ => Err(ParseError::NotACall),
        }
    }
}

fn digit(byte: u8) -> Result<u8, ParseError> {
    match byte {
        b'0'..=b'9' => Ok(byte - b'0'),
        b'A'..=b'F' => Ok(byte - b'A' + 10),
        b'a'..=b'f' => Ok(byte - b'a' + 10),
        _ => Err(ParseError::NotBytes),
    }
}
