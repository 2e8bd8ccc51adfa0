//! The adjustment link: orders and frames.

use crate::controller::Controller;
use crate::fault::{self, Fault};
use crate::settings::{BLOCK, Settings};

/// The longest frame (WELCOME: a session and a settings block), which is the output box and office ask to
/// be lent.
pub const LONGEST_FRAME: usize = HEAD + 4 + HEAD + BLOCK;
pub const MOST_ORDER_DATA: usize = 16;
/// The most orders of a batch, and the most frames of a run.
pub const MOST_AT_ONCE: usize = 8;
/// The bytes of a field before its contents: tag and length.
pub const HEAD: usize = 3;

/// Who reads a frame.
#[derive(Clone, Copy, Debug, PartialEq, Eq)]
pub enum End {
    Box,
    Office,
}

impl End {
    pub fn other(self) -> End {
        match self {
            End::Box => End::Office,
            End::Office => End::Box,
        }
    }

    /// The first tags of the frames meant for this end.
    pub fn first_tags(self) -> &'static [u8] {
        match self {
            End::Box => &[0x10, 0x12],
            End::Office => &[0x11, 0x13, 0x14],
        }
    }
}

#[derive(Clone, Debug, PartialEq, Eq)]
pub enum Order {
    Command { command: u8, data: Vec<u8> },
    Raise(u16),
    Lower(u16),
}

impl Order {
    pub fn run(&self, controller: &mut Controller) {
        let level = controller.settings().backlight;
        match self {
            Order::Command { command, data } => controller.run(*command, data),
            Order::Raise(step) => controller.run(0x00, &level.saturating_add(*step).to_le_bytes()),
            Order::Lower(step) => controller.run(0x00, &level.saturating_sub(*step).to_le_bytes()),
        }
    }
}

#[derive(Clone, Debug, PartialEq, Eq)]
pub enum Frame {
    Open {
        session: u32,
    },
    Welcome {
        session: u32,
        settings: Settings,
    },
    Order {
        session: u32,
        number: u16,
        order: Order,
    },
    Ack {
        session: u32,
        count: u16,
    },
    /// The refusal's number alone, without its offset.
    Refuse {
        session: u32,
        number: u8,
    },
}

impl Frame {
    pub fn to_bytes(&self) -> Vec<u8> {
        match self {
            Frame::Open { session } => field(0x10, &session.to_le_bytes()),
            Frame::Welcome { session, settings } => [
                field(0x11, &session.to_le_bytes()),
                field(0x20, &settings.to_block()),
            ]
            .concat(),
            Frame::Order {
                session,
                number,
                order,
            } => [
                field(0x12, &session_and_count(*session, *number)),
                match order {
                    Order::Command { command, data } => field(0x21, &[&[*command], &data[..]].concat()),
                    Order::Raise(step) => field(0x22, &step.to_le_bytes()),
                    Order::Lower(step) => field(0x23, &step.to_le_bytes()),
                },
            ]
            .concat(),
            Frame::Ack { session, count } => field(0x13, &session_and_count(*session, *count)),
            Frame::Refuse { session, number } => {
                field(0x14, &[&session.to_le_bytes()[..], &[*number]].concat())
            }
        }
    }

    /// The frame these bytes are at this end, or what is wrong with them.
    pub fn read(bytes: &[u8], end: End) -> Result<Frame, Fault> {
        match fault::told(bytes, end) {
            Some(fault) => Err(fault),
            None => Ok(Frame::from_bytes(bytes).expect("bytes without a fault are a frame")),
        }
    }

    /// The frame these bytes are, if they are a well-formed one. This is document 01's list
    /// of frames; what is wrong with other bytes stands by itself, in `fault`.
    pub fn from_bytes(bytes: &[u8]) -> Option<Frame> {
        Some(match fields(bytes)?.as_slice() {
            [(0x10, session)] => Frame::Open {
                session: u32_of(session)?,
            },
            [(0x11, session), (0x20, block)] => Frame::Welcome {
                session: u32_of(session)?,
                settings: Settings::from_block(block)?,
            },
            [(0x12, head), (tag, contents)] => {
                let (session, number) = u32_and_u16_of(head)?;
                if number == 0 {
                    return None;
                }
                let order = order_of(*tag, contents)?;
                Frame::Order {
                    session,
                    number,
                    order,
                }
            }
            [(0x13, contents)] => {
                let (session, count) = u32_and_u16_of(contents)?;
                Frame::Ack { session, count }
            }
            [(0x14, contents)] => {
                let (&number, session) = contents.split_last()?;
                let session = u32_of(session)?;
                if !may_carry(session, number) {
                    return None;
                }
                Frame::Refuse { session, number }
            }
            _ => return None,
        })
    }
}

/// Whether a REFUSE may name this session and carry this number.
pub(crate) fn may_carry(session: u32, number: u8) -> bool {
    match number {
        5..=7 => true,
        14..=19 => session == 0,
        _ => false,
    }
}

pub(crate) fn field(tag: u8, contents: &[u8]) -> Vec<u8> {
    let [low, high] = (contents.len() as u16).to_le_bytes();
    [&[tag, low, high], contents].concat()
}

/// Splits a row of fields; none if the last one is cut short.
fn fields(mut bytes: &[u8]) -> Option<Vec<(u8, &[u8])>> {
    let mut fields = Vec::new();
    while let [tag, rest @ ..] = bytes {
        let [low, high, rest @ ..] = rest else {
            return None;
        };
        let length = usize::from(u16::from_le_bytes([*low, *high]));
        let (contents, rest) = rest.split_at_checked(length)?;
        fields.push((*tag, contents));
        bytes = rest;
    }
    Some(fields)
}

fn order_of(tag: u8, contents: &[u8]) -> Option<Order> {
    match (tag, contents) {
        (0x21, [command, data @ ..]) if data.len() <= MOST_ORDER_DATA => Some(Order::Command {
            command: *command,
            data: data.to_vec(),
        }),
        (0x22, &[low, high]) => Some(Order::Raise(u16::from_le_bytes([low, high]))),
        (0x23, &[low, high]) => Some(Order::Lower(u16::from_le_bytes([low, high]))),
        _ => None,
    }
}

fn session_and_count(session: u32, count: u16) -> Vec<u8> {
    [&session.to_le_bytes()[..], &count.to_le_bytes()].concat()
}

fn u32_of(contents: &[u8]) -> Option<u32> {
    Some(u32::from_le_bytes(contents.try_into().ok()?))
}

fn u32_and_u16_of(contents: &[u8]) -> Option<(u32, u16)> {
    let (session, count) = contents.split_at_checked(4)?;
    Some((u32_of(session)?, u16::from_le_bytes(count.try_into().ok()?)))
}
