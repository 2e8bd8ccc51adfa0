//! Answers, and how they are printed.

use std::fmt;

use super::explain;
use super::parse::ParseError;
use crate::packet::Reply;
use crate::refusal::Refusal;
use crate::stream::{Came, Taken};

#[derive(Clone, Debug, PartialEq, Eq)]
pub enum Answer {
    Ok,
    Frame(Vec<u8>),
    Refused(Refusal),
    RefusedFrame(Refusal, Vec<u8>),
    /// The frames of a batch.
    Frames(Vec<Vec<u8>>),
    Run(Vec<Judged>),
    /// To a line that lends an output itself: how much of it is as it was, behind what was written.
    Lent {
        answer: Box<Answer>,
        untouched: usize,
    },
    Bus(Vec<u8>),
    Packet(Vec<u8>),
    Reply(Reply),
    Wrapped(Vec<u8>),
    /// Every call of a receiver.
    Stream(Vec<Heard>),
    Dropped(u32),
    Explained(Refusal),
    /// What both ends hold: the box's line and the office's.
    State([String; 2]),
    /// The line's number, and what is wrong with it.
    Invalid(u64, ParseError),
}

/// A frame of a run, and the box's answer to it.
#[derive(Clone, Debug, PartialEq, Eq)]
pub struct Judged {
    pub frame: Vec<u8>,
    pub answer: Answer,
}

/// What a call of a receiver came to, and the end's answer to a frame handed on.
#[derive(Clone, Debug, PartialEq, Eq)]
pub struct Heard {
    pub taken: Taken,
    pub answer: Option<Answer>,
}

/// Bytes as two digits each, a space before every one.
pub struct Hex<'a>(pub &'a [u8]);

impl fmt::Display for Hex<'_> {
    fn fmt(&self, f: &mut fmt::Formatter<'_>) -> fmt::Result {
        self.0.iter().try_for_each(|byte| write!(f, " {byte:02X}"))
    }
}

impl Answer {
    /// Without what is told of an output that the line lends.
    pub fn bare(&self) -> &Answer {
        match self {
            Answer::Lent { answer, .. } => answer,
            answer => answer,
        }
    }
}

impl fmt::Display for Answer {
    fn fmt(&self, f: &mut fmt::Formatter<'_>) -> fmt::Result {
        match self {
            Answer::Ok => write!(f, "ok"),
            Answer::Frame(frame) => write!(f, "ok{}", Hex(frame)),
            Answer::Refused(refusal) => write!(f, "refused {refusal}"),
            Answer::RefusedFrame(refusal, frame) => write!(f, "refused {refusal}{}", Hex(frame)),
            Answer::Frames(frames) => {
                f.write_str("ok")?;
                joined(f, " /", frames.iter().map(|frame| Hex(frame)))
            }
            Answer::Run(run) if run.is_empty() => f.write_str("ok"),
            Answer::Run(run) => joined(f, " / ", run.iter().map(|judged| &judged.answer)),
            Answer::Lent { answer, untouched } => write!(f, "{answer}, {untouched} untouched"),
            Answer::Bus(bytes) => write!(f, "bus{}", Hex(bytes)),
            Answer::Packet(packet) => write!(f, "packet{}", Hex(packet)),
            Answer::Reply(Reply { response, data, end }) => {
                write!(f, "reply {response:02X} data{} end {end}", Hex(data))
            }
            Answer::Wrapped(bytes) => write!(f, "wrapped{}", Hex(bytes)),
            Answer::Stream(calls) => joined(f, " / ", calls),
            Answer::Dropped(count) => write!(f, "dropped {count}"),
            Answer::Explained(refusal) => write!(f, "{}: {}", refusal.number(), explain::words(*refusal)),
            Answer::State([cab, office]) => write!(f, "{cab}\n{office}"),
            Answer::Invalid(line, error) => write!(f, "line {line}: {error}"),
        }
    }
}

fn joined<T: fmt::Display>(
    f: &mut fmt::Formatter<'_>,
    between: &str,
    parts: impl IntoIterator<Item = T>,
) -> fmt::Result {
    for (place, part) in parts.into_iter().enumerate() {
        if place > 0 {
            f.write_str(between)?;
        }
        write!(f, "{part}")?;
    }
    Ok(())
}

impl fmt::Display for Heard {
    fn fmt(&self, f: &mut fmt::Formatter<'_>) -> fmt::Result {
        write!(f, "took {}", self.taken.count)?;
        match &self.taken.came {
            Some(Came::Frame(frame)) => write!(f, " frame{}", Hex(frame))?,
            Some(Came::Refused(fault)) => write!(f, " refused {}", Refusal::Fault(*fault))?,
            None => {}
        }
        match &self.answer {
            Some(answer) => write!(f, ": {answer}"),
            None => Ok(()),
        }
    }
}
