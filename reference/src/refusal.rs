//! The table of refusal numbers.

use std::fmt;

use crate::fault::{Fault, Wrong};

#[derive(Clone, Copy, Debug, PartialEq, Eq)]
pub enum Refusal {
    ShortOutput,
    TooMuchData,
    IdTooHigh,
    NoneOpen,
    WrongSession,
    BeyondNext,
    WindowFull,
    AllIssued,
    NotOpen,
    BadReply,
    ReplyRunsOut,
    NotUnanswered,
    /// 14 to 19, each with the offset of the field at fault.
    Fault(Fault),
}

impl Refusal {
    /// All that are told without an offset.
    const PLAIN: [Refusal; 12] = [
        Refusal::ShortOutput,
        Refusal::TooMuchData,
        Refusal::IdTooHigh,
        Refusal::NoneOpen,
        Refusal::WrongSession,
        Refusal::BeyondNext,
        Refusal::WindowFull,
        Refusal::AllIssued,
        Refusal::NotOpen,
        Refusal::BadReply,
        Refusal::ReplyRunsOut,
        Refusal::NotUnanswered,
    ];

    pub fn number(self) -> u8 {
        match self {
            Refusal::ShortOutput => 1,
            Refusal::TooMuchData => 2,
            Refusal::IdTooHigh => 3,
            Refusal::NoneOpen => 5,
            Refusal::WrongSession => 6,
            Refusal::BeyondNext => 7,
            Refusal::WindowFull => 8,
            Refusal::AllIssued => 9,
            Refusal::NotOpen => 10,
            Refusal::BadReply => 11,
            Refusal::ReplyRunsOut => 12,
            Refusal::NotUnanswered => 13,
            Refusal::Fault(fault) => fault.wrong.number(),
        }
    }

    /// The refusal of that number, which is told with an offset or without one.
    pub fn told(number: u8, offset: Option<usize>) -> Option<Refusal> {
        match offset {
            None => Refusal::PLAIN
                .into_iter()
                .find(|refusal| refusal.number() == number),
            Some(offset) => {
                let wrong = Wrong::ALL.into_iter().find(|wrong| wrong.number() == number)?;
                Some(Refusal::Fault(Fault { offset, wrong }))
            }
        }
    }
}

impl From<Fault> for Refusal {
    fn from(fault: Fault) -> Refusal {
        Refusal::Fault(fault)
    }
}

impl fmt::Display for Refusal {
    fn fmt(&self, f: &mut fmt::Formatter<'_>) -> fmt::Result {
        match self {
            Refusal::Fault(fault) => write!(f, "{} at {}", self.number(), fault.offset),
            _ => write!(f, "{}", self.number()),
        }
    }
}
