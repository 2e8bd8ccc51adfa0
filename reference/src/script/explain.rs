//! A refusal in words.

use crate::fault::{Fault, Wrong};
use crate::refusal::Refusal;

pub fn words(refusal: Refusal) -> String {
    match refusal {
        Refusal::ShortOutput => "output too short",
        Refusal::TooMuchData => {
            "too much data, more than 8 at once, lengths that do not fit the bytes, or a frame that cannot be wrapped"
        },
        Refusal::IdTooHigh => "ID over 127",
        Refusal::NoneOpen => "no session open",
        Refusal::WrongSession => "not the open session, nor one to open",
        Refusal::BeyondNext => "an order before this one is missing",
        Refusal::WindowFull => "8 orders unanswered",
        Refusal::AllIssued => "no order number left",
        Refusal::NotOpen => "office not open",
        Refusal::BadReply => "reserved response, or wrong sum",
        Refusal::ReplyRunsOut => "reply not complete",
        Refusal::NotUnanswered => "nothing to send again",
        Refusal::Fault(fault) => return of_frame(fault),
    }
    .to_string()
}

fn of_frame(Fault { offset, wrong }: Fault) -> String {
    match wrong {
        Wrong::Cut => format!("ends inside the field at {offset}, or before it"),
        Wrong::Tag => format!("unexpected tag of the field at {offset}"),
        Wrong::Length => format!("wrong length of the field at {offset}"),
        Wrong::Contents => format!("contents not allowed in the field at {offset}"),
        Wrong::After => format!("bytes after the end, from {offset} on"),
        Wrong::OtherEnd => format!("meant for the other end, by the field at {offset}"),
    }
}
