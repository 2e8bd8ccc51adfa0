//! The cab box.

use crate::controller::Controller;
use crate::link::{End, Frame, LONGEST_FRAME, MOST_AT_ONCE, Order};
use crate::refusal::Refusal;

#[derive(Clone, Copy, Debug, PartialEq, Eq)]
pub struct Open {
    pub session: u32,
    pub taken: u16,
}

#[derive(Clone, Debug)]
pub struct Cab {
    controller: Controller,
    highest: u32,
    open: Option<Open>,
}

/// A refusal by the box, with the REFUSE it wrote for all but 1.
#[derive(Clone, Debug, PartialEq, Eq)]
pub struct Refused {
    pub refusal: Refusal,
    pub frame: Option<Vec<u8>>,
}

impl Cab {
    pub fn restarted(highest: u32) -> Cab {
        Cab {
            controller: Controller::fresh(),
            highest,
            open: None,
        }
    }

    pub fn controller(&self) -> &Controller {
        &self.controller
    }

    pub fn highest(&self) -> u32 {
        self.highest
    }

    pub fn open(&self) -> Option<Open> {
        self.open
    }

    pub fn frame_in(&mut self, bytes: &[u8], room: usize) -> Result<Vec<u8>, Refused> {
        if room < LONGEST_FRAME {
            return Err(Refused {
                refusal: Refusal::ShortOutput,
                frame: None,
            });
        }
        let (session, answer) = match Frame::read(bytes, End::Box) {
            Ok(Frame::Open { session }) => (session, self.opening(session)),
            Ok(Frame::Order {
                session,
                number,
                order,
            }) => (session, self.order(session, number, &order)),
            Ok(_) => unreachable!("a frame for the office has a fault here"),
            // Whatever session the bytes may hold.
            Err(fault) => (0, Err(fault.into())),
        };
        match answer {
            Ok(frame) => Ok(frame.to_bytes()),
            Err(refusal) => Err(Refused {
                refusal,
                frame: Some(refuse(session, refusal)),
            }),
        }
    }

    /// Takes a run of frames, joined, each with its length beside it. Either the whole is refused, and
    /// then nothing is written, or each frame has its own answer.
    pub fn frames_in(
        &mut self,
        lengths: &[u64],
        bytes: &[u8],
        room: usize,
    ) -> Result<Vec<Result<Vec<u8>, Refused>>, Refusal> {
        let frames = cut(lengths, bytes)?;
        if room < LONGEST_FRAME * frames.len() {
            return Err(Refusal::ShortOutput);
        }
        let answers = frames
            .into_iter()
            .map(|frame| self.frame_in(frame, LONGEST_FRAME));
        Ok(answers.collect())
    }

    fn opening(&mut self, session: u32) -> Result<Frame, Refusal> {
        if session > self.highest {
            self.highest = session;
            self.open = Some(Open { session, taken: 0 });
        }
        match self.open {
            Some(Open { session: open, taken }) if open == session => Ok(if taken == 0 {
                Frame::Welcome {
                    session,
                    settings: *self.controller.settings(),
                }
            } else {
                Frame::Ack {
                    session,
                    count: taken,
                }
            }),
            _ => Err(Refusal::WrongSession),
        }
    }

    fn order(&mut self, session: u32, number: u16, order: &Order) -> Result<Frame, Refusal> {
        let open = self.open.as_mut().ok_or(Refusal::NoneOpen)?;
        if open.session != session {
            return Err(Refusal::WrongSession);
        }
        if number > open.taken {
            if number - open.taken > 1 {
                return Err(Refusal::BeyondNext);
            }
            order.run(&mut self.controller);
            open.taken = number;
        }
        Ok(Frame::Ack {
            session,
            count: open.taken,
        })
    }
}

/// The frames of a run, if their lengths are those of these bytes.
pub fn cut<'a>(lengths: &[u64], bytes: &'a [u8]) -> Result<Vec<&'a [u8]>, Refusal> {
    let sum = lengths
        .iter()
        .try_fold(0u64, |sum, length| sum.checked_add(*length));
    if lengths.len() > MOST_AT_ONCE || sum != Some(bytes.len() as u64) {
        return Err(Refusal::TooMuchData);
    }
    let mut rest = bytes;
    let frames = lengths.iter().map(|length| {
        let (frame, behind) = rest.split_at(*length as usize);
        rest = behind;
        frame
    });
    Ok(frames.collect())
}

fn refuse(session: u32, refusal: Refusal) -> Vec<u8> {
    let number = refusal.number();
    Frame::Refuse { session, number }.to_bytes()
}
