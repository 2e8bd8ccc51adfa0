//! The office end.

use std::collections::VecDeque;
use std::fmt;

use crate::controller::Controller;
use crate::fault::Fault;
use crate::link::{End, Frame, LONGEST_FRAME, MOST_AT_ONCE, MOST_ORDER_DATA, Order};
use crate::refusal::Refusal;
use crate::settings::Settings;

pub const WINDOW: usize = 8;

#[derive(Clone, Copy, Debug, PartialEq, Eq)]
pub enum Word {
    Settled,
    Waiting,
    Over,
}

impl fmt::Display for Word {
    fn fmt(&self, f: &mut fmt::Formatter<'_>) -> fmt::Result {
        f.write_str(match self {
            Word::Settled => "settled",
            Word::Waiting => "waiting",
            Word::Over => "over",
        })
    }
}

/// What the office can tell of its session.
#[derive(Clone, Copy, Debug, PartialEq, Eq)]
pub struct Progress {
    pub session: u32,
    pub confirmed: u16,
    pub issued: u16,
}

#[derive(Clone, Debug)]
pub enum Office {
    NeverOpened,
    Opening { session: u32 },
    Open(Running),
    Over(Progress),
}

#[derive(Clone, Debug)]
pub struct Running {
    progress: Progress,
    /// Orders `confirmed + 1` to `issued`.
    unanswered: VecDeque<Order>,
    /// An idle controller that holds the settings after all issued orders.
    copy: Controller,
}

impl Office {
    pub fn word(&self) -> Word {
        match self {
            Office::Open(Running { progress, .. }) if progress.confirmed == progress.issued => Word::Settled,
            Office::Over(_) => Word::Over,
            _ => Word::Waiting,
        }
    }

    pub fn progress(&self) -> Option<Progress> {
        match self {
            Office::NeverOpened => None,
            Office::Opening { session } => Some(Progress {
                session: *session,
                confirmed: 0,
                issued: 0,
            }),
            Office::Open(running) => Some(running.progress),
            Office::Over(progress) => Some(*progress),
        }
    }

    pub fn settings(&self) -> Option<&Settings> {
        match self {
            Office::Open(running) => Some(running.copy.settings()),
            _ => None,
        }
    }

    pub fn open(&mut self, session: u32, room: usize) -> Result<Vec<u8>, Refusal> {
        if session == 0 {
            return Err(Refusal::WrongSession);
        }
        enough(room)?;
        *self = Office::Opening { session };
        Ok(Frame::Open { session }.to_bytes())
    }

    pub fn open_again(&self, room: usize) -> Result<Vec<u8>, Refusal> {
        let Office::Opening { session } = *self else {
            return Err(Refusal::NotUnanswered);
        };
        enough(room)?;
        Ok(Frame::Open { session }.to_bytes())
    }

    pub fn issue(&mut self, order: Order, room: usize) -> Result<Vec<u8>, Refusal> {
        let Office::Open(running) = self else {
            return Err(Refusal::NotOpen);
        };
        enough(room)?;
        if matches!(&order, Order::Command { data, .. } if data.len() > MOST_ORDER_DATA) {
            return Err(Refusal::TooMuchData);
        }
        let number = running.progress.issued.checked_add(1).ok_or(Refusal::AllIssued)?;
        if running.unanswered.len() == WINDOW {
            return Err(Refusal::WindowFull);
        }
        order.run(&mut running.copy);
        running.progress.issued = number;
        running.unanswered.push_back(order.clone());
        Ok(running.order_frame(number, order))
    }

    /// Issues all of these orders or, if one would be refused, none; a frame for each.
    pub fn issue_all(&mut self, orders: &[Order], room: usize) -> Result<Vec<Vec<u8>>, Refusal> {
        if orders.len() > MOST_AT_ONCE {
            return Err(Refusal::TooMuchData);
        }
        let mut tried = self.clone();
        let mut left = room;
        let mut frames = Vec::with_capacity(orders.len());
        for order in orders {
            let frame = tried.issue(order.clone(), left)?;
            left -= frame.len();
            frames.push(frame);
        }
        *self = tried;
        Ok(frames)
    }

    pub fn send_again(&self, number: u16, room: usize) -> Result<Vec<u8>, Refusal> {
        let Office::Open(running) = self else {
            return Err(Refusal::NotOpen);
        };
        let order = running.unanswered(number).ok_or(Refusal::NotUnanswered)?;
        enough(room)?;
        Ok(running.order_frame(number, order.clone()))
    }

    pub fn frame_in(&mut self, bytes: &[u8]) -> Result<(), Fault> {
        let frame = Frame::read(bytes, End::Office)?;
        match (&mut *self, frame) {
            (
                Office::Opening { session },
                Frame::Welcome {
                    session: named,
                    settings,
                },
            ) if *session == named => {
                *self = Office::Open(Running::begun(named, settings));
            }
            (Office::Open(running), Frame::Ack { session, count }) if running.progress.session == session => {
                running.acknowledge(count);
            }
            (
                Office::Opening { .. } | Office::Open(_),
                Frame::Refuse {
                    session,
                    number: 5 | 6,
                },
            ) => {
                if let Some(progress) = self.progress().filter(|progress| progress.session == session) {
                    *self = Office::Over(progress);
                }
            }
            _ => {}
        }
        Ok(())
    }
}

impl Running {
    fn begun(session: u32, settings: Settings) -> Running {
        Running {
            progress: Progress {
                session,
                confirmed: 0,
                issued: 0,
            },
            unanswered: VecDeque::new(),
            copy: Controller::idle(settings),
        }
    }

    fn unanswered(&self, number: u16) -> Option<&Order> {
        let place = number.checked_sub(self.progress.confirmed)?.checked_sub(1)?;
        self.unanswered.get(usize::from(place))
    }

    fn acknowledge(&mut self, count: u16) {
        let Progress {
            confirmed, issued, ..
        } = self.progress;
        if confirmed < count && count <= issued {
            self.unanswered.drain(..usize::from(count - confirmed));
            self.progress.confirmed = count;
        }
    }

    fn order_frame(&self, number: u16, order: Order) -> Vec<u8> {
        let session = self.progress.session;
        Frame::Order {
            session,
            number,
            order,
        }
        .to_bytes()
    }
}

fn enough(room: usize) -> Result<(), Refusal> {
    if room < LONGEST_FRAME {
        return Err(Refusal::ShortOutput);
    }
    Ok(())
}
