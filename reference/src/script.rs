//! The script: one call a line, one answer for each.

mod answer;
mod describe;
mod explain;
mod log;
mod many;
mod parse;
mod receive;
mod show;

use std::array;

use crate::cab::{Cab, Refused};
use crate::controller::Controller;
use crate::link::LONGEST_FRAME;
use crate::office::Office;
use crate::packet::{LONGEST_PACKET, read_reply, write_packet};
use crate::refusal::Refusal;
use crate::stream::{Receiver, wrap};
use parse::{Call, parse};

pub use answer::{Answer, Heard, Hex, Judged};
pub use log::Log;
pub use parse::ParseError;

pub const OFFICES: usize = 8;

/// An office and the receiver beside it.
#[derive(Clone, Debug)]
struct Desk {
    office: Office,
    receiver: Receiver,
}

#[derive(Clone, Debug)]
pub struct Simulation {
    cab: Cab,
    desks: [Desk; OFFICES],
    /// The place of the office that lines mean, from 0.
    in_use: usize,
    bench: Controller,
    bench_receiver: Receiver,
    box_receiver: Receiver,
    from_cab: Log,
    /// Of all offices together.
    from_offices: Log,
    highest_opened: u32,
    room: usize,
    lines: u64,
}

impl Desk {
    fn unused() -> Desk {
        Desk {
            office: Office::NeverOpened,
            receiver: Receiver::new(),
        }
    }
}

impl Default for Simulation {
    fn default() -> Simulation {
        Simulation::new()
    }
}

impl Simulation {
    pub fn new() -> Simulation {
        Simulation {
            cab: Cab::restarted(0),
            desks: array::from_fn(|_| Desk::unused()),
            in_use: 0,
            bench: Controller::fresh(),
            bench_receiver: Receiver::new(),
            box_receiver: Receiver::new(),
            from_cab: Log::default(),
            from_offices: Log::default(),
            highest_opened: 0,
            room: LONGEST_FRAME,
            lines: 0,
        }
    }

    pub fn cab(&self) -> &Cab {
        &self.cab
    }

    /// The office in use.
    pub fn office(&self) -> &Office {
        &self.desks[self.in_use].office
    }

    pub fn offices(&self) -> impl Iterator<Item = &Office> {
        self.desks.iter().map(|desk| &desk.office)
    }

    /// The place of the office in use, from 0.
    pub fn in_use(&self) -> usize {
        self.in_use
    }

    pub fn bench(&self) -> &Controller {
        &self.bench
    }

    pub fn bench_receiver(&self) -> &Receiver {
        &self.bench_receiver
    }

    pub fn box_receiver(&self) -> &Receiver {
        &self.box_receiver
    }

    /// That of the office in use.
    pub fn office_receiver(&self) -> &Receiver {
        &self.desks[self.in_use].receiver
    }

    pub fn from_cab(&self) -> &Log {
        &self.from_cab
    }

    pub fn from_offices(&self) -> &Log {
        &self.from_offices
    }

    pub fn room(&self) -> usize {
        self.room
    }

    /// Takes the next line, without its newline; an empty one has no answer.
    pub fn line(&mut self, line: &[u8]) -> Option<Answer> {
        self.lines += 1;
        match parse(line, &self.from_cab, &self.from_offices) {
            Ok(call) => call.map(|call| self.call(call)),
            Err(error) => Some(Answer::Invalid(self.lines, error)),
        }
    }

    fn call(&mut self, call: Call) -> Answer {
        let room = self.room;
        match call {
            Call::Use(place) => {
                self.in_use = place;
                Answer::Ok
            }
            Call::Room(room) => {
                self.room = room;
                Answer::Ok
            }
            Call::Restart(told) => {
                self.cab = Cab::restarted(told.unwrap_or(self.highest_opened));
                self.box_receiver = Receiver::new();
                Answer::Ok
            }
            Call::Open(session) => {
                let result = self.office_mut().open(session, room);
                self.office_wrote(result)
            }
            Call::Reopen => {
                let result = self.office().open_again(room);
                self.office_wrote(result)
            }
            Call::Issue(order) => {
                let result = self.office_mut().issue(order, room);
                self.office_wrote(result)
            }
            Call::Resend(number) => {
                let result = self.office().send_again(number, room);
                self.office_wrote(result)
            }
            Call::ToBox(frame) => self.frame_to_box(&frame),
            Call::ToOffice(frame) => self.frame_to_office(&frame),
            Call::Many(many, lent) => self.many(&many, lent),
            Call::Bus(bytes) => {
                Answer::Bus(bytes.into_iter().map(|byte| self.bench.exchange(byte)).collect())
            }
            Call::Packet { way, id, data } => match write_packet(way, id, &data, LONGEST_PACKET) {
                Ok(packet) => Answer::Packet(packet),
                Err(refusal) => Answer::Refused(refusal),
            },
            Call::Reply { asked, bytes } => match read_reply(asked, &bytes) {
                Ok(reply) => Answer::Reply(reply),
                Err(refusal) => Answer::Refused(refusal),
            },
            Call::Wrap { room, frame } => match wrap(&frame, room) {
                Ok(wrapped) => Answer::Wrapped(wrapped),
                Err(refusal) => Answer::Refused(refusal),
            },
            Call::Stream(whose, bytes) => self.stream(whose, &bytes),
            Call::Pieces(whose, pieces) => self.pieces(whose, &pieces),
            Call::Dropped => Answer::Dropped(self.bench_receiver.dropped()),
            Call::Explain(refusal) => Answer::Explained(refusal),
            Call::Show => Answer::State([show::cab(&self.cab), show::office(self.office())]),
            Call::Describe => Answer::State([describe::cab(&self.cab), describe::office(self.office())]),
        }
    }

    fn office_mut(&mut self) -> &mut Office {
        &mut self.desks[self.in_use].office
    }

    fn frame_to_box(&mut self, frame: &[u8]) -> Answer {
        let result = self.cab.frame_in(frame, self.room);
        self.note_highest();
        self.box_answered(result)
    }

    fn note_highest(&mut self) {
        if let Some(open) = self.cab.open() {
            self.highest_opened = self.highest_opened.max(open.session);
        }
    }

    fn box_answered(&mut self, result: Result<Vec<u8>, Refused>) -> Answer {
        if let Ok(frame)
        | Err(Refused {
            frame: Some(frame), ..
        }) = &result
        {
            self.from_cab.push(frame);
        }
        match result {
            Ok(frame) => Answer::Frame(frame),
            Err(Refused { refusal, frame: None }) => Answer::Refused(refusal),
            Err(Refused {
                refusal,
                frame: Some(frame),
            }) => Answer::RefusedFrame(refusal, frame),
        }
    }

    fn frame_to_office(&mut self, frame: &[u8]) -> Answer {
        match self.office_mut().frame_in(frame) {
            Ok(()) => Answer::Ok,
            Err(fault) => Answer::Refused(fault.into()),
        }
    }

    fn office_wrote(&mut self, result: Result<Vec<u8>, Refusal>) -> Answer {
        match result {
            Ok(frame) => {
                self.from_offices.push(&frame);
                Answer::Frame(frame)
            }
            Err(refusal) => Answer::Refused(refusal),
        }
    }
}
