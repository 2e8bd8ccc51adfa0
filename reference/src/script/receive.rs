//! Bytes to a receiver, and the frames that it hands on.

use super::Simulation;
use super::answer::{Answer, Heard};
use super::parse::{Pieces, Receives};
use crate::link::HEAD;
use crate::stream::{Came, MOST_CONTENTS, Receiver, wrap};

impl Simulation {
    /// Gives bytes to the receiver, call after call until all are taken.
    pub(super) fn stream(&mut self, whose: Receives, bytes: &[u8]) -> Answer {
        let mut heard = Vec::new();
        self.receive(whose, bytes, &mut heard);
        Answer::Stream(heard)
    }

    /// The same with a wrapped frame, piece by piece.
    pub(super) fn pieces(&mut self, whose: Receives, pieces: &Pieces) -> Answer {
        let wrapped = wrap(&pieces.frame, HEAD + MOST_CONTENTS);
        let wrapped = wrapped.expect("no end writes a frame that is too long to be wrapped");
        let mut heard = Vec::new();
        for piece in wrapped.chunks(pieces.length) {
            self.receive(whose, piece, &mut heard);
        }
        Answer::Stream(heard)
    }

    fn receive(&mut self, whose: Receives, mut bytes: &[u8], heard: &mut Vec<Heard>) {
        loop {
            let taken = self.receiver(whose).take(bytes);
            bytes = &bytes[taken.count..];
            let answer = match &taken.came {
                Some(Came::Frame(frame)) => self.hand_on(whose, frame),
                _ => None,
            };
            heard.push(Heard { taken, answer });
            if bytes.is_empty() {
                return;
            }
        }
    }

    fn receiver(&mut self, whose: Receives) -> &mut Receiver {
        match whose {
            Receives::Bench => &mut self.bench_receiver,
            Receives::Box => &mut self.box_receiver,
            Receives::Office => &mut self.desks[self.in_use].receiver,
        }
    }

    fn hand_on(&mut self, whose: Receives, frame: &[u8]) -> Option<Answer> {
        match whose {
            Receives::Bench => None,
            Receives::Box => Some(self.frame_to_box(frame)),
            Receives::Office => Some(self.frame_to_office(frame)),
        }
    }
}
