//! Written frames carried to the other end: bare, in pieces, or cut over two lines.

use reference::link::End;
use reference::script::Log;
use reference::stream::{Receiver, wrap};

use super::{Generator, Kind, word};
use crate::lines;

impl Generator {
    pub(super) fn carry(&mut self, end: End, index: u64) {
        if self.rng.chance(12) {
            self.carry_cut(end, index);
        } else {
            self.carry_whole(end, index);
        }
    }

    pub(super) fn carry_whole(&mut self, end: End, index: u64) {
        if self.rng.chance(85) {
            self.emit(format!("to-{} {index}", word(end)));
            return;
        }
        self.give_rest(end, &[]);
        let length = self.piece_length(end, index);
        self.emit(format!("pieces-{} {index} {length}", word(end)));
    }

    fn piece_length(&mut self, end: End, index: u64) -> usize {
        let wrapped = self.wrapped(end, index).map_or(10, |wrapped| wrapped.len());
        match self.rng.weighted(&[40, 30, 15, 12, 3]) {
            0 => self.rng.pick(&[1, 2, 3]),
            1 => wrapped + self.rng.pick(&[0, 1, 2]) - 1,
            2 => self.rng.between(1, 128),
            3 => self.rng.pick(&[4, 5, 64, 127, 128]),
            _ => self.rng.pick(&[0, 129, 130, 256, 257]),
        }
    }

    /// Gives a part of a wrapped frame; the rest comes later, or is cut off by a restart.
    fn carry_cut(&mut self, end: End, index: u64) {
        let Some(mut wrapped) = self.wrapped(end, index) else {
            return self.carry_whole(end, index);
        };
        if self.rng.chance(20) {
            // Several in one line; those after the first are the latest.
            let latest = self.wrapped(end, self.log_for(end).written());
            wrapped.extend(latest.unwrap_or_default());
        }
        let rest = wrapped.split_off(self.rng.below(wrapped.len() + 1));
        self.give_rest(end, &wrapped);
        *self.rest_for(end) = rest;
        if self.rng.chance(4) {
            self.restart();
        }
        if self.rng.chance(60) {
            self.give_rest(end, &[]);
        }
    }

    /// Gives what is still to come of a cut frame, and these bytes behind it.
    fn give_rest(&mut self, end: End, more: &[u8]) {
        // In an allowed list nothing may come between the parts of a frame.
        let keep = self.kind == Kind::Allowed || self.rng.chance(90);
        let rest = std::mem::take(self.rest_for(end));
        let bytes = if keep {
            [&rest, more].concat()
        } else {
            more.to_vec()
        };
        if !bytes.is_empty() || self.rng.chance(2) {
            let line = lines::hex(&mut self.rng, &format!("stream-{}", word(end)), &bytes);
            self.emit(line);
        }
    }

    fn rest_for(&mut self, end: End) -> &mut Vec<u8> {
        match end {
            End::Box => &mut self.rest_for_box,
            End::Office => &mut self.rest_for_office[self.simulation.in_use()],
        }
    }

    /// The frames that were written for this end.
    pub(super) fn log_for(&self, end: End) -> &Log {
        match end {
            End::Box => self.simulation.from_offices(),
            End::Office => self.simulation.from_cab(),
        }
    }

    pub(super) fn receiver_of(&self, end: End) -> &Receiver {
        match end {
            End::Box => self.simulation.box_receiver(),
            End::Office => self.simulation.office_receiver(),
        }
    }

    fn wrapped(&self, end: End, index: u64) -> Option<Vec<u8>> {
        wrap(self.log_for(end).get(index)?, usize::MAX).ok()
    }
}
