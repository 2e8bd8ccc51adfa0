//! Batches of orders at the office, and the outputs that batches and runs are lent.

use reference::link::LONGEST_FRAME;
use reference::office::{Office, WINDOW};

use super::Generator;
use crate::lines;

const MOST_ROOM: usize = 512;
const MOST_LENT: usize = 516;
/// The length of an ORDER to raise or lower.
const RAISE: usize = 14;

impl Generator {
    pub(super) fn batch(&mut self) {
        let count = self.batch_count();
        self.batch_of(count);
    }

    /// Mostly about as many as the window has places left.
    fn batch_count(&mut self) -> usize {
        let left = WINDOW - self.unanswered();
        match self.rng.weighted(&[38, 20, 14, 8, 6, 4, 9, 1]) {
            0 => self.rng.between(1, left.max(1)),
            1 => left,
            2 => left + 1,
            3 => 8,
            4 => 9,
            5 => 0,
            6 => self.rng.below(10),
            _ => self.rng.pick(&[10, 16, 17, 24]),
        }
    }

    pub(super) fn unanswered(&self) -> usize {
        match (self.simulation.office(), self.simulation.office().progress()) {
            (Office::Open(_), Some(now)) => usize::from(now.issued - now.confirmed),
            _ => 0,
        }
    }

    pub(super) fn batch_of(&mut self, count: usize) {
        let mut items: Vec<Vec<u8>> = (0..count).map(|_| self.order()).collect();
        if count > 0 && self.rng.chance(15) {
            let place = self.rng.below(count);
            items[place] = self.long_command();
        }
        let mut line = b"issue-all".to_vec();
        let mut limits = Vec::new();
        let mut before = 0;
        for (place, item) in items.iter().enumerate() {
            line.extend_from_slice(if place == 0 { b" " } else { b" / " });
            line.extend(item);
            limits.push(before + LONGEST_FRAME);
            before += order_length(item);
        }
        self.emit_lent(line, &limits);
    }

    /// About as long as an order may be.
    fn long_command(&mut self) -> Vec<u8> {
        let length = self.rng.pick(&[15, 16, 16, 16, 17, 17, 17, 18, 32]);
        let command = self.rng.pick(&[0x00, 0x50, 0xA6]);
        let bytes = [vec![command], self.rng.bytes(length)].concat();
        lines::hex(&mut self.rng, "command", &bytes)
    }

    /// The line with an output of its own, or behind one of `room`: mostly long enough, else about as
    /// long as one of the limits, of which the last is enough for all.
    pub(super) fn emit_lent(&mut self, line: Vec<u8>, limits: &[usize]) {
        let enough = limits.last().copied().unwrap_or(0).min(MOST_LENT);
        let length = match self.rng.weighted(&[45, 12, 30, 5, 6, 2]) {
            0 => enough + self.rng.below(MOST_LENT - enough + 1),
            1 => enough,
            2 if !limits.is_empty() => {
                let above = self.rng.pick(limits) + self.rng.pick(&[0, 0, 1, 1, 2]);
                above.saturating_sub(1)
            }
            3 => self.rng.below(enough + 1),
            4 => self
                .rng
                .pick(&[0, LONGEST_FRAME - 1, LONGEST_FRAME, 511, 512, 513, 516]),
            _ => self.rng.pick(&[516, 516, 517, 518, 772, 65536]),
        };
        match self.rng.weighted(&[60, 28, 12]) {
            0 => self.emit_into(line, length),
            1 if length <= MOST_ROOM => {
                if self.simulation.room() != length {
                    self.emit(format!("room {length}"));
                }
                self.emit(line);
                // Not for long, where single calls fail of it.
                if length < LONGEST_FRAME && self.rng.chance(60) {
                    let of_raises = (WINDOW - 1) * RAISE + LONGEST_FRAME;
                    let of_a_run = WINDOW * LONGEST_FRAME;
                    let room = self.rng.pick(&[LONGEST_FRAME, 64, of_raises, of_a_run, 512]);
                    self.emit(format!("room {room}"));
                }
            }
            _ => {
                self.emit(line);
            }
        }
    }

    fn emit_into(&mut self, line: Vec<u8>, length: usize) {
        self.emit([line, format!(" into {length}").into_bytes()].concat());
    }

    /// A page of orders, brought to the box in one run and acknowledged by the last ACK, as if nothing
    /// was lost.
    pub(super) fn page(&mut self) {
        let count = (WINDOW - self.unanswered()).max(1);
        let before = self.simulation.from_offices().written();
        self.batch_of(count);
        let after = self.simulation.from_offices().written();
        if after == before {
            return;
        }
        self.box_had = after;
        let indexes: Vec<u64> = (before + 1..=after).collect();
        self.written_run(&indexes);
        let last = self.simulation.from_cab().written();
        self.emit(format!("to-office {last}"));
    }
}

/// The length of the ORDER that this item of a batch asks for.
fn order_length(item: &[u8]) -> usize {
    let words = item.split(|byte| *byte == b' ').count();
    if item.starts_with(b"command") {
        9 + 3 + words - 1
    } else {
        RAISE
    }
}
