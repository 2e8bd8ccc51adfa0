//! Runs of frames to the box.

use reference::cab;
use reference::link::{End, Frame, LONGEST_FRAME, Order};
use reference::traffic;

use super::link::next_frame;
use super::{Generator, Kind};
use crate::frames;
use crate::lines;

impl Generator {
    /// Frames that the office wrote.
    pub(super) fn run(&mut self) {
        let indexes = self.run_indexes();
        self.written_run(&indexes);
    }

    fn run_count(&mut self) -> usize {
        match self.rng.weighted(&[60, 18, 8, 6, 5, 3]) {
            0 => self.rng.between(2, 7),
            1 => 8,
            2 => 9,
            3 => 1,
            4 => 0,
            _ => self.rng.between(10, 17),
        }
    }

    /// The next frames in order, or the latest, or each as a bad link would bring it; some repeated, lost,
    /// or in another order.
    fn run_indexes(&mut self) -> Vec<u64> {
        let count = self.run_count() as u64;
        let written = self.simulation.from_offices().written();
        let from = self.box_had.min(written);
        let mut indexes: Vec<u64> = match self.rng.weighted(&[55, 15, 30]) {
            0 if from < written => (from + 1..=written.min(from + count)).collect(),
            0 | 1 => (written.saturating_sub(count) + 1..=written).collect(),
            _ => {
                let log = self.simulation.from_offices();
                let next = |_| next_frame(&mut self.rng, log, &mut self.box_had);
                (0..count).map(next).collect()
            }
        };
        self.box_had = indexes.last().copied().unwrap_or(from).min(written);
        if indexes.is_empty() {
            return indexes;
        }
        if self.rng.chance(20) {
            let [one, other] = [0, 0].map(|_| self.rng.below(indexes.len()));
            indexes.swap(one, other);
        }
        for _ in 0..self.rng.pick(&[0, 0, 0, 1, 1, 2]) {
            let [one, place] = [0, 1].map(|more| self.rng.below(indexes.len() + more));
            indexes.insert(place, indexes[one]);
        }
        if self.rng.chance(15) {
            indexes.remove(self.rng.below(indexes.len()));
        }
        indexes
    }

    /// By their numbers, or written out.
    pub(super) fn written_run(&mut self, indexes: &[u64]) {
        let log = self.simulation.from_offices();
        let frames = indexes.iter().map(|index| log.get(*index).map(<[u8]>::to_vec));
        let frames: Option<Vec<Vec<u8>>> = frames.collect();
        match frames {
            Some(frames) if self.rng.chance(35) => self.frames_to_box(&frames),
            _ => {
                let numbers = indexes.iter().map(|index| format!(" {index}"));
                let line = format!("to-box-all{}", numbers.collect::<String>());
                self.emit_lent(line.into(), &limits(indexes.len()));
            }
        }
    }

    fn frames_to_box(&mut self, frames: &[Vec<u8>]) {
        if self.rng.chance(55) {
            self.box_all(frames);
        } else {
            self.box_cut(frames);
        }
    }

    fn box_all(&mut self, frames: &[Vec<u8>]) {
        // A single frame of no bytes cannot be told from none.
        let mut line = b"box-all".to_vec();
        for (place, frame) in frames.iter().enumerate() {
            let between = if place == 0 { "" } else { " /" };
            line.extend(lines::hex(&mut self.rng, between, frame));
        }
        self.emit_lent(line, &limits(frames.len()));
    }

    fn box_cut(&mut self, frames: &[Vec<u8>]) {
        let bytes = frames.concat();
        let right: Vec<u64> = frames.iter().map(|frame| frame.len() as u64).collect();
        let mut lengths = self.lengths(&right);
        // In an allowed list each frame is one that the office wrote, if the run is not refused.
        if self.kind == Kind::Allowed && cab::cut(&lengths, &bytes).is_ok() {
            lengths = right;
        }
        let numbers = lengths.iter().map(|length| format!(" {length}"));
        let mut line = format!("box-cut{}", numbers.collect::<String>()).into_bytes();
        if !bytes.is_empty() || self.rng.chance(50) {
            line.extend(lines::hex(&mut self.rng, " /", &bytes));
        }
        self.emit_lent(line, &limits(lengths.len()));
    }

    /// These lengths, or others: about right, with the right sum, or with a sum that is right modulo 2^64,
    /// 2^32, 2^16 or 2^8.
    fn lengths(&mut self, right: &[u64]) -> Vec<u64> {
        let mut lengths = right.to_vec();
        if lengths.is_empty() {
            let one = self.rng.pick(&[0, 1, 1, u64::MAX]);
            return vec![one; self.rng.pick(&[0, 0, 1, 2, 8, 9])];
        }
        let one = self.rng.below(lengths.len());
        let other = self.rng.below(lengths.len());
        let high = self
            .rng
            .pick(&[1 << 63, 1 << 63, u64::MAX, 1 << 32, 1 << 16, 1 << 8]);
        match self.rng.weighted(&[45, 10, 9, 7, 5, 4, 6, 6, 5, 3]) {
            1 => {
                let off = self.rng.pick(&[1, u64::MAX]);
                lengths[one] = lengths[one].saturating_add_signed(off as i64);
            }
            // The right sum, another cut.
            2 => {
                let moved = self.rng.number() % (lengths[one] + 1);
                lengths[one] -= moved;
                lengths[other] += moved;
            }
            3 => lengths.insert(one, 0),
            4 => {
                lengths.remove(one);
            }
            5 => lengths[one] = self.rng.pick(&[0, 1, 255, 65536, u64::MAX - 1, u64::MAX]),
            // The right sum, modulo 2^64.
            6 => {
                lengths[one] = lengths[one].wrapping_add(high);
                lengths[other] = lengths[other].wrapping_sub(high);
            }
            7 => {
                lengths.insert(one, high.wrapping_neg());
                lengths.insert(other, high);
            }
            // The right sum, modulo a smaller power.
            8 => lengths[one] = lengths[one].wrapping_add(high),
            9 => lengths.push(self.rng.below(40) as u64),
            _ => {}
        }
        lengths
    }

    /// Frames that the office wrote, damaged ones and others in one run.
    pub(super) fn hostile_run(&mut self) {
        if self.rng.chance(4) {
            let line = lines::odd_run(&mut self.rng);
            self.emit(line);
            return;
        }
        let count = self.run_count();
        let frames: Vec<Vec<u8>> = if self.rng.chance(40) {
            self.session_in_a_run(count)
        } else {
            (0..count).map(|_| self.frame_of_a_run()).collect()
        };
        self.frames_to_box(&frames);
        // Which is told the highest session that the run opened.
        if self.rng.chance(6) {
            self.restart();
        }
    }

    fn frame_of_a_run(&mut self) -> Vec<u8> {
        match self.rng.weighted(&[45, 17, 20, 13, 5]) {
            0 => self.next_for_box(),
            1 => {
                let frame = self.next_for_box();
                frames::damaged(&mut self.rng, frame)
            }
            2 => self.hostile_frame(),
            3 => self.faulty_frame(End::Box),
            _ => Vec::new(),
        }
    }

    fn next_for_box(&mut self) -> Vec<u8> {
        let log = self.simulation.from_offices();
        let index = next_frame(&mut self.rng, log, &mut self.box_had);
        log.get(index).unwrap_or(&[]).to_vec()
    }

    /// OPENs and ORDERs that follow upon each other, some repeated, missing or damaged.
    fn session_in_a_run(&mut self, count: usize) -> Vec<Vec<u8>> {
        let (office, highest, next) = self.sessions();
        let open = self.simulation.cab().open();
        let (mut session, mut taken) = open.map_or((next, 0), |open| (open.session, open.taken));
        let mut frames = Vec::new();
        for place in 0..count {
            let opens = if place == 0 && open.is_none() { 200 } else { 8 };
            match self.rng.weighted(&[opens, 6, 50, 16, 8, 5, 7]) {
                0 => {
                    if self.rng.chance(60) && (session, taken) != (next, 0) {
                        (session, taken) = (session.max(highest).saturating_add(1), 0);
                    }
                    frames.push(Frame::Open { session }.to_bytes());
                }
                1 => {
                    let session = self
                        .rng
                        .pick(&[office, highest, session, session.wrapping_sub(1)]);
                    frames.push(Frame::Open { session }.to_bytes());
                }
                2 => {
                    taken = taken.saturating_add(1);
                    frames.push(self.order_frame(session, taken));
                }
                3 => frames.push(self.order_frame(session, taken.max(1))),
                4 => frames.push(self.order_frame(session, taken.saturating_add(2))),
                5 => frames.push(self.order_frame(session ^ 1, taken.saturating_add(1))),
                _ => {
                    let frame = self.order_frame(session, taken.saturating_add(1));
                    frames.push(frames::damaged(&mut self.rng, frame));
                }
            }
        }
        frames
    }

    fn order_frame(&mut self, session: u32, number: u16) -> Vec<u8> {
        let order = match self.rng.below(3) {
            0 => {
                let (command, data) = traffic::command(&mut self.rng, 16);
                Order::Command { command, data }
            }
            1 => Order::Raise(self.rng.number() as u16),
            _ => Order::Lower(self.rng.below(256) as u16),
        };
        Frame::Order {
            session,
            number,
            order,
        }
        .to_bytes()
    }
}

/// What a run of one frame less asks to be lent, and what this one does.
fn limits(count: usize) -> [usize; 2] {
    [count.saturating_sub(1), count].map(|count| LONGEST_FRAME * count)
}
