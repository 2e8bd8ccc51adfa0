//! Sessions in which the lamps are trimmed: into calibration mode, the levels, the gain, and out of it.

use reference::link::End;
use reference::office::Office;

use super::Generator;
use crate::lines;

impl Generator {
    /// The office in use trims the lamps over a link that loses frames, and settles.
    pub(super) fn trim(&mut self) {
        if !matches!(self.simulation.office(), Office::Open(_)) || self.rng.chance(15) {
            self.begin();
        }
        self.enough_room();
        self.settle();
        let items = self.trim_items();
        if self.rng.chance(30) {
            self.trim_at_once(&items);
        } else {
            for item in items {
                self.emit(item);
                self.carry_or_lose(End::Box);
                self.carry_or_lose(End::Office);
            }
        }
        self.settle();
        let line = self.rng.pick(&["show", "describe"]);
        self.emit(line);
        // Whose WELCOME tells what was trimmed.
        if self.rng.chance(40) {
            self.begin();
        }
    }

    /// The orders, at most eight, as lines: some in another order, or with master off amid.
    fn trim_items(&mut self) -> Vec<Vec<u8>> {
        let mut orders = vec![vec![0xC8, 0x01]];
        for command in [0xCA, 0xCC, 0xCE, 0xD0] {
            orders.push([vec![command], self.rng.bytes(2)].concat());
        }
        orders.push(vec![0xD2, self.rng.pick(&[0, 1, 1, 2, 2, 3, 3, 4])]);
        match self.rng.weighted(&[55, 15, 20, 10]) {
            0 => orders.push(vec![0xC8, 0x00]),
            1 => {
                orders.swap(self.rng.between(1, 5), self.rng.between(1, 5));
                orders.insert(self.rng.between(1, 6), vec![0xC8, 0x00]);
            }
            2 => {
                let off = self.rng.between(1, 6);
                orders.insert(off, vec![0x02, 0x00]);
                orders.insert(self.rng.between(off + 1, 7), vec![0x02, 0x01]);
            }
            _ => {}
        }
        // One more level: in the mode if it still holds, else too late.
        if orders.len() < 8 && self.rng.chance(60) {
            let command = self.rng.pick(&[0xCA, 0xCC, 0xCE, 0xD0]);
            orders.push([vec![command], self.rng.bytes(2)].concat());
        }
        let lines = orders
            .iter()
            .map(|order| lines::hex(&mut self.rng, "command", order));
        lines.collect()
    }

    fn trim_at_once(&mut self, items: &[Vec<u8>]) {
        let before = self.simulation.from_offices().written();
        self.emit([b"issue-all ", &items.join(&b" / "[..])[..], b" into 516"].concat());
        let after = self.simulation.from_offices().written();
        if before < after {
            let indexes: Vec<u64> = (before + 1..=after).collect();
            self.written_run(&indexes);
            self.carry_or_lose(End::Office);
        }
    }

    /// The latest frame for an end, if it is not lost.
    fn carry_or_lose(&mut self, end: End) {
        if self.rng.chance(75) {
            let index = self.log_for(end).written();
            self.carry_whole(end, index);
        }
    }

    /// Sends what is unanswered again until it is confirmed, or patience ends.
    fn settle(&mut self) {
        for _ in 0..24 {
            let now = self.simulation.office().progress();
            let (Office::Open(_), Some(now)) = (self.simulation.office(), now) else {
                return;
            };
            if now.confirmed == now.issued {
                return;
            }
            self.emit(format!("resend {}", now.confirmed + 1));
            self.carry_or_lose(End::Box);
            self.carry_or_lose(End::Office);
        }
    }
}
