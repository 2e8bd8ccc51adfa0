//! Frames that no end wrote.

use reference::link::{End, LONGEST_FRAME};

use super::{Generator, word};
use crate::frames::{self, Aim};
use crate::lines;

impl Generator {
    pub(super) fn hostile(&mut self) {
        let bytes = self.hostile_frame();
        let end = self.end_for(&bytes);
        self.emit_frame(end, &bytes);
    }

    /// The frame bare, in one line.
    pub(super) fn emit_frame(&mut self, end: End, frame: &[u8]) {
        let line = lines::hex(&mut self.rng, word(end), frame);
        self.emit(line);
    }

    /// Mostly the end that could understand the frame.
    pub(super) fn end_for(&mut self, frame: &[u8]) -> End {
        let for_box = matches!(frame.first(), Some(0x10 | 0x12));
        let to_box = if self.rng.chance(85) { for_box } else { !for_box };
        if to_box { End::Box } else { End::Office }
    }

    pub(super) fn aim(&self) -> Aim {
        let (office, highest, next) = self.sessions();
        let open = self.simulation.cab().open();
        let now = self.simulation.office().progress();
        let taken = open.map_or(0, |open| open.taken);
        let (confirmed, issued) = now.map_or((0, 0), |now| (now.confirmed, now.issued));
        let session = open.map_or(highest, |open| open.session);
        let mut sessions = vec![
            office,
            office,
            office,
            session,
            session,
            session,
            highest,
            next,
            office.wrapping_sub(1),
        ];
        sessions.extend(self.other_sessions());
        Aim {
            sessions,
            numbers: vec![
                taken,
                taken.saturating_add(1),
                taken.saturating_add(1),
                taken.saturating_add(1),
                taken.saturating_add(2),
                confirmed,
                confirmed.saturating_add(1),
                issued,
                issued,
                issued.saturating_add(1),
            ],
        }
    }

    pub(super) fn hostile_frame(&mut self) -> Vec<u8> {
        let aim = self.aim();
        match self.rng.weighted(&[50, 25, 10, 13, 2]) {
            0 => frames::frame(&mut self.rng, &aim),
            1 => {
                let frame = frames::frame(&mut self.rng, &aim);
                frames::damaged(&mut self.rng, frame)
            }
            2 => {
                let length = self.rng.below(LONGEST_FRAME + 8);
                self.rng.bytes(length)
            }
            4 => Vec::new(),
            _ => {
                let from_box = self.rng.chance(50);
                let log = if from_box {
                    self.simulation.from_cab()
                } else {
                    self.simulation.from_offices()
                };
                let back = self.rng.below(8) as u64;
                let frame = log
                    .get(log.written().saturating_sub(back))
                    .unwrap_or(&[])
                    .to_vec();
                if self.rng.chance(70) {
                    frames::damaged(&mut self.rng, frame)
                } else {
                    frame
                }
            }
        }
    }
}
