//! Frames with something wrong in them, at both ends.

use reference::link::End;

use super::{Generator, word};
use crate::damage;
use crate::lines;

const MOST_IN_STREAM: usize = 28;
/// Longer than nearly all that `damage::faulty` makes.
const SHORTEST_LONG: usize = 300;

impl Generator {
    pub(super) fn faulty(&mut self) {
        let end = self.rng.pick(&[End::Box, End::Office]);
        match self.rng.weighted(&[684, 290, 10, 4, 16]) {
            0 => {
                let frame = self.faulty_frame(end);
                self.emit_frame(end, &frame);
            }
            1 => {
                let count = self.rng.between(4, MOST_IN_STREAM);
                let frames = (0..count).map(|_| self.faulty_frame(end)).collect();
                self.wrapped_frames(end, frames);
            }
            2 => self.every_beginning(end),
            3 => self.every_refuse(end),
            _ => self.long_frame(end),
        }
    }

    /// The end whose frame is given to this one: mostly its own.
    fn meant(&mut self, end: End) -> End {
        if self.rng.chance(80) { end } else { end.other() }
    }

    pub(super) fn faulty_frame(&mut self, end: End) -> Vec<u8> {
        let meant = self.meant(end);
        let aim = self.aim();
        damage::faulty(&mut self.rng, &aim, meant)
    }

    /// A frame cut at every length.
    fn every_beginning(&mut self, end: End) {
        let meant = self.meant(end);
        let aim = self.aim();
        let frame = damage::good(&mut self.rng, &aim, meant);
        let frames = (1..=frame.len()).map(|length| frame[..length].to_vec());
        self.wrapped_frames(end, frames.collect());
    }

    /// A frame as long as a line can hold or one byte more, or a shorter one.
    fn long_frame(&mut self, end: End) {
        let meant = self.meant(end);
        let aim = self.aim();
        let most = lines::most_bytes(word(end));
        let length = match self.rng.below(2) {
            0 => self.rng.between(SHORTEST_LONG, most),
            _ => most + self.rng.pick(&[0, 0, 0, 1]),
        };
        let frame = damage::long(&mut self.rng, &aim, meant, length);
        self.emit_frame(end, &frame);
    }

    fn every_refuse(&mut self, end: End) {
        let (office, ..) = self.sessions();
        let session = self.rng.pick(&[0, 0, office, 1, 256, 65536, 1 << 24]);
        self.wrapped_frames(end, damage::every_refuse(session).collect());
    }
}
