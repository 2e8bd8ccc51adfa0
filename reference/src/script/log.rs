//! The frames that one end has written.

use std::collections::VecDeque;

const FRAMES_KEPT: usize = 4096;

/// Frames are counted from 1; the last ones are kept.
#[derive(Clone, Debug, Default)]
pub struct Log {
    written: u64,
    kept: VecDeque<Vec<u8>>,
}

impl Log {
    pub fn written(&self) -> u64 {
        self.written
    }

    pub fn get(&self, index: u64) -> Option<&[u8]> {
        let dropped = self.written - self.kept.len() as u64;
        let place = index.checked_sub(dropped)?.checked_sub(1)?;
        self.kept.get(usize::try_from(place).ok()?).map(Vec::as_slice)
    }

    pub(super) fn push(&mut self, frame: &[u8]) {
        if self.kept.len() == FRAMES_KEPT {
            self.kept.pop_front();
        }
        self.kept.push_back(frame.to_vec());
        self.written += 1;
    }
}
