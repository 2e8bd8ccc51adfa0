//! The wrapping call, the bench's receiver, and streams to the ends that no end wrote so.

use reference::link::End;
use reference::rng::Rng;
use reference::stream::Receiver;

use super::{Generator, Kind, word};
use crate::lines;

/// Skips longer than this take many lines, and are rare.
const FAR: usize = 600;
/// More bytes than the longest length, and than a count of 16 bits.
const FLOOD: usize = 66_000;

impl Generator {
    /// Calls that touch no end.
    pub(super) fn stream(&mut self) {
        match self.rng.weighted(&[500, 240, 1200, 14, 8]) {
            0 => self.wrap(),
            1 => {
                self.emit("dropped");
            }
            2 => self.stream_lines(),
            3 => self.cut_everywhere(),
            _ if self.kind == Kind::Bench => self.flood(),
            _ => self.wrap(),
        }
    }

    fn wrap(&mut self) {
        let length = match self.rng.below(4) {
            0 => self.rng.below(130),
            1 => self.rng.below(10),
            _ => self.rng.pick(&[0, 1, 63, 64, 65]),
        };
        let room = match self.rng.weighted(&[60, 20, 15, 5]) {
            0 => (length + self.rng.pick(&[0, 1, 2, 2, 3, 3, 4, 5])).min(128),
            1 => self.rng.below(129),
            2 => self.rng.pick(&[0, 1, 2, 3, 4, 64, 66, 67, 68, 127, 128]),
            _ => self.rng.pick(&[129, 130, 131, 256, 512]),
        };
        let frame = self.rng.bytes(length);
        let line = lines::hex(&mut self.rng, &format!("wrap {room}"), &frame);
        self.emit(line);
    }

    fn stream_lines(&mut self) {
        let long = self.rng.chance(2);
        let parts = if long { 40 } else { self.rng.between(1, 4) };
        let receiver = self.simulation.bench_receiver();
        let mut bytes = after_skip(&mut self.rng, receiver.skipping());
        for _ in 0..parts {
            let more = part(&mut self.rng);
            if !ends_far(receiver, &[&bytes[..], &more].concat()) {
                bytes.extend(more);
            }
        }
        self.emit_cut("stream", bytes);
    }

    /// The bytes in one line, or cut into several.
    fn emit_cut(&mut self, word: &str, mut bytes: Vec<u8>) {
        while self.rng.chance(35) {
            let rest = bytes.split_off(self.rng.below(bytes.len() + 1));
            self.emit_bytes(word, &bytes);
            bytes = rest;
        }
        self.emit_bytes(word, &bytes);
    }

    /// As many lines as are needed.
    fn emit_bytes(&mut self, word: &str, bytes: &[u8]) {
        let (line, rest) = bytes.split_at(bytes.len().min(lines::most_bytes(word)));
        let line = lines::hex(&mut self.rng, word, line);
        self.emit(line);
        if !rest.is_empty() {
            self.emit_bytes(word, rest);
        }
    }

    /// A wrapped frame over two lines, at every offset, if the receiver stands where it can be taken.
    fn cut_everywhere(&mut self) {
        if !self.simulation.bench_receiver().at_tag() {
            return self.stream_lines();
        }
        let length = match self.rng.below(3) {
            0 => self.rng.between(1, 64),
            _ => self.rng.pick(&[1, 2, 3, 63, 64]),
        };
        let wrapped = outer(length, &filler(&mut self.rng, length));
        for offset in 0..=wrapped.len() {
            let (first, second) = wrapped.split_at(offset);
            self.emit_bytes("stream", first);
            self.emit_bytes("stream", second);
        }
        self.emit("dropped");
    }

    /// A long skip or a long run of rubbish, line after line, and a frame behind it.
    fn flood(&mut self) {
        if !self.simulation.bench_receiver().at_tag() {
            return self.stream_lines();
        }
        if self.rng.chance(35) {
            self.emit_bytes("stream", &rubbish(FLOOD));
        } else {
            let length = self.rng.pick(&[65535, 65535, 65535, 65534, 32768]);
            let skipped = filler(&mut self.rng, length);
            self.emit_bytes("stream", &outer(length, &skipped));
        }
        self.emit("dropped");
        let more = part(&mut self.rng);
        self.emit_bytes("stream", &more);
    }

    /// Wrapped frames, rubbish and bad lengths to an end's receiver.
    pub(super) fn hostile_stream(&mut self) {
        let mut frame = self.hostile_frame();
        let end = self.end_for(&frame);
        let skipping = self.receiver_of(end).skipping();
        let mut bytes = after_skip(&mut self.rng, skipping);
        for _ in 0..self.rng.between(1, 4) {
            let more = if self.rng.chance(75) {
                outer(frame.len(), &frame)
            } else {
                part(&mut self.rng)
            };
            if self.rng.chance(1) || !ends_far(self.receiver_of(end), &[&bytes[..], &more].concat()) {
                bytes.extend(more);
            }
            frame = if self.rng.chance(50) {
                self.late_frame(end)
            } else {
                self.hostile_frame()
            };
        }
        let word = format!("stream-{}", word(end));
        if !self.rng.chance(15) {
            return self.emit_cut(&word, bytes);
        }
        let rest = bytes.split_off(self.rng.below(bytes.len() + 1));
        self.emit_bytes(&word, &bytes);
        self.restart();
        if !ends_far(self.receiver_of(end), &rest) {
            self.emit_bytes(&word, &rest);
        }
    }

    /// Frames, each wrapped, to an end's receiver; one that is in a skip is led out of it before.
    pub(super) fn wrapped_frames(&mut self, end: End, frames: Vec<Vec<u8>>) {
        let skipping = self.receiver_of(end).skipping();
        let skipped = filler(&mut self.rng, skipping);
        let wrapped = frames.iter().flat_map(|frame| outer(frame.len(), frame));
        let bytes: Vec<u8> = skipped.into_iter().chain(wrapped).collect();
        self.emit_cut(&format!("stream-{}", word(end)), bytes);
    }

    /// One of the last frames that were written for this end.
    fn late_frame(&mut self, end: End) -> Vec<u8> {
        let back = self.rng.below(4) as u64;
        let log = self.log_for(end);
        log.get(log.written().saturating_sub(back))
            .unwrap_or(&[])
            .to_vec()
    }
}

/// Whether these bytes would leave a receiver in a long skip.
fn ends_far(receiver: &Receiver, mut bytes: &[u8]) -> bool {
    let mut receiver = receiver.clone();
    while !bytes.is_empty() {
        bytes = &bytes[receiver.take(bytes).count..];
    }
    receiver.skipping() > FAR
}

/// A tag, this length, and these bytes behind it.
fn outer(length: usize, bytes: &[u8]) -> Vec<u8> {
    [&[0x01], &(length as u16).to_le_bytes()[..], bytes].concat()
}

/// Bytes of which many could be a tag or a length.
fn filler(rng: &mut Rng, count: usize) -> Vec<u8> {
    let byte = |rng: &mut Rng| match rng.below(10) {
        0..=3 => 0x01,
        4 => 0x00,
        5 => rng.below(6) as u8,
        _ => rng.byte(),
    };
    (0..count).map(|_| byte(rng)).collect()
}

/// Bytes none of which is a tag.
fn rubbish(count: usize) -> Vec<u8> {
    (0..count).map(|place| (place % 254) as u8 + 2).collect()
}

/// A piece of a stream: a wrapped frame, rubbish, a bad length, or a beginning.
fn part(rng: &mut Rng) -> Vec<u8> {
    match rng.weighted(&[55, 15, 25, 5]) {
        0 => {
            let length = match rng.weighted(&[35, 20, 45]) {
                0 => rng.pick(&[1, 1, 2, 63, 64, 64]),
                1 => rng.between(1, 64),
                _ => rng.between(1, 8),
            };
            outer(length, &filler(rng, length))
        }
        1 => {
            let count = match rng.below(20) {
                0 => rng.between(100, 300),
                _ => rng.between(1, 6),
            };
            let mut bytes = rubbish(300);
            bytes.rotate_left(rng.below(300));
            bytes.truncate(count);
            bytes
        }
        2 => bad_length(rng),
        _ => {
            let count = rng.between(1, 4);
            outer(rng.between(1, 70), &[0x01])[..count].to_vec()
        }
    }
}

/// A bad length, and about as many bytes behind it.
fn bad_length(rng: &mut Rng) -> Vec<u8> {
    let length = match rng.weighted(&[30, 30, 20, 12, 6, 2]) {
        0 => 0,
        1 => rng.pick(&[65, 66]),
        2 => rng.between(65, 128),
        3 => rng.pick(&[255, 256]),
        4 => 0x0100 + rng.between(1, 66),
        _ => rng.pick(&[512, 513, 1024]),
    };
    let count = match rng.weighted(&[60, 10, 10, 20]) {
        0 => length,
        1 => length.saturating_sub(1),
        2 => length + 1,
        _ => rng.below(length + 1),
    };
    outer(length, &filler(rng, count))
}

/// What ends a skip, or nearly so, or goes one byte beyond.
fn after_skip(rng: &mut Rng, skipping: usize) -> Vec<u8> {
    let count = match rng.weighted(&[60, 15, 10, 15]) {
        _ if skipping == 0 => 0,
        0 => skipping,
        1 => skipping - 1,
        2 => skipping + 1,
        _ => rng.below(skipping),
    };
    filler(rng, count)
}
