//! Random material for the bus: commands, traffic, replies.

use crate::packet::{ESCAPE, START, sum};
use crate::rng::Rng;

/// ID and data count of what calibration is not about.
const REGISTERS: [(u8, usize); 9] = [
    (0x00, 2),
    (0x01, 1),
    (0x02, 1),
    (0x25, 1),
    (0x26, 1),
    (0x27, 3),
    (0x28, 6),
    (0x33, 4),
    (0x53, 8),
];

/// The same of what calibration is about: the mode first, then what is written in it alone.
const CALIBRATION: [(u8, usize); 6] = [(0x64, 1), (0x65, 2), (0x66, 2), (0x67, 2), (0x68, 2), (0x69, 1)];

/// Values above all that a switch takes.
const NO_SWITCH: [u8; 5] = [2, 3, 0x5A, 0xA5, 0xFF];

fn register(rng: &mut Rng) -> (u8, usize) {
    if rng.chance(80) {
        rng.pick(&REGISTERS)
    } else {
        rng.pick(&CALIBRATION)
    }
}

fn all_registers() -> impl Iterator<Item = (u8, usize)> {
    REGISTERS.into_iter().chain(CALIBRATION)
}

/// Data of the right length for a write, mostly accepted.
fn write_data(rng: &mut Rng, id: u8, size: usize) -> Vec<u8> {
    let mut data = rng.bytes(size);
    match id {
        0x01 => data[0] = u8::from(!rng.chance(15)),
        0x02 | 0x25 => data[0] = rng.below(2) as u8,
        0x26 => data[0] = rng.below(3) as u8,
        0x27 => data[2] = if rng.chance(30) { 100 } else { rng.below(101) as u8 },
        0x28 => {
            for place in [2, 5] {
                data[place] = rng.below(2) as u8;
                if rng.chance(30) {
                    data[place - 2] = 0;
                    data[place - 1] = 0;
                }
            }
        }
        0x64 => data[0] = u8::from(rng.chance(55)),
        0x69 => data[0] = rng.below(4) as u8,
        _ => {}
    }
    data
}

/// Data of a bezel write with a sign above 1 in the first place, in the second or in both; of some of
/// them the last byte is missing, or one more follows.
pub fn bad_signs(rng: &mut Rng) -> Vec<u8> {
    let mut data = write_data(rng, 0x28, 6);
    for place in rng.pick(&[&[2][..], &[5], &[2, 5]]) {
        data[*place] = match rng.below(2) {
            0 => rng.pick(&NO_SWITCH),
            _ => rng.between(2, 255) as u8,
        };
    }
    match rng.weighted(&[80, 10, 10]) {
        0 => {}
        1 => data.truncate(5),
        _ => data.push(rng.byte()),
    }
    data
}

fn bad_mode(rng: &mut Rng) -> (u8, Vec<u8>) {
    (0xC8, vec![rng.pick(&NO_SWITCH)])
}

fn bad_gain(rng: &mut Rng) -> (u8, Vec<u8>) {
    (0xD2, vec![rng.pick(&[4, 4, 5, 7, 0x5A, 0xA5, 0xFF])])
}

fn refused_value(rng: &mut Rng) -> (u8, Vec<u8>) {
    match rng.below(12) {
        0 => (0x02, vec![rng.pick(&NO_SWITCH)]),
        1 => (0x04, vec![rng.pick(&NO_SWITCH)]),
        2 => (0x4A, vec![rng.pick(&NO_SWITCH)]),
        3 => (0x4C, vec![rng.pick(&[3, 4, 0x5A, 0xA5, 0xFF])]),
        4 => {
            let duty = rng.pick(&[101, 102, 0xA5, 0xFF]);
            (0x4E, vec![rng.byte(), rng.byte(), duty])
        }
        5 => bad_mode(rng),
        6 => bad_gain(rng),
        _ => (0x50, bad_signs(rng)),
    }
}

/// A command of one who trims the lamps, to a controller that is in calibration mode or not; some are
/// refused, by their length, their data or the mode.
pub fn trimming(rng: &mut Rng, in_mode: bool) -> (u8, Vec<u8>) {
    // Into the mode, and seldom out of it.
    if rng.chance(if in_mode { 8 } else { 40 }) {
        let on = if in_mode { rng.chance(20) } else { rng.chance(90) };
        return (0xC8, vec![u8::from(on)]);
    }
    match rng.weighted(&[50, 24, 8, 6, 8, 4]) {
        0 => {
            let (id, size) = rng.pick(&CALIBRATION[1..]);
            (2 * id, write_data(rng, id, size))
        }
        1 => (2 * rng.pick(&CALIBRATION).0 + 1, Vec::new()),
        2 => bad_gain(rng),
        3 => bad_mode(rng),
        4 => {
            let (id, size) = rng.pick(&CALIBRATION);
            let length = rng.pick(&[0, size - 1, size + 1, size + 1, size + 2, 16]);
            (2 * id, rng.bytes(length))
        }
        _ => {
            let length = rng.pick(&[1, 2]);
            (2 * rng.pick(&CALIBRATION).0 + 1, rng.bytes(length))
        }
    }
}

/// A command byte and its data, at most `most` bytes of it.
pub fn command(rng: &mut Rng, most: usize) -> (u8, Vec<u8>) {
    let (id, size) = register(rng);
    match rng.weighted(&[45, 15, 16, 8, 4, 5, 3, 6, 6]) {
        0 if id != 0x33 => (2 * id, write_data(rng, id, size)),
        0 | 1 => (2 * id + 1, Vec::new()),
        2 => refused_value(rng),
        3 => {
            let length = rng.pick(&[0, size - 1, size + 1, size + 2, 16, most]);
            (2 * id, rng.bytes(length))
        }
        4 => {
            let length = rng.pick(&[1, size, 16]);
            (2 * id + 1, rng.bytes(length))
        }
        5 => {
            let command = rng.pick(&[
                0x06, 0x07, 0x5A, 0x5B, 0xA4, 0xA5, 0x4B, 0x52, 0x64, 0xA8, 0xC6, 0xC7, 0xD4, 0xD5, 0xFE,
                0xFF,
            ]);
            let length = rng.pick(&[0, 1, 2]);
            (command, rng.bytes(length))
        }
        6 => {
            let length = rng.pick(&[0, 3, 4, 5]);
            (0x66, rng.bytes(length))
        }
        7 => {
            let length = rng.below(17);
            (rng.byte(), rng.bytes(length))
        }
        _ => {
            let length = rng.pick(&[15, 16, 16, most]);
            let command = rng.pick(&[0x00, 0x02, 0x50, 0xA6, 0x67, 0xC8, 0xCC, 0xD2]);
            (command, rng.bytes(length))
        }
    }
}

/// Unescaped packet bytes after the start, with a right sum.
fn plain_packet(command: u8, data: &[u8]) -> Vec<u8> {
    let mut plain = [&[command, data.len() as u8], data].concat();
    plain.push(sum(&plain));
    plain
}

/// Escapes what must be, and some of what need not be.
fn escaped(rng: &mut Rng, plain: &[u8], needless: usize) -> Vec<u8> {
    let mut sent = Vec::new();
    for byte in plain {
        match *byte {
            START => sent.extend([ESCAPE, 0x00]),
            ESCAPE => sent.extend([ESCAPE, ESCAPE]),
            byte if byte != 0x00 && rng.chance(needless) => sent.extend([ESCAPE, byte]),
            byte => sent.push(byte),
        }
    }
    sent
}

fn dummies(rng: &mut Rng, sent: &mut Vec<u8>) {
    let count = rng.pick(&[0, 1, 1, 2, 3, 4, 5, 6, 7, 8, 12, 12]);
    let noisy = rng.chance(20);
    for _ in 0..count {
        sent.push(if noisy { rng.byte() } else { 0x00 });
    }
}

/// A packet as the writer makes it, and the dummies for its whole reply.
fn request(rng: &mut Rng, sent: &mut Vec<u8>, (command, data): (u8, &[u8])) {
    sent.push(START);
    sent.extend(escaped(rng, &plain_packet(command, data), 0));
    let size = all_registers().find(|(id, _)| *id == command / 2);
    let reply = size.map_or(1, |(_, size)| size + 3);
    sent.extend(vec![0x00; reply]);
}

/// The lamps are trimmed, in calibration mode or not; master may be off meanwhile. All is read then.
fn trim(rng: &mut Rng, sent: &mut Vec<u8>) {
    let mut in_mode = rng.chance(30);
    for _ in 0..rng.between(2, 8) {
        let (command, data) = trimming(rng, in_mode);
        if let (0xC8, [mode @ 0..=1]) = (command, &data[..]) {
            in_mode = *mode == 1;
        }
        request(rng, sent, (command, &data));
        if rng.chance(10) {
            let switch = u8::from(rng.chance(60));
            request(rng, sent, (0x02, &[switch]));
        }
    }
    if rng.chance(60) {
        request(rng, sent, (0x02, &[1]));
    }
    for (id, _) in CALIBRATION {
        request(rng, sent, (2 * id + 1, &[]));
    }
}

fn episode(rng: &mut Rng, sent: &mut Vec<u8>) {
    let needless = rng.pick(&[0, 0, 0, 10, 50]);
    let (byte, data) = command(rng, 17);
    let plain = plain_packet(byte, &data);
    match rng.weighted(&[40, 14, 8, 8, 8, 4, 6, 6, 3, 3, 10]) {
        0 => {
            sent.push(START);
            sent.extend(escaped(rng, &plain, needless));
            dummies(rng, sent);
        }
        1 => {
            sent.extend([START, 0x67, 0x00, 0x67]);
            let cut = rng.below(8);
            sent.extend(&[0x00; 8][..if rng.chance(70) { 8 } else { cut }]);
        }
        2 => {
            sent.push(START);
            let whole = escaped(rng, &plain, needless);
            sent.extend(&whole[..rng.below(whole.len() + 1)]);
        }
        3 => {
            let mut wrong = plain.clone();
            let place = rng.below(wrong.len());
            wrong[place] = wrong[place].wrapping_add(rng.byte());
            sent.push(START);
            sent.extend(escaped(rng, &wrong, needless));
            dummies(rng, sent);
        }
        4 => {
            sent.push(START);
            let mut whole = escaped(rng, &plain, needless);
            let place = rng.below(whole.len() + 1);
            whole.splice(place..place, [ESCAPE, START]);
            sent.extend(whole);
            dummies(rng, sent);
        }
        5 => sent.extend(vec![START; rng.between(1, 3)]),
        6 => {
            for _ in 0..rng.between(1, 16) {
                sent.push(rng.pick(&[START, ESCAPE, 0x00, 0x00, 0x01, 0x02, 0x67, 0x03, 0xFF]));
            }
        }
        7 => {
            for _ in 0..rng.between(1, 4) {
                sent.push(rng.pick(&[0x00, 0x00, ESCAPE, 0x01, 0xFF, 0x33]));
            }
        }
        8 => {
            let length = rng.pick(&[90, 165, 254, 255, 255]);
            let (byte, data) = (rng.pick(&[0x00, 0x01, 0x50, 0x66, 0x07]), rng.bytes(length));
            sent.push(START);
            sent.extend(escaped(rng, &plain_packet(byte, &data), needless));
            dummies(rng, sent);
        }
        9 => {
            for (id, _) in all_registers() {
                request(rng, sent, (2 * id + 1, &[]));
            }
        }
        _ => trim(rng, sent),
    }
}

/// Some hundred bytes of bus traffic at most, often less.
pub fn bus(rng: &mut Rng) -> Vec<u8> {
    let mut sent = Vec::new();
    for _ in 0..rng.between(1, 4) {
        episode(rng, &mut sent);
    }
    sent.truncate(1300);
    sent
}

pub fn reply(rng: &mut Rng) -> Vec<u8> {
    let mut bytes = Vec::new();
    let response = match rng.below(4) {
        0 => rng.pick(&[0x00, 0x02, 0x03, 0x04, 0x05, 0x06, 0x07, 0x08, 0x09, 0xFE]),
        1 => rng.byte(),
        _ => 0x01,
    };
    bytes.push(response);
    if !rng.chance(10) {
        let length = rng.pick(&[0, 1, 2, 3, 4, 6, 8, 8, 90, 254, 255]);
        bytes.push(length as u8);
        bytes.extend(rng.bytes(length));
        bytes.push(sum(&bytes));
    }
    match rng.below(8) {
        0 => {
            let last = bytes.len() - 1;
            bytes[last] = rng.byte();
        }
        1 | 2 => bytes.truncate(rng.below(bytes.len() + 1)),
        3 => {
            let more = rng.between(1, 3);
            bytes.extend(rng.bytes(more));
        }
        _ => {}
    }
    let mut whole = vec![0xFF; rng.pick(&[0, 0, 1, 2, 5])];
    whole.extend(bytes);
    whole
}
