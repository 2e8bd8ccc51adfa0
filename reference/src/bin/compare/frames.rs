//! Random frames for the link, good and bad.

use std::ops::Range;

use reference::rng::Rng;
use reference::settings::{BLOCK, Register, place};
use reference::traffic::command;

/// What a hostile frame is made to name.
pub struct Aim {
    pub sessions: Vec<u32>,
    pub numbers: Vec<u16>,
}

fn field(tag: u8, contents: &[u8]) -> Vec<u8> {
    let length = contents.len() as u16;
    [&[tag], &length.to_le_bytes()[..], contents].concat()
}

/// Few bits, the named ones most, so that each of them is met without others.
fn sparse_status(rng: &mut Rng) -> [u8; 4] {
    let mut status = [0; 4];
    for _ in 0..rng.pick(&[0, 1, 1, 2, 3]) {
        let (byte, bit) = if rng.chance(80) {
            rng.pick(&[(0, 3), (0, 2), (0, 0), (1, 5), (3, 7), (3, 6), (3, 5), (3, 4)])
        } else {
            (rng.below(4), rng.below(8))
        };
        status[byte] |= 1 << bit;
    }
    status
}

/// Where the bytes of a settings block stand that cannot have every value: each with the most it can be.
pub fn limited() -> [(usize, u8); 9] {
    let [horizontal, vertical] = signs();
    let first = |register| place(register).start;
    [
        (first(Register::Master), 1),
        (first(Register::Park), 1),
        (first(Register::Splash), 1),
        (first(Register::Strength), 2),
        (place(Register::Heater).end - 1, 100),
        (horizontal, 1),
        (vertical, 1),
        (first(Register::Calibration), 1),
        (first(Register::Gain), 3),
    ]
}

/// Where the signs of the bezel offsets stand, each behind its amount.
pub fn signs() -> [usize; 2] {
    let bezel = place(Register::Bezel);
    [bezel.start + 2, bezel.start + 5]
}

/// What a settings block has about calibration.
pub fn calibration() -> Range<usize> {
    place(Register::Calibration).start..place(Register::Gain).end
}

/// A settings block; this percentage of them has a value that no controller holds.
pub fn settings(rng: &mut Rng, bad: usize) -> Vec<u8> {
    let mut block = rng.bytes(BLOCK);
    for (place, most) in limited() {
        block[place] = rng.below(usize::from(most) + 1) as u8;
    }
    block[place(Register::Master)].fill(u8::from(!rng.chance(15)));
    for sign in signs() {
        if block[sign - 2..sign] == [0, 0] {
            block[sign] = 1;
        }
    }
    if rng.chance(70) {
        block[place(Register::Status)].copy_from_slice(&sparse_status(rng));
    }
    if rng.chance(bad) {
        match rng.below(10) {
            // An offset of minus 0.
            0 => {
                let sign = rng.pick(&signs());
                block[sign - 2..=sign].fill(0);
            }
            _ => {
                let (place, most) = rng.pick(&limited());
                block[place] = rng.pick(&[most + 1, most + 1, most + 1, 0xFF]);
            }
        }
    } else if rng.chance(20) {
        block[place(Register::Heater).end - 1] = 100;
    }
    block
}

pub fn frame(rng: &mut Rng, aim: &Aim) -> Vec<u8> {
    let session = match rng.below(10) {
        0 => rng.number() as u32,
        1 => rng.below(4) as u32,
        _ => rng.pick(&aim.sessions),
    };
    let session = session.to_le_bytes();
    let number = match rng.below(12) {
        0 => rng.number() as u16,
        1 => rng.pick(&[0, 1, 65535]),
        _ => rng.pick(&aim.numbers),
    };
    let counted = [&session[..], &number.to_le_bytes()].concat();
    match rng.weighted(&[10, 20, 35, 20, 15]) {
        0 => field(0x10, &session),
        1 => [field(0x11, &session), field(0x20, &settings(rng, 30))].concat(),
        2 => {
            let step = (rng.number() as u16).to_le_bytes();
            let order = match rng.below(5) {
                0 => field(0x22, &step),
                1 => field(0x23, &step),
                _ => {
                    let (command, data) = command(rng, 17);
                    field(0x21, &[&[command], &data[..]].concat())
                }
            };
            [field(0x12, &counted), order].concat()
        }
        3 => field(0x13, &counted),
        _ => {
            let refusal = rng.pick(&[4, 5, 5, 6, 6, 7, 8, 14, 16, 19]);
            let session = if refusal >= 14 && rng.chance(70) {
                [0; 4]
            } else {
                session
            };
            field(0x14, &[&session[..], &[refusal]].concat())
        }
    }
}

pub fn damaged(rng: &mut Rng, mut frame: Vec<u8>) -> Vec<u8> {
    if frame.is_empty() {
        return rng.bytes(1);
    }
    let place = rng.below(frame.len());
    match rng.below(10) {
        0 => frame[place] = rng.byte(),
        1 => frame[place] ^= 1 << rng.below(8),
        2 => frame.truncate(place),
        3 => {
            let more = rng.between(1, 4);
            frame.extend(rng.bytes(more));
        }
        4 if frame.len() > 1 => frame[1] = frame[1].wrapping_add(rng.pick(&[1, 255, 2, 16])),
        5 if frame.len() > 2 => frame[2] = rng.pick(&[1, 2, 255]),
        6 => frame.insert(place, rng.byte()),
        7 => {
            frame.remove(place);
        }
        8 => frame.extend(frame.clone()),
        _ => frame[0] = rng.between(0x0F, 0x24) as u8,
    }
    frame
}
