//! Frames with something wrong in them, at every field and in every way.

use reference::link::End;
use reference::rng::Rng;
use reference::settings::{BLOCK, Register, place, places};

use crate::frames::{Aim, calibration, limited, settings, signs};

/// A field as it is written; its length may be another than that of its contents.
#[derive(Clone)]
struct Field {
    tag: u8,
    length: usize,
    contents: Vec<u8>,
}

impl Field {
    fn new(tag: u8, contents: &[u8]) -> Field {
        Field {
            tag,
            length: contents.len(),
            contents: contents.to_vec(),
        }
    }

    fn to_bytes(&self) -> Vec<u8> {
        let length = (self.length as u16).to_le_bytes();
        [&[self.tag], &length[..], &self.contents].concat()
    }
}

/// A frame that was meant for an end, with one to three things wrong; one may hide another, or undo it.
pub fn faulty(rng: &mut Rng, aim: &Aim, meant: End) -> Vec<u8> {
    let mut fields = whole(rng, aim, meant);
    let mut cut = false;
    let mut behind = Vec::new();
    for _ in 0..[1, 2, 3][rng.weighted(&[68, 25, 7])] {
        match rng.weighted(&[19, 20, 20, 9, 18, 6, 5, 2, 3]) {
            0 => other_tag(rng, &mut fields),
            1 => other_length(rng, &mut fields),
            2 => other_contents(rng, &mut fields),
            3 => cut = true,
            4 => behind = more(rng),
            5 => without_one(rng, &mut fields),
            6 => one_more(rng, &mut fields),
            7 => second_of_the_other(rng, &mut fields),
            _ => {}
        }
    }
    let mut bytes = to_bytes(&fields);
    bytes.extend(behind);
    if cut {
        bytes.truncate(rng.below(bytes.len() + 1));
    }
    bytes
}

/// A frame that was meant for an end, of this length by the contents of one field, mostly a whole one.
pub fn long(rng: &mut Rng, aim: &Aim, meant: End, length: usize) -> Vec<u8> {
    let mut fields = whole(rng, aim, meant);
    let more = length.saturating_sub(to_bytes(&fields).len());
    if let Some(field) = one_of(rng, &mut fields) {
        field.contents.extend(rng.bytes(more));
        if rng.chance(80) {
            field.length = field.contents.len();
        }
    }
    to_bytes(&fields)
}

/// A REFUSE for each number that its byte can hold.
pub fn every_refuse(session: u32) -> impl Iterator<Item = Vec<u8>> {
    (0..=255).map(move |number| refuse(session, number).to_bytes())
}

/// A frame for an end, with nothing wrong in it.
pub fn good(rng: &mut Rng, aim: &Aim, meant: End) -> Vec<u8> {
    to_bytes(&whole(rng, aim, meant))
}

fn to_bytes(fields: &[Field]) -> Vec<u8> {
    fields.iter().flat_map(Field::to_bytes).collect()
}

fn whole(rng: &mut Rng, aim: &Aim, meant: End) -> Vec<Field> {
    let session = match rng.below(8) {
        0 => 0,
        1 => rng.number() as u32,
        _ => rng.pick(&aim.sessions),
    };
    let number = match rng.below(4) {
        0 => rng.pick(&[1, 2, 255, 256, 65535]),
        _ => rng.pick(&aim.numbers).max(1),
    };
    let counted = [&session.to_le_bytes()[..], &number.to_le_bytes()].concat();
    let session_alone = session.to_le_bytes();
    match (meant, rng.below(100)) {
        (End::Box, 0..=19) => vec![Field::new(0x10, &session_alone)],
        (End::Box, _) => vec![Field::new(0x12, &counted), order(rng)],
        (End::Office, 0..=59) => vec![Field::new(0x11, &session_alone), held(rng)],
        (End::Office, 60..=79) => vec![Field::new(0x13, &counted)],
        (End::Office, _) => {
            let number = rng.pick(&[5, 6, 7, 7, 14, 15, 16, 17, 18, 19]);
            vec![refuse(if number < 14 { session } else { 0 }, number)]
        }
    }
}

fn order(rng: &mut Rng) -> Field {
    match rng.below(8) {
        0 => Field::new(0x22, &rng.bytes(2)),
        1 => Field::new(0x23, &rng.bytes(2)),
        _ => {
            let length = rng.between(1, 17);
            Field::new(0x21, &rng.bytes(length))
        }
    }
}

/// What the box holds, as a WELCOME tells it.
fn held(rng: &mut Rng) -> Field {
    Field::new(0x20, &settings(rng, 0))
}

fn refuse(session: u32, number: u8) -> Field {
    Field::new(0x14, &[&session.to_le_bytes()[..], &[number]].concat())
}

/// One of the fields, the last one more often; none if all are gone.
fn one_of<'a>(rng: &mut Rng, fields: &'a mut [Field]) -> Option<&'a mut Field> {
    if rng.chance(30) {
        fields.first_mut()
    } else {
        fields.last_mut()
    }
}

fn other_tag(rng: &mut Rng, fields: &mut [Field]) {
    let Some(field) = one_of(rng, fields) else {
        return;
    };
    field.tag = match rng.weighted(&[50, 25, 15, 10]) {
        0 => rng.pick(&[0x10, 0x11, 0x12, 0x13, 0x14, 0x20, 0x21, 0x22, 0x23]),
        1 => rng.pick(&[0x00, 0x01, 0x0F, 0x15, 0x1F, 0x24, 0xFF]),
        2 => field.tag ^ (1 << rng.below(8)),
        _ => rng.number() as u8,
    };
}

/// Mostly with as many contents as the new length says.
fn other_length(rng: &mut Rng, fields: &mut [Field]) {
    let Some(field) = one_of(rng, fields) else {
        return;
    };
    let right = field.length;
    let untrimmed = BLOCK - calibration().len();
    field.length = match rng.weighted(&[40, 35, 10, 10, 5, 2]) {
        0 => rng.pick(&[right.saturating_sub(1), right + 1, right + 1]),
        1 if rng.chance(25) => rng.pick(&[untrimmed, BLOCK - 1, BLOCK, BLOCK + 1]),
        1 => rng.pick(&[0, 0, 1, 2, 3, 4, 5, 6, 7, 17, 18, 18, 19]),
        2 => rng.below(BLOCK + 13),
        3 => right + 256 * rng.pick(&[1, 1, 2, 16, 255]),
        4 => rng.number() as u16 as usize,
        // A field at 9, 7 or 0 then ends at 65536, which 16 bits count as 0, or beyond.
        _ => rng.pick(&[65524, 65526, 65533, 65535]),
    };
    if rng.chance(80) && field.length < 400 {
        let more = rng.bytes(field.length);
        field.contents.extend(more);
        field.contents.truncate(field.length);
    }
}

fn other_contents(rng: &mut Rng, fields: &mut [Field]) {
    let Some(field) = one_of(rng, fields) else {
        return;
    };
    match (field.tag, &mut field.contents[..]) {
        (_, []) => {}
        (0x12, [_, _, _, _, number @ ..]) if number.len() == 2 => {
            number.copy_from_slice(&rng.pick(&[[0, 0], [0, 0], [0, 1], [1, 0]]));
        }
        (0x14, _) => *field = other_refuse(rng),
        (0x20, block) if block.len() == BLOCK && rng.chance(20) => other_order(rng, block),
        (0x20, block) if block.len() == BLOCK => other_settings(rng, block),
        (_, contents) => contents[rng.below(contents.len())] = rng.byte(),
    }
}

fn other_refuse(rng: &mut Rng) -> Field {
    let number = match rng.below(3) {
        0 => rng.number() as u8,
        1 => rng.pick(&[0, 3, 4, 4, 5, 6, 7, 8, 13, 14, 19, 20]),
        _ => rng.between(14, 19) as u8,
    };
    let session = match rng.below(3) {
        0 => 0,
        1 => 1 << rng.below(32),
        _ => rng.number() as u32,
    };
    refuse(session, number)
}

/// A byte near a limit, most often one that has a limit; sometimes an offset of minus 0.
fn other_settings(rng: &mut Rng, block: &mut [u8]) {
    let place = match rng.below(3) {
        0 => rng.below(BLOCK),
        _ => rng.pick(&limited()).0,
    };
    block[place] = match rng.below(3) {
        0 => rng.byte(),
        _ => rng.pick(&[0, 1, 2, 3, 4, 5, 100, 101, 102, 128, 255]),
    };
    if rng.chance(25) {
        let sign = rng.pick(&signs());
        block[sign - 2..=sign].fill(0);
    }
}

/// Two registers in each other's place, mostly neighbours; or the status before what calibration is about.
pub fn other_order(rng: &mut Rng, block: &mut [u8]) {
    if rng.chance(15) {
        block[calibration().start..].rotate_right(place(Register::Status).len());
        return;
    }
    let mut parts: Vec<Vec<u8>> = places().map(|(_, place)| block[place].to_vec()).collect();
    let untrimmed = places().take_while(|(register, _)| *register != Register::Calibration);
    let first = rng.pick(&[0, untrimmed.count()]);
    let one = rng.between(first, parts.len() - 2);
    let other = if rng.chance(60) {
        one + 1
    } else {
        rng.below(parts.len())
    };
    parts.swap(one, other);
    block.copy_from_slice(&parts.concat());
}

/// Bytes behind the end, of which some could be fields.
fn more(rng: &mut Rng) -> Vec<u8> {
    match rng.below(4) {
        0 => vec![rng.pick(&[0x00, 0x01, 0x10, 0x13, 0x20, 0x22, 0xFF])],
        1 => order(rng).to_bytes(),
        2 => Field::new(0x10, &rng.bytes(4)).to_bytes(),
        _ => {
            let count = rng.between(1, 20);
            rng.bytes(count)
        }
    }
}

fn without_one(rng: &mut Rng, fields: &mut Vec<Field>) {
    if rng.chance(30) {
        fields.reverse();
    }
    fields.pop();
}

/// One field twice, or all in another order.
fn one_more(rng: &mut Rng, fields: &mut Vec<Field>) {
    if rng.chance(40) {
        fields.reverse();
    } else if let Some(field) = one_of(rng, fields).cloned() {
        fields.insert(rng.below(fields.len() + 1), field);
    }
}

/// Behind an ORDER's first field what a WELCOME has there, or the other way round.
fn second_of_the_other(rng: &mut Rng, fields: &mut [Field]) {
    if let [first, second] = fields {
        *second = match first.tag {
            0x12 => held(rng),
            _ => order(rng),
        };
    }
}
