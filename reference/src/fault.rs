//! What is wrong with the bytes of a frame.
//!
//! Each fault has a rule of its own here, and all that the bytes have are listed. Which one
//! is told is said once: the least, by offset and then in the order listed.

use std::ops::RangeInclusive;

use crate::link::{End, HEAD, MOST_ORDER_DATA, may_carry};
use crate::settings::{BLOCK, Settings};

/// In the order listed.
#[derive(Clone, Copy, Debug, PartialEq, Eq, PartialOrd, Ord)]
pub enum Wrong {
    /// The frame ends inside the field, or before it.
    Cut = 14,
    Tag = 15,
    Length = 16,
    Contents = 17,
    /// Bytes after the end, as if a field began there.
    After = 18,
    OtherEnd = 19,
}

impl Wrong {
    pub const ALL: [Wrong; 6] = [
        Wrong::Cut,
        Wrong::Tag,
        Wrong::Length,
        Wrong::Contents,
        Wrong::After,
        Wrong::OtherEnd,
    ];

    pub fn number(self) -> u8 {
        self as u8
    }
}

/// Faults are ordered by offset first.
#[derive(Clone, Copy, Debug, PartialEq, Eq, PartialOrd, Ord)]
pub struct Fault {
    /// Of the first byte of the field at fault.
    pub offset: usize,
    pub wrong: Wrong,
}

/// The fault that is told of these bytes at this end, if they have any.
pub fn told(bytes: &[u8], end: End) -> Option<Fault> {
    faults(bytes, end).into_iter().min()
}

/// All faults of these bytes at this end.
pub fn faults(bytes: &[u8], end: End) -> Vec<Fault> {
    let first = Field::at(bytes, 0);
    let mut faults = first.faults(&[0x10, 0x11, 0x12, 0x13, 0x14]);
    if first
        .tag
        .is_some_and(|tag| end.other().first_tags().contains(&tag))
    {
        faults.push(first.fault(Wrong::OtherEnd));
    }

    let mut last = first;
    if let (Some(tags), Some(place)) = (needed_behind(first.tag), first.end()) {
        last = Field::at(bytes, place);
        faults.extend(last.faults(tags));
    }
    if let Some(offset) = last.end().filter(|offset| *offset < bytes.len()) {
        let wrong = Wrong::After;
        faults.push(Fault { offset, wrong });
    }
    faults
}

/// The tags of which one has to follow a frame's first field.
fn needed_behind(first: Option<u8>) -> Option<&'static [u8]> {
    match first? {
        0x11 => Some(&[0x20]),
        0x12 => Some(&[0x21, 0x22, 0x23]),
        _ => None,
    }
}

/// What there is of a field that should begin at the offset.
#[derive(Clone, Copy)]
struct Field<'a> {
    offset: usize,
    tag: Option<u8>,
    length: Option<usize>,
    /// All of them, or none.
    contents: Option<&'a [u8]>,
}

impl<'a> Field<'a> {
    fn at(bytes: &'a [u8], offset: usize) -> Field<'a> {
        let bytes = &bytes[offset..];
        let length = match bytes {
            [_, low, high, ..] => Some(usize::from(u16::from_le_bytes([*low, *high]))),
            _ => None,
        };
        Field {
            offset,
            tag: bytes.first().copied(),
            length,
            contents: length.and_then(|length| bytes.get(HEAD..HEAD + length)),
        }
    }

    /// Where the next field begins, if this one is whole.
    fn end(&self) -> Option<usize> {
        self.contents.map(|contents| self.offset + HEAD + contents.len())
    }

    fn fault(&self, wrong: Wrong) -> Fault {
        let offset = self.offset;
        Fault { offset, wrong }
    }

    /// The faults of a field where one of these tags is expected.
    fn faults(&self, expected: &[u8]) -> Vec<Fault> {
        let judged = [
            (Wrong::Cut, self.contents.is_none()),
            (Wrong::Tag, self.tag.is_some_and(|tag| !expected.contains(&tag))),
            (Wrong::Length, self.has_wrong_length()),
            (Wrong::Contents, self.has_wrong_contents()),
        ];
        let found = judged.into_iter().filter(|(_, found)| *found);
        found.map(|(wrong, _)| self.fault(wrong)).collect()
    }

    fn has_wrong_length(&self) -> bool {
        match (self.tag.and_then(lengths), self.length) {
            (Some(right), Some(length)) => !right.contains(&length),
            _ => false,
        }
    }

    fn has_wrong_contents(&self) -> bool {
        match (self.tag, self.contents) {
            (Some(tag), Some(contents)) => !allowed(tag, contents),
            _ => false,
        }
    }
}

/// The right lengths for a tag; a tag that no field has knows none.
fn lengths(tag: u8) -> Option<RangeInclusive<usize>> {
    Some(match tag {
        0x10 | 0x11 => 4..=4,
        0x12 | 0x13 => 6..=6,
        0x14 => 5..=5,
        0x20 => BLOCK..=BLOCK,
        0x21 => 1..=1 + MOST_ORDER_DATA,
        0x22 | 0x23 => 2..=2,
        _ => return None,
    })
}

/// Whether a field of this tag may have these contents, as far as they can be read.
fn allowed(tag: u8, contents: &[u8]) -> bool {
    match (tag, contents) {
        (0x12, [_, _, _, _, low, high, ..]) => [*low, *high] != [0, 0],
        (0x14, [a, b, c, d, number, ..]) => may_carry(u32::from_le_bytes([*a, *b, *c, *d]), *number),
        (0x20, block) => Settings::from_block(block).is_some(),
        _ => true,
    }
}
