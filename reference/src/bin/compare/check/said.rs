//! What a line and its answer say, entered into the book.

use reference::link::{End, Order};
use reference::script::{Answer, Heard};
use reference::stream::{Came, MOST_CONTENTS, wrap};

use super::book::Book;
use super::{Stop, holds};

type Words<'a> = [&'a [u8]];

pub fn words(line: &[u8]) -> Vec<&[u8]> {
    let text = line.split(|byte| *byte == b'#').next().unwrap_or_default();
    let words = text.split(|byte| *byte == b' ').filter(|word| !word.is_empty());
    words.collect()
}

/// Whether every frame that the line's calls wrote is the one that the book's rules give.
pub fn enter(book: &mut Book, words: &Words, answer: &Answer) -> Result<bool, Stop> {
    match (words, answer) {
        ([b"box" | b"office", ..] | [b"restart", _, ..], _) => Err(Stop::NotAllowed),
        ([b"use", number], _) => book.uses(number_of(number)),
        ([b"restart"], _) => book.restarts(),
        ([b"open", session], Answer::Frame(frame)) => book.opens(number_of(session) as u32, frame),
        ([b"reopen"], Answer::Frame(frame)) => book.opens_again(frame),
        ([b"raise" | b"lower" | b"command", ..], Answer::Frame(frame)) => book.issues(order_of(words), frame),
        ([b"issue-all", ..], Answer::Frames(frames)) => batch(book, words, frames),
        ([b"resend", number], Answer::Frame(frame)) => book.sends_again(number_of(number) as usize, frame),
        ([b"to-box", index], _) => {
            let frame = book.written_for(End::Box, number_of(index))?;
            book.box_gets(&frame, answer)
        }
        ([b"to-office", index], _) => {
            let frame = book.written_for(End::Office, number_of(index))?;
            book.office_gets(&frame, answer)
        }
        ([b"to-box-all" | b"box-all" | b"box-cut", ..], Answer::Run(_)) => run(book, words, answer),
        ([b"stream-box", bytes @ ..], Answer::Stream(calls)) => {
            streamed(book, End::Box, &bytes_of(bytes), calls)
        }
        ([b"stream-office", bytes @ ..], Answer::Stream(calls)) => {
            streamed(book, End::Office, &bytes_of(bytes), calls)
        }
        ([b"pieces-box", index, _], Answer::Stream(calls)) => in_pieces(book, End::Box, index, calls),
        ([b"pieces-office", index, _], Answer::Stream(calls)) => in_pieces(book, End::Office, index, calls),
        _ => Ok(true),
    }
}

fn batch(book: &mut Book, words: &Words, frames: &[Vec<u8>]) -> Result<bool, Stop> {
    let items = before(&words[1..], b"into").split(|word| *word == b"/");
    let mut right = true;
    for (item, frame) in items.zip(frames) {
        right &= book.issues(order_of(item), frame)?;
    }
    Ok(right)
}

fn run(book: &mut Book, words: &Words, answer: &Answer) -> Result<bool, Stop> {
    let Answer::Run(run) = answer else {
        return Ok(true);
    };
    if words[0] == b"to-box-all" {
        let indexes = before(&words[1..], b"into").iter();
        for (index, judged) in indexes.zip(run) {
            let named = book.written_for(End::Box, number_of(index))?;
            holds(
                named == judged.frame,
                "another frame than the one named was carried",
            )?;
        }
    }
    let mut right = true;
    for judged in run {
        right &= book.box_gets(&judged.frame, &judged.answer)?;
    }
    Ok(right)
}

/// A written frame, wrapped, to a receiver that has to stand where a tag should.
fn in_pieces(book: &mut Book, end: End, index: &[u8], calls: &[Heard]) -> Result<bool, Stop> {
    let frame = book.written_for(end, number_of(index))?;
    if !book.receiver(end).at_tag() {
        return Err(Stop::NotAllowed);
    }
    let wrapped = wrap(&frame, frame.len() + MOST_CONTENTS).map_err(|_| Stop::NotAllowed)?;
    streamed(book, end, &wrapped, calls)
}

/// Bytes to an end's receiver; the book's own one tells which frames must come out.
fn streamed(book: &mut Book, end: End, mut bytes: &[u8], calls: &[Heard]) -> Result<bool, Stop> {
    let mut expected = Vec::new();
    while !bytes.is_empty() {
        let taken = book.receiver(end).take(bytes);
        bytes = &bytes[taken.count..];
        if let Some(Came::Frame(frame)) = taken.came {
            expected.push(frame);
        }
    }
    let heard = calls
        .iter()
        .filter_map(|heard| match (&heard.taken.came, &heard.answer) {
            (Some(Came::Frame(frame)), Some(answer)) => Some((frame, answer)),
            _ => None,
        });
    let heard: Vec<(&Vec<u8>, &Answer)> = heard.collect();
    let came_out = heard.iter().map(|(frame, _)| *frame).eq(&expected);
    holds(
        came_out,
        "frames did not come out of the end's own receiver once and unchanged",
    )?;
    let mut right = true;
    for (frame, answer) in heard {
        right &= match end {
            End::Box => book.box_gets(frame, answer)?,
            End::Office => book.office_gets(frame, answer)?,
        };
    }
    Ok(right)
}

fn order_of(words: &Words) -> Order {
    match words {
        [b"raise", step] => Order::Raise(number_of(step) as u16),
        [b"lower", step] => Order::Lower(number_of(step) as u16),
        _ => Order::Command {
            command: bytes_of(&words[1..2])[0],
            data: bytes_of(&words[2..]),
        },
    }
}

fn before<'a, 'b>(words: &'a Words<'b>, word: &[u8]) -> &'a Words<'b> {
    let end = words.iter().position(|other| *other == word);
    &words[..end.unwrap_or(words.len())]
}

/// A number in a line that has been answered.
fn number_of(word: &[u8]) -> u64 {
    let digits = word.iter().map(|byte| u64::from(byte - b'0'));
    digits.fold(0, |number: u64, digit| {
        number.saturating_mul(10).saturating_add(digit)
    })
}

fn bytes_of(words: &Words) -> Vec<u8> {
    let bytes = words.iter().map(|word| {
        let text = std::str::from_utf8(word).unwrap_or_default();
        u8::from_str_radix(text, 16).unwrap_or_default()
    });
    bytes.collect()
}
