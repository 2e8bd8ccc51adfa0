//! What the random scripts meet, and that they are shortened well.

mod calibration;

use std::collections::{BTreeMap, BTreeSet};

use reference::cab::Open;
use reference::fault::{Fault, Wrong};
use reference::link::{End, Frame, LONGEST_FRAME, Order};
use reference::office::Office;
use reference::refusal::Refusal;
use reference::script::{Answer, Heard, ParseError, Simulation};
use reference::settings::{BLOCK, Settings};
use reference::stream::Came;

use super::*;

/// First word of a line, and the refusal it got.
fn refusals(scripts: impl Iterator<Item = Script>) -> BTreeSet<(String, u8)> {
    let mut seen = BTreeSet::new();
    for script in scripts {
        let mut simulation = Simulation::new();
        for line in &script.lines {
            let answer = simulation.line(line);
            let answer = answer.as_ref().map(Answer::bare);
            if let Some(Answer::Refused(refusal) | Answer::RefusedFrame(refusal, _)) = answer {
                let first = line.split(|byte| *byte == b' ').next().unwrap_or_default();
                seen.insert((first.escape_ascii().to_string(), refusal.number()));
            }
        }
    }
    seen
}

#[test]
fn every_refusal_is_met() {
    let random = (1..40).map(|number| generate::script(Rng::new(SEED, number), 3000));
    let longest = [generate::longest_session, generate::longest_by_pages];
    let longest = longest.into_iter().map(|script| script(Rng::new(SEED, 0)));
    let seen = refusals(random.chain(longest));
    for (first, numbers) in [
        ("open", &[1, 6][..]),
        ("reopen", &[1, 13]),
        ("raise", &[1, 8, 9, 10]),
        ("lower", &[1, 8, 10]),
        ("command", &[1, 2, 8, 9, 10]),
        ("issue-all", &[1, 2, 8, 9, 10]),
        ("box-all", &[1, 2]),
        ("to-box-all", &[1, 2]),
        ("box-cut", &[1, 2]),
        ("resend", &[1, 10, 13]),
        ("box", &[1, 5, 6, 7, 14, 15, 16, 17, 18, 19]),
        ("to-box", &[1, 5, 6, 7]),
        ("office", &[14, 15, 16, 17, 18, 19]),
        ("packet", &[2, 3]),
        ("reply", &[11, 12]),
        ("wrap", &[1, 2]),
    ] {
        for number in numbers {
            assert!(seen.contains(&(first.to_string(), *number)), "{first} {number}");
        }
    }
}

/// What a line brought to the ends: each frame, and the answer to it.
fn frames_in(line: &[u8], answer: Answer) -> Vec<(End, Vec<u8>, Answer)> {
    let (first, rest) = line.split_at(line.iter().position(|byte| *byte == b' ').unwrap_or(line.len()));
    let end = if first.ends_with(b"box") {
        End::Box
    } else {
        End::Office
    };
    match (first, answer) {
        (b"box" | b"office", answer) => {
            let words = String::from_utf8_lossy(rest).into_owned();
            let bytes = words.split_whitespace().map(|word| u8::from_str_radix(word, 16));
            let bytes: Result<Vec<u8>, _> = bytes.collect();
            bytes
                .into_iter()
                .map(|bytes| (end, bytes, answer.clone()))
                .collect()
        }
        (b"stream-box" | b"stream-office", Answer::Stream(calls)) => {
            let frames = calls
                .into_iter()
                .filter_map(|heard| match (heard.taken.came, heard.answer) {
                    (Some(Came::Frame(frame)), Some(answer)) => Some((end, frame, answer)),
                    _ => None,
                });
            frames.collect()
        }
        _ => Vec::new(),
    }
}

/// All that a run of the usual length brings to the ends.
fn all_frames_in() -> Vec<(End, Vec<u8>, Answer)> {
    let mut all = Vec::new();
    for (_, script) in scripts(CALLS, SEED) {
        let mut simulation = Simulation::new();
        for line in script.lines {
            if let Some(answer) = simulation.line(&line) {
                all.extend(frames_in(&line, answer));
            }
        }
    }
    all
}

fn fault_of(answer: &Answer) -> Option<Fault> {
    match answer {
        Answer::Refused(Refusal::Fault(fault)) | Answer::RefusedFrame(Refusal::Fault(fault), _) => {
            Some(*fault)
        }
        _ => None,
    }
}

#[test]
fn every_fault_is_met_at_every_offset() {
    let mut counts: BTreeMap<(bool, u8, usize), usize> = BTreeMap::new();
    for (end, _, answer) in all_frames_in() {
        if let Some(fault) = fault_of(&answer) {
            let key = (end == End::Box, fault.wrong.number(), fault.offset);
            *counts.entry(key).or_default() += 1;
        }
    }
    println!("at the box, number, offset: {counts:?}");
    let mut expected = BTreeSet::new();
    for (at_box, number, offsets) in [
        (true, 14, &[0, 9][..]),
        (true, 15, &[0, 9]),
        (true, 16, &[0, 9]),
        (true, 17, &[0]),
        (true, 18, &[7, 14]),
        (true, 19, &[0]),
        (false, 14, &[0, 7]),
        (false, 15, &[0, 7]),
        (false, 16, &[0, 7]),
        (false, 17, &[0, 7]),
        (false, 18, &[8, 9, LONGEST_FRAME]),
        (false, 19, &[0]),
    ] {
        for offset in offsets {
            let key = (at_box, number, *offset);
            let count = counts.get(&key).copied().unwrap_or(0);
            assert!(count > 1000, "{key:?} {count}");
            expected.insert(key);
        }
    }
    // An ORDER may end at many offsets.
    for offset in 13..=29 {
        let key = (true, 18, offset);
        let count = counts.get(&key).copied().unwrap_or(0);
        assert!(count > 100, "{key:?} {count}");
        expected.insert(key);
    }
    assert_eq!(counts.keys().copied().collect::<BTreeSet<_>>(), expected);
}

/// The lengths that fields name, by whether at the box and by the fault that is told of the field.
fn lengths_told() -> BTreeMap<(bool, Fault), Vec<usize>> {
    let mut lengths: BTreeMap<_, Vec<usize>> = BTreeMap::new();
    for (end, frame, answer) in all_frames_in() {
        let Some(fault) = fault_of(&answer) else {
            continue;
        };
        if let [_, low, high, ..] = frame[fault.offset..] {
            let length = u16::from_le_bytes([low, high]);
            let key = (end == End::Box, fault);
            lengths.entry(key).or_default().push(length.into());
        }
    }
    lengths
}

#[test]
fn long_fields_are_met_everywhere() {
    let told = lengths_told();
    for (at_box, offset) in [(true, 0), (true, 9), (false, 0), (false, 7)] {
        for (wrong, lengths) in [
            (Wrong::Length, 300..=1023),
            (Wrong::Length, 1024..=1361),
            (Wrong::Cut, 65524..=65524),
            (Wrong::Cut, 65526..=65526),
            (Wrong::Cut, 65533..=65533),
            (Wrong::Cut, 65535..=65535),
        ] {
            let key = (at_box, Fault { offset, wrong });
            let count = told[&key].iter().filter(|told| lengths.contains(*told)).count();
            assert!(count > 3, "{key:?} {lengths:?} {count}");
        }
    }
}

#[test]
fn frames_that_fill_a_line_are_met() {
    let mut counts: BTreeMap<(bool, usize, bool), usize> = BTreeMap::new();
    for (end, frame, answer) in all_frames_in() {
        let too_long = matches!(answer, Answer::Invalid(_, ParseError::TooLong));
        let key = (end == End::Box, frame.len(), too_long);
        *counts.entry(key).or_default() += 1;
    }
    // The longest that is read, and one byte more.
    for key in [
        (true, 1364, false),
        (true, 1365, true),
        (false, 1363, false),
        (false, 1364, true),
    ] {
        let count = counts.get(&key).copied().unwrap_or(0);
        assert!(count > 5, "{key:?} {count}");
    }
}

#[test]
fn good_second_fields_of_the_other_frame_are_met() {
    let mut counts: BTreeMap<(u8, u8), usize> = BTreeMap::new();
    for (_, frame, answer) in all_frames_in() {
        let Some(fault) = fault_of(&answer).filter(|fault| fault.wrong == Wrong::Tag) else {
            continue;
        };
        let other_first: &[u8] = match fault.offset {
            7 => &[0x12, 6, 0, 0, 0, 0, 0, 1, 0],
            9 => &[0x11, 4, 0, 0, 0, 0, 0],
            _ => continue,
        };
        let second = &frame[fault.offset..];
        if Frame::from_bytes(&[other_first, second].concat()).is_some() {
            *counts.entry((frame[0], second[0])).or_default() += 1;
        }
    }
    for tags in [(0x12, 0x20), (0x11, 0x21), (0x11, 0x22), (0x11, 0x23)] {
        let count = counts.get(&tags).copied().unwrap_or(0);
        assert!(count > 10, "{tags:?} {count}");
    }
}

#[test]
fn every_bad_content_is_met() {
    let mut refuses = BTreeSet::new();
    let mut settings = BTreeSet::new();
    let mut number_0 = BTreeSet::new();
    for (end, frame, answer) in all_frames_in() {
        let at_box = end == End::Box;
        match &frame[..] {
            [0x14, 5, 0, session @ .., number] if session.len() == 4 => {
                refuses.insert((at_box, session != [0; 4], *number));
            }
            [0x12, 6, 0, _, _, _, _, 0, 0, ..] => {
                number_0.extend(fault_of(&answer).map(|fault| (at_box, fault.offset)));
            }
            [0x11, 4, 0, .., _] if frame.len() == LONGEST_FRAME && !at_box => {
                // The one byte that is at fault.
                let good = |place: &usize| {
                    let mut frame = frame.clone();
                    frame[10 + place] = 1;
                    Frame::from_bytes(&frame).is_some()
                };
                if Frame::from_bytes(&frame).is_none() {
                    settings.extend((0..BLOCK).find(good).map(|place| (place, frame[10 + place])));
                }
            }
            _ => {}
        }
    }
    assert_eq!(refuses.len(), 4 * 256);
    assert_eq!(number_0, BTreeSet::from([(false, 0), (true, 0)]));
    for bad in [
        (2, 2),
        (3, 2),
        (4, 2),
        (5, 3),
        (8, 101),
        (11, 2),
        (14, 2),
        (11, 255),
        (8, 255),
        (23, 2),
        (23, 3),
        (23, 255),
        (32, 4),
        (32, 5),
        (32, 255),
    ] {
        assert!(settings.contains(&bad), "{bad:?}");
    }
}

#[test]
fn every_refusal_is_explained() {
    let mut explained = BTreeSet::new();
    let mut refused = BTreeSet::new();
    for number in 1..60 {
        let mut simulation = Simulation::new();
        for line in generate::script(Rng::new(SEED, number), 3000).lines {
            match simulation.line(&line) {
                Some(Answer::Explained(refusal)) => {
                    explained.insert(refusal.number());
                }
                Some(Answer::Invalid(_, ParseError::NotARefusal)) => {
                    refused.insert(String::from_utf8_lossy(&line).into_owned());
                }
                _ => {}
            }
        }
    }
    let all: BTreeSet<u8> = (1..=19).filter(|number| *number != 4).collect();
    assert_eq!(explained, all);
    for line in [
        "explain",
        "explain 0",
        "explain 4",
        "explain 20",
        "explain 14",
        "explain 4 at 0",
    ] {
        assert!(refused.contains(line), "{line}");
    }
    assert!(refused.len() > 100);
}

#[test]
fn every_form_of_a_description_is_met() {
    let mut lines: BTreeMap<Vec<u8>, usize> = BTreeMap::new();
    let mut described = BTreeSet::new();
    let mut statuses = BTreeSet::new();
    let mut calibrations = BTreeSet::new();
    for number in 1..120 {
        let mut simulation = Simulation::new();
        for line in generate::script(Rng::new(SEED, number), 3000).lines {
            if let (b"describe", Some(Answer::State(ends))) = (&line[..], simulation.line(&line)) {
                for words in ends {
                    if let Some((_, status)) = words.split_once(", status ") {
                        statuses.insert(status.to_string());
                    }
                    // At which end, the mode, and the gain.
                    let parts: Vec<&str> = words.split(", ").collect();
                    let mode = parts.iter().find(|part| part.ends_with(" mode"));
                    let gain = parts.iter().find(|part| part.starts_with("sensor gain "));
                    let pair = mode.zip(gain);
                    calibrations
                        .extend(pair.map(|(mode, gain)| (words[..3].to_string(), format!("{mode}, {gain}"))));
                    // Numbers aside, and what is told of the settings.
                    let form = words.split(": ").next().unwrap_or_default();
                    let form = form.replace(" 1 order ", " one order ");
                    described.insert(form.replace(|letter: char| letter.is_ascii_digit(), ""));
                }
            }
            *lines.entry(line).or_default() += 1;
        }
    }
    let count = |line: &[u8]| lines.get(line).copied().unwrap_or(0);
    let (shows, describes) = (count(b"show"), count(b"describe"));
    assert!(
        describes > shows / 5 * 4 && shows > describes / 5 * 4,
        "{shows} {describes}"
    );
    let forms: Vec<&str> = described.iter().map(String::as_str).collect();
    assert_eq!(
        forms,
        [
            "box session ,  orders taken",
            "box session , one order taken",
            "box with no session open, highest ",
            "office never opened",
            "office session , opening",
            "office session , over,  of  orders confirmed",
            "office session , settled,  of  orders confirmed",
            "office session , waiting,  of  orders confirmed",
        ]
    );
    for alone in [
        "none",
        "incomplete",
        "not available",
        "invalid command",
        "out of range",
        "escape seen",
        "length",
        "bytes ignored",
        "checksum",
        "other bits",
    ] {
        assert!(statuses.contains(alone), "{alone}");
    }
    for end in ["box", "off"] {
        for mode in ["normal mode", "calibration mode"] {
            for gain in 0..=3 {
                let told = (end.to_string(), format!("{mode}, sensor gain {gain}"));
                assert!(calibrations.contains(&told), "{told:?}");
            }
        }
    }
    assert_eq!(calibrations.len(), 16);
}

#[test]
fn rooms_up_to_512_and_beyond_are_met() {
    let mut rooms = BTreeSet::new();
    let mut refused = BTreeSet::new();
    for number in 1..120 {
        let mut simulation = Simulation::new();
        for line in generate::script(Rng::new(SEED, number), 3000).lines {
            let answer = simulation.line(&line);
            if let Some(Answer::Invalid(_, ParseError::OutOfRange)) = answer {
                refused.insert(line);
            }
            rooms.insert(simulation.room());
        }
    }
    for room in [0, LONGEST_FRAME - 1, LONGEST_FRAME, 64, 65, 256, 511, 512] {
        assert!(rooms.contains(&room), "{room}");
    }
    assert_eq!(rooms.last(), Some(&512));
    for line in [&b"room 513"[..], b"room 514", b"room 65573"] {
        assert!(refused.contains(line), "{}", line.escape_ascii());
    }
}

fn first_word(line: &[u8]) -> &str {
    let word = line.split(|byte| *byte == b' ').next().unwrap_or_default();
    std::str::from_utf8(word).unwrap_or_default()
}

/// What a call of a receiver came to, in short.
fn outcome(heard: &Heard) -> String {
    let came = match heard.taken.came {
        None => "nothing",
        Some(Came::Frame(_)) => "frame",
        Some(Came::Refused(_)) => "refused",
    };
    match &heard.answer {
        None => came.to_string(),
        Some(Answer::Refused(refusal) | Answer::RefusedFrame(refusal, _)) => {
            format!("{came} refused {}", refusal.number())
        }
        Some(_) => format!("{came} ok"),
    }
}

#[test]
fn every_outcome_of_a_stream_is_met() {
    let mut seen = BTreeSet::new();
    for number in 1..60 {
        let mut simulation = Simulation::new();
        for line in generate::script(Rng::new(SEED, number), 3000).lines {
            if let Some(Answer::Stream(calls)) = simulation.line(&line) {
                let outcomes = calls.iter().map(outcome);
                seen.extend(outcomes.map(|outcome| (first_word(&line).to_string(), outcome)));
            }
        }
    }
    let at_box = [
        "frame ok",
        "frame refused 1",
        "frame refused 5",
        "frame refused 6",
    ];
    let at_any_end = ["nothing", "refused", "frame ok"];
    let faults = [14, 15, 16, 17, 18, 19].map(|number| format!("frame refused {number}"));
    let faults = faults.each_ref().map(String::as_str);
    for (first, outcomes) in [
        ("stream", &["nothing", "frame", "refused"][..]),
        ("stream-box", &at_any_end),
        ("stream-box", &at_box),
        ("stream-box", &["frame refused 7"]),
        ("stream-box", &faults),
        ("stream-office", &at_any_end),
        ("stream-office", &faults),
        ("pieces-box", &at_box),
        ("pieces-box", &["nothing", "frame refused 7"]),
        ("pieces-office", &["nothing", "frame ok"]),
    ] {
        for outcome in outcomes {
            let met = (first.to_string(), outcome.to_string());
            assert!(seen.contains(&met), "{met:?}");
        }
    }
}

/// The words of a line behind its first one, and behind ` into ` at its end.
fn arguments(line: &[u8]) -> (Vec<String>, Option<usize>) {
    let text = String::from_utf8_lossy(line).into_owned();
    let mut words: Vec<String> = text.split(' ').skip(1).map(String::from).collect();
    match &words[..] {
        [.., into, lent] if into == "into" => {
            let lent = lent.parse().ok();
            words.truncate(words.len() - 2);
            (words, lent)
        }
        _ => (words, None),
    }
}

/// The length of the ORDER that an item of a batch asks for.
fn order_length(item: &[String]) -> usize {
    match &item[0][..] {
        "command" => 11 + item.len(),
        _ => 14,
    }
}

#[test]
fn batches_at_every_limit_are_met() {
    // With how many unanswered, of how many orders, which is the first that has not enough output, and
    // by how many bytes; 0 where all have it just so.
    let mut short = BTreeSet::new();
    let mut refused_8 = BTreeSet::new();
    let mut refused_2 = BTreeSet::new();
    let mut issued = BTreeSet::new();
    for (_, script) in scripts(CALLS, SEED) {
        let mut simulation = Simulation::new();
        for line in script.lines {
            let now = simulation.office().progress();
            let unanswered = now.map_or(0, |now| now.issued - now.confirmed);
            let room = simulation.room();
            let answer = simulation.line(&line);
            let ("issue-all", Some(answer)) = (first_word(&line), answer) else {
                continue;
            };
            let (words, lent) = arguments(&line);
            let room = lent.unwrap_or(room);
            let items: Vec<&[String]> = words.split(|word| word == "/").collect();
            match answer.bare() {
                Answer::Refused(Refusal::ShortOutput) => {
                    let mut before = 0;
                    for (place, item) in items.iter().enumerate() {
                        if before + LONGEST_FRAME > room {
                            short.insert((place + 1, before + LONGEST_FRAME - room));
                            break;
                        }
                        before += order_length(item);
                    }
                }
                Answer::Refused(Refusal::WindowFull) => {
                    refused_8.insert((unanswered, items.len()));
                }
                Answer::Refused(Refusal::TooMuchData) if items.len() <= 8 => {
                    refused_2.insert(items.iter().position(|item| item.len() > 18));
                }
                Answer::Frames(frames) => {
                    let last = frames.last().map_or(0, Vec::len);
                    let written: usize = frames.iter().map(Vec::len).sum();
                    issued.insert((unanswered, frames.len()));
                    if !frames.is_empty() && written - last + LONGEST_FRAME == room {
                        short.insert((frames.len(), 0));
                    }
                }
                _ => {}
            }
        }
    }
    for place in 1..=8 {
        for missing in [0, 1] {
            assert!(short.contains(&(place, missing)), "{place} {missing}");
        }
        assert!(refused_2.contains(&Some(place - 1)), "{place}");
        assert!(issued.contains(&(0, place)), "{place}");
        assert!(issued.contains(&(place as u16 % 8, 8 - place % 8)), "{place}");
        assert!(refused_8.contains(&(place as u16, 9 - place)), "{place}");
    }
}

#[test]
fn runs_at_every_limit_are_met() {
    let mut rooms = BTreeSet::new();
    let mut answers: BTreeMap<(String, String), usize> = BTreeMap::new();
    let mut sums = BTreeSet::new();
    for (_, script) in scripts(CALLS, SEED) {
        let mut simulation = Simulation::new();
        for line in script.lines {
            let room = simulation.room();
            let first = first_word(&line).to_string();
            let Some(answer) = simulation.line(&line) else {
                continue;
            };
            if !["box-all", "to-box-all", "box-cut"].contains(&&first[..]) {
                continue;
            }
            let (words, lent) = arguments(&line);
            let room = lent.unwrap_or(room);
            let slash = words.iter().position(|word| word == "/");
            let count = match &first[..] {
                "box-all" => words.iter().filter(|word| *word == "/").count() + 1,
                "to-box-all" => words.len(),
                _ => slash.unwrap_or(words.len()),
            };
            match answer.bare() {
                Answer::Run(run) if !run.is_empty() => {
                    rooms.insert((first.clone(), count, room as i64 - (LONGEST_FRAME * count) as i64));
                    for (place, judged) in run.iter().enumerate() {
                        let told = match &judged.answer {
                            Answer::Frame(_) => "ok".to_string(),
                            Answer::RefusedFrame(refusal, _) => refusal.number().to_string(),
                            other => panic!("{other}"),
                        };
                        *answers.entry((first.clone(), told.clone())).or_default() += 1;
                        // Something is judged behind a refused frame.
                        if place > 0 && matches!(run[place - 1].answer, Answer::RefusedFrame(..)) {
                            *answers
                                .entry((first.clone(), format!("{told} behind")))
                                .or_default() += 1;
                        }
                    }
                }
                Answer::Refused(Refusal::ShortOutput) => {
                    rooms.insert((first.clone(), count, room as i64 - (LONGEST_FRAME * count) as i64));
                }
                Answer::Refused(Refusal::TooMuchData) if first == "box-cut" && count <= 8 => {
                    let lengths = words[..count].iter().map(|word| word.parse::<u64>().unwrap());
                    let bytes = words.len().saturating_sub(count + 1) as u64;
                    let sum = lengths.fold(0, u64::wrapping_add);
                    sums.insert(match sum.wrapping_sub(bytes) {
                        0 => "2^64",
                        1 => "1",
                        u64::MAX => "-1",
                        other if other % (1 << 32) == 0 => "2^32",
                        other if other % (1 << 16) == 0 => "2^16",
                        other if other % (1 << 8) == 0 => "2^8",
                        _ => "other",
                    });
                }
                _ => {}
            }
        }
    }
    for first in ["box-all", "to-box-all", "box-cut"] {
        for count in 1..=8 {
            for more in [-1, 0] {
                let key = (first.to_string(), count, more);
                assert!(rooms.contains(&key), "{key:?}");
            }
        }
    }
    for (first, told) in [
        (
            "box-all",
            &["ok", "5", "6", "7", "14", "15", "16", "17", "18", "19"][..],
        ),
        (
            "box-cut",
            &["ok", "5", "6", "7", "14", "15", "16", "17", "18", "19"],
        ),
        ("to-box-all", &["ok", "5", "6", "7"]),
        (
            "box-all",
            &["ok behind", "5 behind", "6 behind", "7 behind", "14 behind"],
        ),
        ("to-box-all", &["ok behind", "5 behind", "6 behind", "7 behind"]),
    ] {
        for told in told {
            let key = (first.to_string(), told.to_string());
            let count = answers.get(&key).copied().unwrap_or(0);
            assert!(count > 10, "{key:?} {count}");
        }
    }
    assert_eq!(
        sums,
        BTreeSet::from(["2^64", "1", "-1", "2^32", "2^16", "2^8", "other"])
    );
}

/// The length of a frame, and after how many of its wrapped bytes a line ended.
fn cut_frame(calls: &[Heard]) -> Option<(usize, usize)> {
    let first = calls.first()?;
    match &first.taken.came {
        Some(Came::Frame(frame)) => {
            let before = (frame.len() + 3).checked_sub(first.taken.count)?;
            Some((frame.len(), before))
        }
        _ => None,
    }
}

#[test]
fn streams_are_cut_everywhere() {
    let mut cuts = BTreeSet::new();
    let mut dropped = 0;
    let mut longest_skip = 0;
    let mut longest_line = 0;
    let mut restarts_amid = 0;
    for number in 1..120 {
        let mut simulation = Simulation::new();
        for line in generate::script(Rng::new(SEED, number), 3000).lines {
            let amid = !simulation.box_receiver().at_tag();
            let answer = simulation.line(&line);
            match (first_word(&line), answer) {
                ("stream", Some(Answer::Stream(calls))) => {
                    cuts.extend(cut_frame(&calls));
                    longest_line = longest_line.max(line.len());
                    longest_skip = longest_skip.max(simulation.bench_receiver().skipping());
                }
                ("dropped", Some(Answer::Dropped(count))) => dropped = dropped.max(count),
                ("restart", Some(Answer::Ok)) if amid => restarts_amid += 1,
                _ => {}
            }
        }
    }
    for length in [1, 2, 63, 64] {
        for before in 0..length + 3 {
            assert!(cuts.contains(&(length, before)), "{length} cut after {before}");
        }
    }
    assert!((1..=64).all(|length| cuts.contains(&(length, 0))));
    assert!(longest_line > 4000);
    assert!(longest_skip > 60_000);
    assert!(dropped > 65_536);
    assert!(restarts_amid > 100, "{restarts_amid}");
}

#[test]
fn pieces_of_every_length_are_met() {
    let mut seen = BTreeSet::new();
    for number in 1..60 {
        for line in generate::script(Rng::new(SEED, number), 3000).lines {
            let text = String::from_utf8_lossy(&line).into_owned();
            if let [first @ ("pieces-box" | "pieces-office"), _, length] =
                text.split(' ').collect::<Vec<_>>()[..]
            {
                seen.insert((first.to_string(), length.to_string()));
            }
        }
    }
    // An OPEN is wrapped in 10 bytes, an ACK in 12, a WELCOME in 50.
    for (first, lengths) in [
        ("pieces-box", [0, 1, 2, 3, 9, 10, 11, 128, 129]),
        ("pieces-office", [0, 1, 2, 3, 11, 12, 13, 128, 129]),
        ("pieces-office", [4, 5, 49, 50, 51, 64, 127, 128, 130]),
    ] {
        for length in lengths {
            let met = (first.to_string(), length.to_string());
            assert!(seen.contains(&met), "{met:?}");
        }
    }
}

fn lines_of(lines: &[&str]) -> Vec<Vec<u8>> {
    lines.iter().map(|line| line.as_bytes().to_vec()).collect()
}

#[test]
fn streams_in_a_list() {
    let list = [
        "open 3",
        "pieces-box 1 3",
        "pieces-office 1 128",
        "raise 1",
        "raise 2",
        "stream-box 01 0E 00 12 06 00 03 00 00 00 01 00 22 02",
        "show",
        // The first order's rest and the second order.
        "stream-box 00 01 00 01 0E 00 12 06 00 03 00 00 00 02 00 22 02 00 02 00",
        "pieces-office 3 7",
        "show",
    ];
    let covered = |lines: &[&str]| check::closing_sentences(&lines_of(lines));
    assert_eq!(covered(&list), Ok(10));
    // A frame amid another one, and one that nobody wrote.
    assert_eq!(covered(&[&list[..6], &["pieces-box 3 128"]].concat()), Ok(6));
    assert_eq!(
        covered(&[&list[..5], &["stream-box 01 01 00 10", "show"]].concat()),
        Ok(5)
    );
    let after_restart = ["restart", "pieces-box 3 128", "pieces-office 2 1", "show"];
    assert_eq!(covered(&[&list[..6], &after_restart].concat()), Ok(10));
}

#[test]
fn batches_and_runs_in_a_list() {
    let list = [
        "open 3",
        "to-box-all 1",
        "to-office 1",
        "issue-all raise 1 / raise 2 / lower 1 into 100",
        "box-all 12 06 00 03 00 00 00 01 00 22 02 00 01 00 / 10 04 00 03 00 00 00 into 94",
        "show",
        // Refused as a whole, so that nothing is asked of its bytes.
        "box-cut 1 / 10 into 46",
        "box-cut 1 1 / 10",
        "box-cut 14 14 / 12 06 00 03 00 00 00 02 00 22 02 00 02 00 12 06 00 03 00 00 00 03 00 23 02 00 01 00 into 100",
        "to-office 5",
        "show",
    ];
    let covered = |lines: &[&str]| check::closing_sentences(&lines_of(lines));
    assert_eq!(covered(&list), Ok(11));
    // Frames that nobody wrote.
    assert_eq!(
        covered(&[&list[..4], &["box-all 10 into 47", "show"]].concat()),
        Ok(4)
    );
    assert_eq!(covered(&[&list[..4], &["box-cut 0", "show"]].concat()), Ok(4));
}

#[test]
fn closing_sentences_hold() {
    let scripts = (1..40).map(|number| generate::script(Rng::new(SEED, number), 3000));
    let allowed: Vec<Script> = scripts.filter(|script| script.allowed).collect();
    assert!(allowed.len() > 5);
    let lines = allowed.iter().flat_map(|script| &script.lines);
    let firsts: BTreeSet<&str> = lines.map(|line| first_word(line)).collect();
    for first in [
        "use",
        "pieces-box",
        "pieces-office",
        "stream-box",
        "stream-office",
        "issue-all",
        "to-box-all",
        "box-all",
        "box-cut",
    ] {
        assert!(firsts.contains(first), "{first}");
    }
    for script in allowed {
        assert_eq!(check::closing_sentences(&script.lines), Ok(script.lines.len()));
    }
}

#[test]
fn shrinking_renumbers_deliveries() {
    let lines = [
        "open 1",
        "open 2",
        "show",
        "open 3",
        "to-box 3",
        "to-office 1",
        "show",
    ];
    let lines = lines_of(&lines);
    let opens = |lines: &[Vec<u8>]| {
        let mut simulation = Simulation::new();
        lines.iter().position(|line| {
            simulation.line(line);
            simulation.office().settings().is_some()
        })
    };
    let short = shrink::shortest(&lines, opens);
    assert_eq!(short.join(&b' '), b"open 3 to-box 1 to-office 1");
}

#[test]
fn shrinking_renumbers_runs() {
    let lines = lines_of(&[
        "open 2",
        "open 3",
        "to-box-all 1 2 1 2 into 516",
        "to-office 4",
        "to-office 2",
        "show",
        "issue-all raise 1 / raise 2 / raise 3 into 516",
        "to-box-all 1 3 2 4 3 into 400",
    ]);
    let two_taken = |lines: &[Vec<u8>]| {
        let mut simulation = Simulation::new();
        lines.iter().position(|line| {
            simulation.line(line);
            let issued = simulation.office().progress().map_or(0, |now| now.issued);
            issued > 1 && simulation.cab().open().is_some_and(|open| open.taken == 2)
        })
    };
    let short = shrink::shortest(&lines, two_taken);
    assert_eq!(
        short.join(&b'/').escape_ascii().to_string(),
        "open 3/to-box-all 1 into 516/to-office 1/issue-all raise 1 / raise 3 into 516/to-box-all 2 3 into 400"
    );
}

#[test]
fn shrinking_renumbers_pieces() {
    let lines = lines_of(&[
        "open 2",
        "show",
        "open 3",
        // Writes a REFUSE and a WELCOME.
        "stream-box 01 01 00 10 01 07 00 10 04 00 03 00 00 00",
        "show",
        "pieces-office 2 5",
    ]);
    let opens = |lines: &[Vec<u8>]| {
        let mut simulation = Simulation::new();
        lines.iter().position(|line| {
            simulation.line(line);
            simulation.office().settings().is_some()
        })
    };
    let short = shrink::shortest(&lines, opens);
    assert_eq!(
        short.join(&b'/').escape_ascii().to_string(),
        "open 3/stream-box 01 07 00 10 04 00 03 00 00 00/pieces-office 1 5"
    );
}

/// A line's frame for the office in use, if it brings one.
fn frame_for_office(simulation: &Simulation, line: &[u8], answer: &Answer) -> Option<Frame> {
    let frame = match (first_word(line), answer) {
        ("to-office", Answer::Ok) => {
            let (words, _) = arguments(line);
            let index = words.first()?.parse().ok()?;
            simulation.from_cab().get(index)?.to_vec()
        }
        ("office" | "stream-office" | "pieces-office", Answer::Ok | Answer::Stream(_)) => {
            let frames = frames_in(line, answer.clone());
            frames.into_iter().next().map(|(_, frame, _)| frame)?
        }
        _ => return None,
    };
    Frame::from_bytes(&frame)
}

/// The frames that a line brought to the box, bare, and the answers.
fn frames_for_box(simulation: &Simulation, line: &[u8], answer: &Answer) -> Vec<(Option<Frame>, Answer)> {
    match (first_word(line), answer.bare()) {
        ("to-box", answer) => {
            let (words, _) = arguments(line);
            let index = words.first().and_then(|word| word.parse().ok());
            let frame = index.and_then(|index| simulation.from_offices().get(index));
            vec![(frame.and_then(Frame::from_bytes), answer.clone())]
        }
        (_, Answer::Run(run)) => {
            let judged = run
                .iter()
                .map(|judged| (Frame::from_bytes(&judged.frame), judged.answer.clone()));
            judged.collect()
        }
        _ => Vec::new(),
    }
}

fn name_of(frame: &Frame) -> &'static str {
    match frame {
        Frame::Open { .. } => "OPEN",
        Frame::Welcome { .. } => "WELCOME",
        Frame::Order { .. } => "ORDER",
        Frame::Ack { .. } => "ACK",
        Frame::Refuse { number: 5, .. } => "REFUSE 5",
        Frame::Refuse { number: 6, .. } => "REFUSE 6",
        Frame::Refuse { .. } => "other REFUSE",
    }
}

fn stage_of(office: &Office) -> &'static str {
    match office {
        Office::NeverOpened => "never opened",
        Office::Opening { .. } => "opening",
        Office::Open(_) => "open",
        Office::Over(_) => "over",
    }
}

fn session_of(frame: &Frame) -> u32 {
    match *frame {
        Frame::Open { session }
        | Frame::Welcome { session, .. }
        | Frame::Order { session, .. }
        | Frame::Ack { session, .. }
        | Frame::Refuse { session, .. } => session,
    }
}

/// What stood before a line.
struct Before {
    offices: Vec<Office>,
    in_use: usize,
    receiver_at_tag: bool,
    open: Option<Open>,
}

impl Before {
    fn of(simulation: &Simulation) -> Before {
        Before {
            offices: simulation.offices().cloned().collect(),
            in_use: simulation.in_use(),
            receiver_at_tag: simulation.office_receiver().at_tag(),
            open: simulation.cab().open(),
        }
    }

    fn office(&self) -> &Office {
        &self.offices[self.in_use]
    }

    fn session(&self) -> Option<u32> {
        self.office().progress().map(|now| now.session)
    }

    fn others(&self) -> impl Iterator<Item = &Office> {
        let others = self.offices.iter().enumerate();
        others
            .filter(|(place, _)| *place != self.in_use)
            .map(|(_, office)| office)
    }

    /// Whether it is the session of an office that is not in use.
    fn is_anothers(&self, session: u32) -> bool {
        let mut sessions = self.others().filter_map(Office::progress).map(|now| now.session);
        self.session() != Some(session) && sessions.any(|other| other == session)
    }
}

/// How often something was met that takes several offices.
#[derive(Default)]
struct Tally {
    met: BTreeMap<String, usize>,
    /// Sessions that were open at the box, with the number of orders taken.
    taken: BTreeMap<u32, u16>,
    /// The line before chose an office.
    switched: bool,
}

impl Tally {
    /// Over all scripts of a run of the usual length that demand 3's list allows, or all others.
    fn of_scripts(allowed: bool) -> Tally {
        let mut tally = Tally::default();
        for (_, script) in scripts(CALLS, SEED).filter(|(_, script)| script.allowed == allowed) {
            tally.script(&script);
        }
        tally
    }

    fn script(&mut self, script: &Script) {
        let mut simulation = Simulation::new();
        let mut opening = BTreeSet::new();
        self.taken.clear();
        for line in &script.lines {
            let before = Before::of(&simulation);
            let Some(answer) = simulation.line(line) else {
                continue;
            };
            if let ("open", Answer::Frame(_)) = (first_word(line), &answer) {
                opening.insert(simulation.in_use());
            }
            if let Some(frame) = frame_for_office(&simulation, line, &answer) {
                self.frame_at_office(&before, &frame);
            }
            self.frames_at_box(&before, frames_for_box(&simulation, line, &answer));
            self.line(&before, first_word(line), answer.bare(), &simulation);
            self.windows(&before, first_word(line), &answer);
            self.switched = first_word(line) == "use";
            let open = simulation.cab().open();
            self.taken.extend(open.map(|open| (open.session, open.taken)));
        }
        self.add(match opening.len() {
            0 | 1 => "script of one office",
            2..=4 => "script of 2 to 4 offices",
            _ => "script of 5 to 8 offices",
        });
    }

    fn add(&mut self, what: impl Into<String>) {
        *self.met.entry(what.into()).or_default() += 1;
    }

    fn at_least(&self, least: usize, what: &str) {
        let count = self.met.get(what).copied().unwrap_or(0);
        assert!(count >= least, "{what}: {count}");
    }

    fn frame_at_office(&mut self, before: &Before, frame: &Frame) {
        let session = session_of(frame);
        let whose = if before.session() == Some(session) {
            "its own"
        } else if before.is_anothers(session) {
            "another's"
        } else {
            "no"
        };
        let stage = stage_of(before.office());
        self.add(format!("{} of {whose} session, {stage}", name_of(frame)));
    }

    fn frames_at_box(&mut self, before: &Before, judged: Vec<(Option<Frame>, Answer)>) {
        let mut overtook = false;
        for (frame, answer) in judged {
            let accepted = matches!(answer, Answer::Frame(_));
            let refused_6 = matches!(answer, Answer::RefusedFrame(Refusal::WrongSession, _));
            match frame {
                Some(Frame::Open { session }) if accepted => {
                    let open = before.open.filter(|open| open.taken > 0);
                    overtook |= open.is_some_and(|open| open.session < session);
                    if overtook {
                        self.add("a session overtaken that has orders taken");
                    }
                }
                Some(Frame::Open { session }) if refused_6 => {
                    self.add(if self.taken.contains_key(&session) {
                        "late OPEN of an overtaken session"
                    } else {
                        "OPEN that comes too late"
                    });
                }
                Some(Frame::Order { session, number, .. }) if refused_6 => {
                    let Some(taken) = self.taken.get(&session).copied() else {
                        continue;
                    };
                    let next = before.open.map(|open| open.taken + 1);
                    self.add("late order");
                    for (met, what) in [
                        (number == taken + 1, "late order, the next of its own session"),
                        (number <= taken, "late order, taken before"),
                        (
                            Some(number) == next,
                            "late order, the next number of the open session",
                        ),
                        (overtook, "late order in a run behind the OPEN that overtook it"),
                    ] {
                        if met {
                            self.add(what);
                        }
                    }
                }
                _ => {}
            }
        }
    }

    fn line(&mut self, before: &Before, first: &str, answer: &Answer, after: &Simulation) {
        match (first, answer) {
            ("use", Answer::Ok) => {
                self.add(format!("office {}", after.in_use() + 1));
                if !before.receiver_at_tag && after.in_use() != before.in_use {
                    self.add("half a frame left at an office");
                    if !after.office_receiver().at_tag() {
                        self.add("half a frame at two offices");
                    }
                }
            }
            ("restart", _) if before.others().any(|office| office.settings().is_some()) => {
                self.add("restart with another office open");
            }
            ("issue-all", Answer::Frames(frames))
                if !frames.is_empty() && before.others().any(|office| office.settings().is_some()) =>
            {
                self.add("batch with another office open");
            }
            ("open", Answer::Frame(_)) => {
                let over = matches!(before.office(), Office::Over(_));
                let open = before.open.filter(|open| before.is_anothers(open.session));
                if over && open.is_some() {
                    self.add("an overtaken office comes back");
                }
            }
            ("show" | "describe", _) => {
                let open = before.open.filter(|open| before.is_anothers(open.session));
                if before.session() < open.map(|open| open.session) && before.session().is_some() {
                    self.add(format!("overtaken, {}", before.office().word()));
                }
            }
            _ => {}
        }
        let own = before.session();
        let runs =
            |office: &Office| office.settings().is_some() && office.progress().map(|now| now.session) == own;
        if runs(before.office()) && before.others().any(runs) {
            self.add("two offices open with one session");
        }
    }

    fn windows(&mut self, before: &Before, first: &str, answer: &Answer) {
        let full = |office: &&Office| {
            let now = office.progress();
            office.settings().is_some() && now.is_some_and(|now| now.issued - now.confirmed == 8)
        };
        let two = before.offices.iter().filter(full).count() > 1;
        match (first, answer) {
            ("resend", Answer::Frame(_)) if two => self.add("resend with two windows full"),
            ("raise" | "lower" | "command", Answer::Refused(Refusal::WindowFull)) if two => {
                self.add("refusal 8 with two windows full");
            }
            _ => {}
        }
        if self.switched && matches!((first, answer), ("resend", Answer::Frame(_))) {
            self.add("resend after switching");
        }
    }
}

#[test]
fn several_offices_are_met() {
    for (allowed, tally) in [true, false].map(|allowed| (allowed, Tally::of_scripts(allowed))) {
        println!("allowed {allowed}: {:#?}", tally.met);
        for (least, whats) in [
            (4, &["script of one office", "script of 2 to 4 offices"][..]),
            (
                200,
                &[
                    "a session overtaken that has orders taken",
                    "late OPEN of an overtaken session",
                    "late order, the next of its own session",
                    "late order, taken before",
                    "late order, the next number of the open session",
                    "half a frame left at an office",
                    "batch with another office open",
                    "overtaken, waiting",
                    "overtaken, over",
                ],
            ),
            (
                50,
                &[
                    "OPEN that comes too late",
                    "an overtaken office comes back",
                    "restart with another office open",
                    "resend with two windows full",
                    "refusal 8 with two windows full",
                    "resend after switching",
                ],
            ),
            (
                10,
                &[
                    "late order in a run behind the OPEN that overtook it",
                    "half a frame at two offices",
                    "overtaken, settled",
                ],
            ),
            (2, &["script of 5 to 8 offices"]),
        ] {
            for what in whats {
                tally.at_least(least, what);
            }
        }
        for frame in ["WELCOME", "ACK", "REFUSE 5", "REFUSE 6"] {
            for stage in ["opening", "open"] {
                tally.at_least(10, &format!("{frame} of another's session, {stage}"));
            }
        }
        for what in [
            "REFUSE 5 of its own session, open",
            "REFUSE 6 of its own session, open",
        ] {
            tally.at_least(100, what);
        }
        tally.at_least(50, "REFUSE 6 of its own session, opening");
        for number in 1..=8 {
            tally.at_least(5, &format!("office {number}"));
        }
        if !allowed {
            tally.at_least(100, "two offices open with one session");
        }
    }
}

#[test]
fn wrong_choices_of_an_office_are_met() {
    let mut met: BTreeMap<String, usize> = BTreeMap::new();
    for (_, script) in scripts(CALLS, SEED) {
        let mut simulation = Simulation::new();
        for line in script.lines {
            let answer = simulation.line(&line);
            if let ("use", Some(Answer::Invalid(_, error))) = (first_word(&line), answer) {
                let line = line.escape_ascii();
                *met.entry(format!("{line}: {error}")).or_default() += 1;
            }
        }
    }
    for line in [
        "use: not a number",
        "use x: not a number",
        "use two: not a number",
        "use -1: not a number",
        "use 0: number out of range",
        "use 9: number out of range",
        "use 257: number out of range",
        "use 4294967298: number out of range",
        "use 18446744073709551617: number out of range",
        "use 9 x: number out of range",
        "use 2 1: too many words",
        "use 2 x: too many words",
    ] {
        let count = met.get(line).copied().unwrap_or(0);
        assert!(count >= 5, "{line} {count}");
    }
}

/// The packets that are whole on the bus, unescaped and without their start, each with the place behind it.
fn packets(sent: &[u8]) -> Vec<(Vec<u8>, usize)> {
    let mut packets = Vec::new();
    let mut open: Option<Vec<u8>> = None;
    let mut escape = false;
    for (place, byte) in sent.iter().enumerate() {
        match (*byte, &mut open) {
            (0xA5, _) => (open, escape) = (Some(Vec::new()), false),
            (0x5A, Some(_)) if !escape => escape = true,
            (byte, Some(packet)) => {
                packet.push(if escape && byte == 0x00 { 0xA5 } else { byte });
                escape = false;
                if packet.len() > 2 && packet.len() == usize::from(packet[1]) + 3 {
                    packets.extend(open.take().map(|packet| (packet, place + 1)));
                }
            }
            _ => {}
        }
    }
    packets
}

/// The data of the bezel writes in a line for the bus whose length or data are refused.
fn refused_on_bus(line: &[u8], out: &[u8]) -> Vec<Vec<u8>> {
    let (words, _) = arguments(line);
    let sent = words.iter().flat_map(|word| u8::from_str_radix(word, 16));
    let packets = packets(&sent.collect::<Vec<u8>>()).into_iter();
    packets
        .filter(|(packet, behind)| packet[0] == 0x50 && matches!(out.get(*behind), Some(0x05 | 0x07)))
        .map(|(packet, _)| packet[2..packet.len() - 1].to_vec())
        .collect()
}

/// The data of the bezel writes among orders that a line issues, or that the box accepts.
fn ordered(simulation: &Simulation, line: &[u8], answer: &Answer) -> Vec<Vec<u8>> {
    let frames: Vec<Frame> = match (first_word(line), answer.bare()) {
        ("command", Answer::Frame(frame)) => Frame::from_bytes(frame).into_iter().collect(),
        ("issue-all", Answer::Frames(frames)) => frames
            .iter()
            .filter_map(|frame| Frame::from_bytes(frame))
            .collect(),
        _ => frames_for_box(simulation, line, answer)
            .into_iter()
            .filter(|(_, answer)| matches!(answer, Answer::Frame(_)))
            .filter_map(|(frame, _)| frame)
            .collect(),
    };
    let data = frames.into_iter().filter_map(|frame| match frame {
        Frame::Order {
            order: Order::Command { command: 0x50, data },
            ..
        } => Some(data),
        _ => None,
    });
    data.collect()
}

#[test]
fn bad_signs_are_met() {
    // The signs, 2 for all above 1, and whether the amount of one of these is 0.
    let mut signs_met: BTreeMap<(&str, [u8; 2], bool), usize> = BTreeMap::new();
    let mut lengths_met: BTreeMap<(&str, usize), usize> = BTreeMap::new();
    let mut values_met: BTreeSet<(&str, usize, u8)> = BTreeSet::new();
    // Whether it would show that a part of a write was taken.
    let shows = |held: &Settings| held.master && !held.bezel.contains(&0);
    for (_, script) in scripts(CALLS, SEED) {
        let mut simulation = Simulation::new();
        for line in script.lines {
            let office_shows = simulation.office().settings().is_some_and(shows);
            let box_shows = shows(simulation.cab().controller().settings());
            let Some(answer) = simulation.line(&line) else {
                continue;
            };
            let (place, writes) = match (first_word(&line), &answer) {
                ("bus", Answer::Bus(out)) => ("bus", refused_on_bus(&line, out)),
                ("command", _) if office_shows => ("order", ordered(&simulation, &line, &answer)),
                ("issue-all", _) if office_shows => ("batch", ordered(&simulation, &line, &answer)),
                ("to-box" | "to-box-all" | "box-all" | "box-cut", _) if box_shows => {
                    ("box", ordered(&simulation, &line, &answer))
                }
                _ => continue,
            };
            for data in writes {
                let bad = |sign: &usize| data.get(*sign).is_some_and(|sign| *sign > 1);
                let bad: Vec<usize> = [2, 5].into_iter().filter(bad).collect();
                if bad.is_empty() {
                    continue;
                }
                *lengths_met.entry((place, data.len())).or_default() += 1;
                if data.len() == 6 {
                    let signs = [data[2], data[5]].map(|sign| sign.min(2));
                    let zero = bad.iter().any(|sign| data[sign - 2..*sign] == [0, 0]);
                    *signs_met.entry((place, signs, zero)).or_default() += 1;
                    values_met.extend(bad.iter().map(|sign| (place, *sign, data[*sign])));
                }
            }
        }
    }
    println!("{signs_met:?} {lengths_met:?}");
    for place in ["bus", "order", "batch", "box"] {
        for signs in [[2, 0], [2, 1], [0, 2], [1, 2], [2, 2]] {
            for (zero, least) in [(false, 20), (true, 5)] {
                let key = (place, signs, zero);
                let count = signs_met.get(&key).copied().unwrap_or(0);
                assert!(count >= least, "{key:?} {count}");
            }
        }
        for length in [5, 7] {
            let key = (place, length);
            let count = lengths_met.get(&key).copied().unwrap_or(0);
            assert!(count >= 10, "{key:?} {count}");
        }
        for sign in [2, 5] {
            for value in [0x02, 0x03, 0x5A, 0xA5, 0xFF] {
                let key = (place, sign, value);
                assert!(values_met.contains(&key), "{key:?}");
            }
        }
    }
    let values: BTreeSet<u8> = values_met.into_iter().map(|(_, _, value)| value).collect();
    assert!(values.len() > 200, "{}", values.len());
}
