//! Makes a failing script short.

use std::collections::HashMap;
use std::ops::Range;
use std::slice;
use std::time::{Duration, Instant};

use reference::script::{Hex, Log, Simulation};
use reference::stream::wrap;

const PATIENCE: Duration = Duration::from_secs(20);
/// A script this short is not tried again with its frames written out, nor is one this long.
const SHORT: usize = 4;
const LONG: usize = 1000;

/// A line; deliveries name the line that wrote the frame, so that others can go.
#[derive(Clone)]
enum Step {
    Line(Vec<u8>),
    Delivery(Delivery),
}

#[derive(Clone)]
struct Delivery {
    way: Way,
    frames: Vec<Delivered>,
}

#[derive(Clone)]
struct Delivered {
    writer: Writer,
    frame: Vec<u8>,
}

#[derive(Clone)]
enum Way {
    ToBox,
    ToOffice,
    /// A run, with what stands behind its frames.
    ToBoxAll(String),
    /// With the length of a piece.
    PiecesBox(String),
    PiecesOffice(String),
}

impl Way {
    fn to_box(&self) -> bool {
        matches!(self, Way::ToBox | Way::ToBoxAll(_) | Way::PiecesBox(_))
    }
}

/// What a line is made of: words, or items between slashes.
#[derive(Clone, Copy)]
enum Unit {
    Word,
    Item,
}

impl Unit {
    fn split(self, line: &[u8]) -> Vec<Vec<u8>> {
        let words: Vec<&[u8]> = line.split(|byte| *byte == b' ').collect();
        match self {
            Unit::Word => words.into_iter().map(<[u8]>::to_vec).collect(),
            Unit::Item => {
                let items = words.split(|word| *word == b"/");
                items.map(|item| item.join(&b' ')).collect()
            }
        }
    }

    fn joined(self, parts: &[Vec<u8>]) -> Vec<u8> {
        match self {
            Unit::Word => parts.join(&b" "[..]),
            Unit::Item => parts.join(&b" / "[..]),
        }
    }
}

impl Step {
    /// How many parts it has that can go: those behind a line's first one, frames of a run.
    fn parts(&self, unit: Unit) -> usize {
        match self {
            Step::Line(line) => unit.split(line).len() - 1,
            Step::Delivery(Delivery {
                way: Way::ToBoxAll(_),
                frames,
            }) => frames.len(),
            Step::Delivery(_) => 0,
        }
    }

    fn without(&self, unit: Unit, parts: Range<usize>) -> Step {
        match self {
            Step::Line(line) => {
                let mut kept = unit.split(line);
                kept.drain(parts.start + 1..parts.end + 1);
                Step::Line(unit.joined(&kept))
            }
            Step::Delivery(delivery) => {
                let mut delivery = delivery.clone();
                delivery.frames.drain(parts);
                Step::Delivery(delivery)
            }
        }
    }
}

/// A line, and which of the frames that it wrote.
type Writer = (usize, usize);
type Steps = Vec<(usize, Step)>;

/// A shorter script that still fails. `fails` gives the place of the first failing line.
pub fn shortest<F>(lines: &[Vec<u8>], mut fails: F) -> Vec<Vec<u8>>
where
    F: FnMut(&[Vec<u8>]) -> Option<usize>,
{
    let steps = steps_of(lines);
    let short = shorter(steps.clone(), &mut fails).unwrap_or_else(|| lines.to_vec());
    if short.len() <= SHORT || short.len() > LONG {
        return short;
    }
    match shorter(written_out(steps), &mut fails) {
        Some(other) if other.len() < short.len() => other,
        _ => short,
    }
}

fn shorter<F>(steps: Steps, fails: &mut F) -> Option<Vec<Vec<u8>>>
where
    F: FnMut(&[Vec<u8>]) -> Option<usize>,
{
    let deadline = Instant::now() + PATIENCE;
    let mut attempt = |steps: Steps| -> Option<Steps> {
        let (mut steps, lines) = rendered(steps);
        let last = fails(&lines)?;
        steps.truncate(last + 1);
        Some(steps)
    };
    let mut best = attempt(steps)?;

    // A line with fewer words or frames may make others needless.
    loop {
        let before = size(&best);
        last_lines(&mut best, &mut attempt);
        fewer_lines(&mut best, &mut attempt, deadline);
        for place in (0..best.len()).rev() {
            for unit in [Unit::Item, Unit::Word] {
                fewer_parts(&mut best, place, unit, &mut attempt, deadline);
            }
        }
        if size(&best) == before || Instant::now() >= deadline {
            return Some(rendered(best).1);
        }
    }
}

fn size(steps: &Steps) -> usize {
    let parts = steps.iter().map(|(_, step)| 1 + step.parts(Unit::Word));
    parts.sum()
}

/// Keeps the last line alone if that will do, else the last two, four and so on.
fn last_lines<A>(best: &mut Steps, attempt: &mut A)
where
    A: FnMut(Steps) -> Option<Steps>,
{
    let mut count = 1;
    while count < best.len() {
        if let Some(smaller) = attempt(best[best.len() - count..].to_vec()) {
            *best = smaller;
            return;
        }
        count *= 2;
    }
}

fn fewer_lines<A>(best: &mut Steps, attempt: &mut A, deadline: Instant)
where
    A: FnMut(Steps) -> Option<Steps>,
{
    let mut chunk = best.len();
    loop {
        let mut shrunk = false;
        let mut start = 0;
        while start < best.len() && Instant::now() < deadline {
            let end = best.len().min(start + chunk);
            let without = [&best[..start], &best[end..]].concat();
            match attempt(without) {
                Some(smaller) => {
                    *best = smaller;
                    shrunk = true;
                }
                None => start = end,
            }
        }
        if chunk == 1 && !shrunk || Instant::now() >= deadline {
            return;
        }
        chunk = chunk.div_ceil(2);
    }
}

fn fewer_parts<A>(best: &mut Steps, place: usize, unit: Unit, attempt: &mut A, deadline: Instant)
where
    A: FnMut(Steps) -> Option<Steps>,
{
    let Some((id, mut step)) = best.get(place).cloned() else {
        return;
    };
    let mut chunk = step.parts(unit);
    while chunk > 0 {
        let mut start = 0;
        while start < step.parts(unit) && Instant::now() < deadline {
            let end = step.parts(unit).min(start + chunk);
            let fewer = step.without(unit, start..end);
            let mut candidate = best.clone();
            candidate[place] = (id, fewer.clone());
            match attempt(candidate) {
                Some(smaller) if smaller.len() == best.len() => {
                    *best = smaller;
                    step = fewer;
                }
                _ => start = end,
            }
        }
        chunk /= 2;
    }
}

/// The lines as steps, each known by its place.
fn steps_of(lines: &[Vec<u8>]) -> Steps {
    let mut simulation = Simulation::new();
    // Who wrote each frame.
    let mut from_cab: Vec<Writer> = Vec::new();
    let mut from_office: Vec<Writer> = Vec::new();
    let mut steps = Vec::new();
    for (id, line) in lines.iter().enumerate() {
        let delivery = way_of(line).and_then(|(way, indexes)| {
            let (log, writers) = if way.to_box() {
                (simulation.from_offices(), &from_office)
            } else {
                (simulation.from_cab(), &from_cab)
            };
            let frames = indexes.into_iter().map(|index| {
                let frame = log.get(index)?.to_vec();
                let writer = writers[index as usize - 1];
                Some(Delivered { writer, frame })
            });
            let frames = frames.collect::<Option<_>>()?;
            Some(Delivery { way, frames })
        });
        let step = match delivery {
            Some(delivery) => Step::Delivery(delivery),
            None => Step::Line(line.clone()),
        };
        steps.push((id, step));
        simulation.line(line);
        note_writer(&mut from_cab, id, simulation.from_cab());
        note_writer(&mut from_office, id, simulation.from_offices());
    }
    steps
}

/// How a line delivers frames, and the frames' numbers.
fn way_of(line: &[u8]) -> Option<(Way, Vec<u64>)> {
    let words: Vec<&str> = std::str::from_utf8(line).ok()?.split(' ').collect();
    let (way, indexes) = match &words[..] {
        ["to-box", index] => (Way::ToBox, slice::from_ref(index)),
        ["to-office", index] => (Way::ToOffice, slice::from_ref(index)),
        ["to-box-all", indexes @ .., "into", lent] => (Way::ToBoxAll(format!(" into {lent}")), indexes),
        ["to-box-all", indexes @ ..] => (Way::ToBoxAll(String::new()), indexes),
        ["pieces-box", index, length] => (Way::PiecesBox(length.to_string()), slice::from_ref(index)),
        ["pieces-office", index, length] => (Way::PiecesOffice(length.to_string()), slice::from_ref(index)),
        _ => return None,
    };
    let indexes = indexes.iter().map(|index| index.parse().ok());
    Some((way, indexes.collect::<Option<_>>()?))
}

fn note_writer(writers: &mut Vec<Writer>, id: usize, log: &Log) {
    let new = log.written() as usize - writers.len();
    writers.extend((0..new).map(|which| (id, which)));
}

/// The same with every delivered frame given as bytes.
fn written_out(mut steps: Steps) -> Steps {
    for (_, step) in &mut steps {
        let Step::Delivery(Delivery { way, frames }) = step else {
            continue;
        };
        let bytes = |frame: &[u8]| Hex(frame).to_string();
        let wrapped = |frame: &[u8]| bytes(&wrap(frame, usize::MAX).unwrap_or_default());
        let written = |bytes: &dyn Fn(&[u8]) -> String| {
            let frames = frames.iter().map(|delivered| bytes(&delivered.frame));
            frames.collect::<Vec<_>>().join(" /")
        };
        let line = match way {
            Way::ToBox => format!("box{}", written(&bytes)),
            Way::ToOffice => format!("office{}", written(&bytes)),
            Way::ToBoxAll(behind) => format!("box-all{}{behind}", written(&bytes)),
            Way::PiecesBox(_) => format!("stream-box{}", written(&wrapped)),
            Way::PiecesOffice(_) => format!("stream-office{}", written(&wrapped)),
        };
        *step = Step::Line(line.into());
    }
    steps
}

/// Where to find a frame: by the line that wrote it, else by its bytes.
#[derive(Default)]
struct Places {
    written: u64,
    by_writer: HashMap<Writer, u64>,
    by_bytes: HashMap<Vec<u8>, u64>,
}

impl Places {
    fn note(&mut self, id: usize, log: &Log) {
        let new = self.written + 1..=log.written();
        for (which, index) in new.enumerate() {
            self.by_writer.insert((id, which), index);
            if let Some(frame) = log.get(index) {
                self.by_bytes.insert(frame.to_vec(), index);
            }
        }
        self.written = log.written();
    }

    fn find(&self, delivered: &Delivered) -> Option<u64> {
        let place = self.by_writer.get(&delivered.writer);
        place.or_else(|| self.by_bytes.get(&delivered.frame)).copied()
    }
}

/// The steps as lines; frames that nobody writes now are left out, and deliveries of these alone.
fn rendered(steps: Steps) -> (Steps, Vec<Vec<u8>>) {
    let mut simulation = Simulation::new();
    let mut from_cab = Places::default();
    let mut from_office = Places::default();
    let mut kept = Vec::new();
    let mut lines = Vec::new();
    for (id, step) in steps {
        let line = match &step {
            Step::Line(line) => Some(line.clone()),
            Step::Delivery(delivery) => {
                let places = if delivery.way.to_box() {
                    &from_office
                } else {
                    &from_cab
                };
                let found = delivery.frames.iter().filter_map(|frame| places.find(frame));
                let indexes: Vec<String> = found.map(|index| index.to_string()).collect();
                let lost = indexes.is_empty() && !delivery.frames.is_empty();
                (!lost).then(|| carrying(&delivery.way, &indexes.join(" ")))
            }
        };
        let Some(line) = line else {
            continue;
        };
        simulation.line(&line);
        from_cab.note(id, simulation.from_cab());
        from_office.note(id, simulation.from_offices());
        kept.push((id, step));
        lines.push(line);
    }
    (kept, lines)
}

fn carrying(way: &Way, indexes: &str) -> Vec<u8> {
    let line = match way {
        Way::ToBox => format!("to-box {indexes}"),
        Way::ToOffice => format!("to-office {indexes}"),
        Way::ToBoxAll(behind) => format!("to-box-all {indexes}{behind}"),
        Way::PiecesBox(length) => format!("pieces-box {indexes} {length}"),
        Way::PiecesOffice(length) => format!("pieces-office {indexes} {length}"),
    };
    line.into()
}
