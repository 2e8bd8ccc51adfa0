//! Random scripts, each made against a running reference so that its frames are met.

mod batches;
mod bus;
mod faulty;
mod hostile;
mod link;
mod longest;
mod offices;
mod pieces;
mod runs;
mod stream;
mod trim;

use std::array;
use std::collections::BTreeSet;

use reference::link::End;
use reference::office::Office;
use reference::rng::Rng;
use reference::script::{Answer, OFFICES, Simulation};

use crate::lines;

pub use longest::{longest_by_pages, longest_session};

pub struct Script {
    pub lines: Vec<Vec<u8>>,
    /// Lines with an answer.
    pub calls: usize,
    /// Whether demand 3's list allows all of it.
    pub allowed: bool,
    pub final_newline: bool,
}

#[derive(Clone, Copy, PartialEq)]
enum Kind {
    Allowed,
    Hostile,
    Bench,
    Mixed,
}

/// How the link behaves for a while.
#[derive(Clone, Copy)]
enum Pace {
    Smooth,
    Burst,
    Storm,
    Deaf,
}

fn word(end: End) -> &'static str {
    match end {
        End::Box => "box",
        End::Office => "office",
    }
}

struct Generator {
    rng: Rng,
    simulation: Simulation,
    lines: Vec<Vec<u8>>,
    calls: usize,
    wanted: usize,
    kind: Kind,
    pace: Pace,
    /// How many offices take part, and the place of the first; now and then a line chooses another.
    offices: usize,
    first_office: usize,
    opened: BTreeSet<u32>,
    box_had: u64,
    office_had: [u64; OFFICES],
    /// What is still to come of a wrapped frame that an end's receiver has in part.
    rest_for_box: Vec<u8>,
    rest_for_office: [Vec<u8>; OFFICES],
}

pub fn script(mut rng: Rng, calls: usize) -> Script {
    let kind = [Kind::Allowed, Kind::Hostile, Kind::Bench, Kind::Mixed][rng.weighted(&[40, 36, 12, 12])];
    let final_newline = !rng.chance(20);
    let mut generator = Generator::new(rng, kind, calls);
    generator.offices = generator.office_count();
    if generator.offices > 1 && generator.rng.chance(50) {
        generator.first_office = generator.rng.below(OFFICES);
    }
    let mut pace_left = 0;
    while generator.calls < calls {
        if pace_left == 0 {
            pace_left = generator.rng.between(20, 200);
            generator.pace = [Pace::Smooth, Pace::Burst, Pace::Storm, Pace::Deaf]
                [generator.rng.weighted(&[50, 20, 25, 5])];
        }
        pace_left -= 1;
        generator.step();
    }
    generator.finish(final_newline)
}

impl Generator {
    fn new(rng: Rng, kind: Kind, wanted: usize) -> Generator {
        Generator {
            rng,
            simulation: Simulation::new(),
            lines: Vec::new(),
            calls: 0,
            wanted,
            kind,
            pace: Pace::Smooth,
            offices: 1,
            first_office: 0,
            opened: BTreeSet::new(),
            box_had: 0,
            office_had: [0; OFFICES],
            rest_for_box: Vec::new(),
            rest_for_office: array::from_fn(|_| Vec::new()),
        }
    }

    fn finish(self, final_newline: bool) -> Script {
        Script {
            lines: self.lines,
            calls: self.calls,
            allowed: self.kind == Kind::Allowed,
            final_newline,
        }
    }

    fn emit(&mut self, line: impl Into<Vec<u8>>) -> Option<Answer> {
        let line = line.into();
        let answer = self.simulation.line(&line);
        self.calls += usize::from(answer.is_some());
        self.lines.push(line);
        answer
    }

    fn step(&mut self) {
        let weights = match self.kind {
            Kind::Allowed => [76, 0, 13, 3, 2, 3, 2, 0, 0, 1, 0],
            Kind::Hostile => [40, 9, 10, 3, 2, 3, 2, 7, 22, 2, 7],
            Kind::Bench => [0, 0, 4, 46, 17, 4, 26, 0, 0, 3, 0],
            Kind::Mixed => [24, 6, 10, 11, 10, 14, 8, 5, 10, 2, 4],
        };
        match self.rng.weighted(&weights) {
            0 => self.link(),
            1 => self.hostile(),
            2 => {
                let line = self.rng.pick(&["show", "describe"]);
                self.emit(line);
            }
            3 => self.bench(),
            4 => self.tools(),
            6 => self.stream(),
            7 => self.hostile_stream(),
            8 => self.faulty(),
            10 => self.hostile_run(),
            9 => {
                let line = lines::explain(&mut self.rng);
                self.emit(line);
            }
            _ => {
                let line = lines::odd(&mut self.rng);
                self.emit(line);
            }
        }
    }

    /// The session numbers at work: that of the office in use, the box's, and the one after those of all.
    fn sessions(&self) -> (u32, u32, u32) {
        let office = self.simulation.office().progress().map_or(0, |now| now.session);
        let highest = self.simulation.cab().highest();
        let all = self.simulation.offices().filter_map(Office::progress);
        let last = all.map(|now| now.session).fold(highest, u32::max);
        (office, highest, last.saturating_add(1))
    }
}
