//! The times of a call, as lines that `measure` reads.

use std::hint::black_box;
use std::time::{Duration, Instant};

use reference::lookup::{COMMANDS, ROUND, STREAM, STREAM_ROUNDS, Times, commands_with_rows, shuffle};
use reference::rng::Rng;

use crate::Lookup;

struct Timed {
    name: &'static str,
    function: Lookup,
    times: Times,
    /// Nanoseconds a call in each round of each command byte.
    rounds: Vec<Vec<f64>>,
    /// The sum of the answers; it is printed, so that no call can be left out.
    sum: u64,
}

pub fn lines<const N: usize>(functions: [(&'static str, Lookup); N], calls: u64) -> String {
    let mut timed = functions.map(|(name, function)| Timed::new(name, function));
    time_bytes(&mut timed, calls);
    let all: Vec<u8> = (0..=u8::MAX).collect();
    for (place, commands) in [all, commands_with_rows()].iter().enumerate() {
        time_stream(&mut timed, place, commands);
    }
    let lines = timed.iter().map(|timed| timed.times.lines(timed.name));
    let sum = timed
        .iter()
        .fold(0, |sum: u64, timed| sum.wrapping_add(timed.sum));
    format!("{}sum {sum}\n", lines.collect::<String>())
}

/// So many calls of each byte. Rounds are short and the bytes in another order in each, so that what
/// disturbs the machine for a while meets all of them alike.
fn time_bytes(timed: &mut [Timed], calls: u64) {
    let mut rng = Rng::new(1, 0);
    let mut commands: Vec<u8> = (0..=u8::MAX).collect();
    let mut left = calls;
    while left > 0 {
        let count = left.min(ROUND);
        shuffle(&mut commands, &mut rng);
        for command in &commands {
            for timed in &mut *timed {
                timed.time_byte(*command, count);
            }
        }
        left -= count;
        // Who goes first alternates.
        timed.reverse();
    }
    for timed in timed {
        timed.sum_up(calls);
    }
}

fn time_stream(timed: &mut [Timed], place: usize, commands: &[u8]) {
    let mut rng = Rng::new(2, place as u64);
    let stream: Vec<u8> = (0..STREAM).map(|_| rng.pick(commands)).collect();
    for _ in 0..STREAM_ROUNDS {
        for timed in &mut *timed {
            timed.time_stream(place, &stream);
        }
        timed.reverse();
    }
}

impl Timed {
    fn new(name: &'static str, function: Lookup) -> Timed {
        let times = Times {
            best: vec![f64::INFINITY; COMMANDS],
            median: vec![0.0; COMMANDS],
            total: vec![0.0; COMMANDS],
            streams: [f64::INFINITY; 2],
        };
        Timed {
            name,
            function,
            times,
            rounds: vec![Vec::new(); COMMANDS],
            sum: 0,
        }
    }

    fn time_byte(&mut self, command: u8, count: u64) {
        let took = self.timed(|function| repeated(function, command, count));
        let nanoseconds = took.as_nanos() as f64;
        let place = usize::from(command);
        self.times.total[place] += nanoseconds;
        self.rounds[place].push(nanoseconds / count as f64);
    }

    fn sum_up(&mut self, calls: u64) {
        for (place, rounds) in self.rounds.iter_mut().enumerate() {
            rounds.sort_by(f64::total_cmp);
            self.times.best[place] = rounds[0];
            self.times.median[place] = rounds[rounds.len() / 2];
            self.times.total[place] /= calls as f64;
        }
    }

    fn time_stream(&mut self, place: usize, stream: &[u8]) {
        let took = self.timed(|function| in_turn(function, stream));
        let nanoseconds = took.as_nanos() as f64 / stream.len() as f64;
        self.times.streams[place] = self.times.streams[place].min(nanoseconds);
    }

    fn timed(&mut self, calls: impl FnOnce(Lookup) -> u64) -> Duration {
        let begin = Instant::now();
        let sum = calls(self.function);
        let took = begin.elapsed();
        self.sum = self.sum.wrapping_add(sum);
        took
    }
}

// Each of these loops is there once, for all functions: its own cost and its place are the same for each.

#[inline(never)]
fn repeated(function: Lookup, command: u8, count: u64) -> u64 {
    let function = black_box(function);
    (0..count).fold(0, |sum, _| sum.wrapping_add(function(black_box(command)).into()))
}

#[inline(never)]
fn in_turn(function: Lookup, stream: &[u8]) -> u64 {
    let function = black_box(function);
    let answers = stream.iter().map(|command| function(black_box(*command)));
    answers.fold(0, |sum, answer| sum.wrapping_add(answer.into()))
}
