//! What `lookup` and `measure` share: the answers that a lookup of a command byte must give, the order
//! in which the bytes are timed, and the lines that tell the times.

use std::fmt::Write;
use std::num::NonZeroU64;

use crate::packet::Way;
use crate::rng::Rng;

pub const COMMANDS: usize = 256;
/// The calls of each command byte that are timed where no other number is asked for.
pub const CALLS: NonZeroU64 = NonZeroU64::new(1_000_000).unwrap();
/// The calls of one command byte in a round, except in a last round that is shorter.
pub const ROUND: u64 = 1000;
pub const STREAM: usize = 65_536;
pub const STREAM_ROUNDS: usize = 100;

/// The registers of documents 01 and 02 in the order of their IDs: ID, name, whether it can be written,
/// data count, when its commands are available. All can be read.
const ROWS: [(u8, &str, bool, u8, Right); 15] = [
    (0x00, "backlight", true, 2, Right::MasterOn),
    (0x01, "master", true, 1, Right::Always),
    (0x02, "park", true, 1, Right::MasterOn),
    (0x25, "splash mode", true, 1, Right::MasterOn),
    (0x26, "drive strength", true, 1, Right::MasterOn),
    (0x27, "heater", true, 3, Right::MasterOn),
    (0x28, "bezel", true, 6, Right::MasterOn),
    (0x33, "status", false, 4, Right::MasterOn),
    (0x53, "test pixels", true, 8, Right::MasterOn),
    (0x64, "calibration mode", true, 1, Right::MasterOn),
    (0x65, "red level", true, 2, Right::Calibration),
    (0x66, "green level", true, 2, Right::Calibration),
    (0x67, "blue level", true, 2, Right::Calibration),
    (0x68, "current limit", true, 2, Right::Calibration),
    (0x69, "sensor gain", true, 1, Right::Calibration),
];

/// When a register's commands are available.
#[derive(Clone, Copy)]
enum Right {
    Always,
    MasterOn,
    /// While master is on, and writes in calibration mode only.
    Calibration,
}

const WRITTEN: u32 = 0x1000;
const WITH_MASTER_OFF: u32 = 0x2000;
const IN_CALIBRATION_ONLY: u32 = 0x4000;
/// The lowest bit that no row sets.
const ABOVE: u32 = 0x8000;

/// The row of the command byte's ID in one number, or 0 if it has none.
pub fn expected(command: u8) -> u32 {
    let Some(number) = ROWS.iter().position(|row| row.0 == command / 2) else {
        return 0;
    };
    let (_, _, written, count, right) = ROWS[number];
    let ways = if written { WRITTEN } else { 0 };
    let right = match right {
        Right::Always => WITH_MASTER_OFF,
        Right::MasterOn => 0,
        Right::Calibration => IN_CALIBRATION_ONLY,
    };
    u32::from(count) + 0x100 * number as u32 + ways + right
}

/// The command bytes whose ID has a row, writes of what cannot be written included.
pub fn commands_with_rows() -> Vec<u8> {
    let commands = 0..=u8::MAX;
    commands.filter(|command| expected(*command) != 0).collect()
}

pub fn in_words(answer: u32) -> String {
    if answer == 0 {
        return "no row".to_string();
    }
    let number = answer >> 8 & 0xF;
    let register = match ROWS.get(number as usize) {
        Some((id, name, ..)) => format!("{id:02X}h {name}"),
        None => format!("a register number {number}, which is none"),
    };
    let ways = match answer & WRITTEN {
        0 => "read only",
        _ => "written and read",
    };
    let count = match answer & 0xFF {
        1 => "1 data byte".to_string(),
        count => format!("{count} data bytes"),
    };
    let mode = match answer & WITH_MASTER_OFF {
        0 => "not available while master is off",
        _ => "available while master is off",
    };
    let calibration = match answer & IN_CALIBRATION_ONLY {
        0 => "",
        _ => ", written in calibration mode only",
    };
    let rest = if answer < ABOVE {
        ""
    } else {
        ", and bits above these"
    };
    format!("{register}, {ways}, {count}, {mode}{calibration}{rest}")
}

/// Both answers and the expected one, if they are not all the same.
pub fn difference(command: u8, by_table: u32, by_match: u32) -> Option<String> {
    let expected = expected(command);
    if [by_table, by_match] == [expected; 2] {
        return None;
    }
    let way = match Way::of_command(command) {
        Way::Write => "write",
        Way::Read => "read",
    };
    let mut told = format!("command byte {command:02X}h, a {way} of ID {:02X}h:", command / 2);
    for (who, answer) in [
        ("by table", by_table),
        ("by match", by_match),
        ("expected", expected),
    ] {
        write!(told, "\n  {who}  {answer:04X}h  {}", in_words(answer)).expect("room in a string");
    }
    Some(told)
}

/// All orders are equally likely.
pub fn shuffle(commands: &mut [u8], rng: &mut Rng) {
    for last in (1..commands.len()).rev() {
        commands.swap(rng.below(last + 1), last);
    }
}

/// Nanoseconds a call of one function.
#[derive(Clone, Debug, Default, PartialEq)]
pub struct Times {
    /// For each command byte, in its best round.
    pub best: Vec<f64>,
    /// For each command byte, in the round in the middle of all by their times.
    pub median: Vec<f64>,
    /// For each command byte, over all rounds.
    pub total: Vec<f64>,
    /// In the stream of all command bytes, and in that of the ones whose ID has a row.
    pub streams: [f64; 2],
}

impl Times {
    pub fn lines(&self, name: &str) -> String {
        let mut lines = String::new();
        let rounds = self.best.iter().zip(&self.median);
        for (command, ((best, median), total)) in rounds.zip(&self.total).enumerate() {
            writeln!(
                lines,
                "{name} byte {command:02X} best {best:.4} median {median:.4} total {total:.4}"
            )
            .expect("room in a string");
        }
        let [all, rows] = self.streams;
        writeln!(lines, "{name} streams {all:.4} {rows:.4}").expect("room in a string");
        lines
    }

    /// The times of the function of that name, among the lines of others. None if one is missing.
    pub fn of_lines(name: &str, lines: &str) -> Option<Times> {
        let mut times = Times::default();
        for line in lines.lines() {
            let words: Vec<&str> = line.split(' ').collect();
            match words[..] {
                [
                    of,
                    "byte",
                    command,
                    "best",
                    best,
                    "median",
                    median,
                    "total",
                    total,
                ] if of == name => {
                    if command != format!("{:02X}", times.best.len()) {
                        return None;
                    }
                    times.best.push(figure(best)?);
                    times.median.push(figure(median)?);
                    times.total.push(figure(total)?);
                }
                [of, "streams", all, rows] if of == name => {
                    times.streams = [figure(all)?, figure(rows)?];
                    return (times.best.len() == COMMANDS).then_some(times);
                }
                _ => {}
            }
        }
        None
    }
}

fn figure(word: &str) -> Option<f64> {
    word.parse().ok().filter(|figure: &f64| figure.is_finite())
}
