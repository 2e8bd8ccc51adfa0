//! The other implementation's lookup of a command byte, by the program `lookup`, which has it from the
//! library: its answers, the times of a call, and its instructions.

mod dumps;
#[cfg(test)]
mod tests;

use std::io;
use std::num::NonZeroU64;
use std::path::Path;
use std::process::{Command, Output, Stdio};

use reference::lookup::{ROUND, STREAM, STREAM_ROUNDS, Times, commands_with_rows};

use crate::Failure;
use crate::run;
use crate::table::Table;

/// Their names in the lines of `lookup time`, and here.
const TIMED: [(&str, &str); 3] = [
    ("match", "before, by match"),
    ("table", "by table"),
    ("empty", "empty function"),
];
/// Their symbols in the library, and their names here.
const COUNTED: [(&str, &str); 2] = [
    ("puoskenda_lookup_by_match", "before, by match"),
    ("puoskenda_lookup", "by table"),
];

/// Nothing is wrong if the folder has no such program: it needs a library to be built.
pub fn lookup(folder: &Path, calls: NonZeroU64) -> Result<(), Failure> {
    let path = folder.join("lookup");
    if !path.exists() {
        println!(
            "Lookup not measured: with its library there, cargo build --release --features lookup builds it."
        );
        return Ok(());
    }
    println!("{}", checked(&path)?);
    println!();
    print_times(&times(&path, calls)?, calls);
    println!();
    instructions(&path)
}

/// What `lookup check` says where all answers are equal.
fn checked(path: &Path) -> Result<String, Failure> {
    let output = run_lookup(path, &["check"])?;
    let told = String::from_utf8_lossy(&output.stdout).trim_end().to_string();
    match output.status.code() {
        Some(0) => Ok(told),
        Some(1) => Err(Failure::Differ(told)),
        _ => Err(failed(path, io::Error::other(output.status.to_string()))),
    }
}

fn run_lookup(path: &Path, arguments: &[&str]) -> Result<Output, Failure> {
    let mut command = Command::new(path);
    command.args(arguments).stderr(Stdio::inherit());
    command.output().map_err(|error| failed(path, error))
}

fn failed(path: &Path, error: io::Error) -> Failure {
    Failure::Run {
        path: path.to_path_buf(),
        error,
    }
}

fn times(path: &Path, calls: NonZeroU64) -> Result<Vec<(&'static str, Times)>, Failure> {
    let output = run_lookup(path, &["time", &calls.to_string()])?;
    if !output.status.success() {
        return Err(failed(path, io::Error::other(output.status.to_string())));
    }
    let lines = String::from_utf8_lossy(&output.stdout);
    let read = |(name, row)| match Times::of_lines(name, &lines) {
        Some(times) => Ok((row, times)),
        None => Err(failed(path, io::Error::other(format!("no times of {name}")))),
    };
    TIMED.into_iter().map(read).collect()
}

fn print_times(timed: &[(&str, Times)], calls: NonZeroU64) {
    let round = ROUND.min(calls.get());
    let rows = commands_with_rows().len();
    println!("Calls of the lookup of a command byte through the C ABI, {calls} for each of the 256,");
    println!("in rounds of {round} of one byte, the bytes shuffled anew in each, the functions in turn.");
    println!("Mixed: {STREAM} bytes in random order, of all and of the {rows} whose ID has a row, best of");
    println!("{STREAM_ROUNDS} rounds. All times have the loop and the call in them: see the empty function,");
    println!("where any ratio above 1 is the machine's doing.");
    println!();
    times_table(timed);
    println!();
    for (row, times) in timed {
        let [best, median] = [&times.best, &times.median].map(|figures| ends(figures, "fastest", "slowest"));
        println!("{row}: {best} in the best rounds; {median} in the median rounds.");
    }
}

fn times_table(timed: &[(&str, Times)]) {
    let headings = [
        "ns a call       ",
        "best rounds: fastest byte",
        "slowest",
        "ratio",
        "median rounds: fastest",
        "slowest",
        "ratio",
        "totals: fastest",
        "slowest",
        "ratio",
        "all mixed",
        &format!("{} mixed", commands_with_rows().len()),
    ];
    let table = Table::headed(&headings.map(String::from));
    for (row, times) in timed {
        let mut figures = Vec::new();
        for of_bytes in [&times.best, &times.median, &times.total] {
            let (least, most) = (least(of_bytes), most(of_bytes));
            figures.extend([least, most, most / least]);
        }
        figures.extend(times.streams);
        let mut cells = vec![row.to_string()];
        cells.extend(figures.iter().map(|figure| format!("{figure:.2}")));
        table.row(&cells);
    }
}

fn instructions(path: &Path) -> Result<(), Failure> {
    if !run::has_valgrind() {
        println!("Instructions of the lookup were not counted: no valgrind on the PATH.");
        return Ok(());
    }
    let symbols = COUNTED.map(|(symbol, _)| symbol);
    let counts = dumps::instructions(path, &symbols).map_err(|error| failed(path, error))?;
    println!("Instructions inside one call for each command byte, its return included, counted by valgrind.");
    println!();
    let headings = ["instructions    ", "fewest", "most", "ratio", "sum of 256"];
    let table = Table::headed(&headings.map(String::from));
    for ((_, row), counts) in COUNTED.iter().zip(&counts) {
        let (least, most) = (least(counts), most(counts));
        let sum: f64 = counts.iter().sum();
        let mut cells = vec![row.to_string(), least.to_string(), most.to_string()];
        cells.extend([format!("{:.2}", most / least), sum.to_string()]);
        table.row(&cells);
    }
    println!();
    for ((_, row), counts) in COUNTED.iter().zip(&counts) {
        println!("{row}: {}.", ends(counts, "fewest", "most"));
    }
    Ok(())
}

fn least(figures: &[f64]) -> f64 {
    figures.iter().copied().fold(f64::INFINITY, f64::min)
}

fn most(figures: &[f64]) -> f64 {
    figures.iter().copied().fold(0.0, f64::max)
}

/// The command bytes that have the least figure and the greatest.
fn ends(figures: &[f64], least_word: &str, most_word: &str) -> String {
    let [least, most] = [least(figures), most(figures)].map(|figure| bytes_at(figures, figure));
    format!("{least_word} at {least}, {most_word} at {most}")
}

/// The first command byte that has the figure, and how many more have it.
fn bytes_at(figures: &[f64], wanted: f64) -> String {
    let mut places = (0..figures.len()).filter(|place| figures[*place] == wanted);
    let first = places
        .next()
        .map_or("none".to_string(), |place| format!("{place:02X}h"));
    match places.count() {
        0 => first,
        more => format!("{first} and {more} more"),
    }
}
