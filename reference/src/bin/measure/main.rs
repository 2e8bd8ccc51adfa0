//! `measure PROGRAMS_DIR`: another implementation's `bench` and `simulate`, measured. The bus is
//! compared with `plain`, the controller written for speed in document 01's forms; starts and a session,
//! order by order and by pages, with the reference; then its lookup of a command byte, which
//! `measure lookup [CALLS]` measures alone.
//!
//! A program is PROGRAMS_DIR/NAME or, where that is a folder, PROGRAMS_DIR/NAME/out/NAME.

#![forbid(unsafe_code)]

mod input;
mod lookup;
mod run;
mod table;

use std::ffi::OsString;
use std::num::NonZeroU64;
use std::path::{Path, PathBuf};
use std::process::ExitCode;
use std::{env, fs, io, thread};

use reference::lookup::CALLS;

use input::{Input, ORDERS, PAGE};
use table::Table;

/// Short runs, and many: where other work disturbs most of them, some are left alone.
const ROUNDS: usize = 101;
const TIMED_BYTES: usize = 4_000_000;
const SESSION_ROUNDS: usize = 7;
const COUNTED_BYTES: usize = 100_000;
/// The columns that get a ratio to `plain`.
const COMPARED: [&str; 3] = ["bench", "bench_shared", "reference"];

enum Failure {
    Differ(String),
    Run { path: PathBuf, error: io::Error },
}

enum Task {
    All(PathBuf),
    /// With so many calls of each command byte.
    Lookup(NonZeroU64),
}

fn main() -> ExitCode {
    let arguments: Vec<_> = env::args_os().skip(1).collect();
    let Some(task) = task(&arguments) else {
        eprintln!("usage: measure PROGRAMS_DIR | measure lookup [CALLS]");
        eprintln!("a program is PROGRAMS_DIR/NAME or PROGRAMS_DIR/NAME/out/NAME");
        return ExitCode::from(2);
    };
    let ours = match env::current_exe() {
        Ok(path) => path.with_file_name(""),
        Err(error) => {
            eprintln!("measure: where it stands itself: {error}");
            return ExitCode::from(2);
        }
    };
    let done = match task {
        Task::All(others) => measure(&others, &ours),
        Task::Lookup(calls) => lookup_alone(&ours, calls),
    };
    match done {
        Ok(()) => ExitCode::SUCCESS,
        Err(Failure::Differ(what)) => {
            println!("{what}");
            ExitCode::from(1)
        }
        Err(Failure::Run { path, error }) => {
            eprintln!("measure: {}: {error}", path.display());
            ExitCode::from(2)
        }
    }
}

fn task(arguments: &[OsString]) -> Option<Task> {
    match arguments {
        [word] if word == "lookup" => Some(Task::Lookup(CALLS)),
        [word, calls] if word == "lookup" => calls.to_str()?.parse().ok().map(Task::Lookup),
        [others] => Some(Task::All(others.into())),
        _ => None,
    }
}

fn measure(others: &Path, ours: &Path) -> Result<(), Failure> {
    let benches = [program(others, "bench")?, program(ours, "bench")?];
    let simulates = [program(others, "simulate")?, program(ours, "simulate")?];
    let [other, reference] = benches.clone();
    let mut on_bus = vec![other];
    on_bus.extend(program(others, "bench_shared").ok());
    on_bus.extend([reference, program(ours, "plain")?]);

    println!("{}", machine());
    println!("Times: wall clock, whole processes, spawn to exit, fed from a file; best of {ROUNDS} rounds,");
    println!("of {SESSION_ROUNDS} for a session, all programs in turn within each round.");
    println!();
    bus(&on_bus)?;
    println!();
    starts_and_sessions(&benches, &simulates)?;
    println!();
    lookup::lookup(ours, CALLS)?;
    println!();
    println!("All outputs were equal, byte for byte.");
    Ok(())
}

fn lookup_alone(ours: &Path, calls: NonZeroU64) -> Result<(), Failure> {
    println!("{}", machine());
    println!();
    lookup::lookup(ours, calls)
}

/// Beside the others, or at `out` in a folder of its own name.
fn program(folder: &Path, name: &str) -> Result<PathBuf, Failure> {
    let mut path = folder.join(name);
    if path.is_dir() {
        path.extend(["out", name]);
    }
    match fs::metadata(&path) {
        Ok(_) => Ok(path),
        Err(error) => Err(Failure::Run { path, error }),
    }
}

fn machine() -> String {
    let processors = fs::read_to_string("/proc/cpuinfo").unwrap_or_default();
    let model = processors
        .lines()
        .find_map(|line| line.strip_prefix("model name")?.split_once(':'))
        .map_or("unknown processor", |(_, model)| model.trim());
    let cores = thread::available_parallelism().map_or_else(|_| "?".to_string(), |cores| cores.to_string());
    let kernel = fs::read_to_string("/proc/sys/kernel/osrelease").unwrap_or_default();
    format!("{model}, cores: {cores}, kernel {}", kernel.trim())
}

/// The programs are the other implementation's `bench` and, if it has one, its `bench_shared`, then
/// the reference's `bench`, then the baseline.
fn bus(programs: &[PathBuf]) -> Result<(), Failure> {
    let timed = input::traffic(TIMED_BYTES)?;
    for (kind, input) in &timed {
        run::check_equal(kind, programs, input)?;
    }
    println!(
        "Bytes through the controller on the bus, output to /dev/null. bench and bench_shared are the other"
    );
    println!("implementation's; ratios are to plain.");
    println!();
    let table = bus_table("ns/byte");
    for (kind, input) in &timed {
        let best = run::best_times(programs, ROUNDS, |path| run::timed(path, input, None))?;
        let figures = best.iter().map(|time| time.as_secs_f64() * 1e9 / input.length());
        table.row(&bus_row(kind, figures.collect()));
    }

    println!();
    if !run::has_valgrind() {
        println!("Instructions were not counted: no valgrind on the PATH.");
        return Ok(());
    }
    println!("Instructions for the same traffic, counted by valgrind; ratios are to plain.");
    println!();
    let table = bus_table("instr/byte");
    let idle = run::instructions(programs, &Input::of(&[])?)?;
    for (kind, input) in &input::traffic(COUNTED_BYTES)? {
        let counts = run::instructions(programs, input)?;
        let figures = counts
            .iter()
            .zip(&idle)
            .map(|(count, idle)| (count - idle) / input.length());
        table.row(&bus_row(kind, figures.collect()));
    }
    Ok(())
}

fn bus_table(unit: &str) -> Table {
    let mut headings = vec![format!("{:<19}", "traffic")];
    for name in COMPARED {
        headings.extend([format!("{name}, {unit}"), "ratio".to_string()]);
    }
    headings.push(format!("plain, {unit}"));
    Table::headed(&headings)
}

/// The figures in the order of the programs.
fn bus_row(kind: &str, mut figures: Vec<f64>) -> Vec<String> {
    let plain = figures.pop().expect("the baseline is always there");
    let mut row = vec![kind.to_string()];
    for figure in &figures {
        row.extend([format!("{figure:.2}"), format!("{:.2}", figure / plain)]);
    }
    if figures.len() < COMPARED.len() {
        row.splice(3..3, ["absent".to_string(), "-".to_string()]);
    }
    row.push(format!("{plain:.2}"));
    row
}

fn starts_and_sessions(benches: &[PathBuf], simulates: &[PathBuf]) -> Result<(), Failure> {
    println!("Starts and sessions, output through a pipe; ratios are of times, other / reference.");
    println!();
    let what = format!("{:<46}", "what");
    let table = Table::headed(&[&what, "other implementation", "reference", "ratio"].map(String::from));
    let row = |what: &str, programs, input: &Input, rounds, told: fn(f64) -> String| {
        run::check_equal(what, programs, input)?;
        let mut output = Vec::new();
        let best = run::best_times(programs, rounds, |path| {
            run::timed(path, input, Some(&mut output))
        })?;
        let [other, reference] = [best[0].as_secs_f64(), best[1].as_secs_f64()];
        let ratio = format!("{:.2}", other / reference);
        table.row(&[what.to_string(), told(other), told(reference), ratio]);
        Ok(())
    };
    let nothing = Input::of(&[])?;
    let start = |what, programs| {
        row(what, programs, &nothing, ROUNDS, |seconds| {
            format!("{:.2}", seconds * 1000.0)
        })
    };
    start("start of bench, empty input, ms", benches)?;
    start("start of simulate, empty input, ms", simulates)?;
    let orders = "orders through a session of simulate, orders/s";
    let pages = format!("the same orders, {PAGE} at once, orders/s");
    for (what, input) in [(orders, input::session()?), (&pages, input::session_by_pages()?)] {
        row(what, simulates, &input, SESSION_ROUNDS, |seconds| {
            format!("{:.0}", ORDERS as f64 / seconds)
        })?;
    }
    Ok(())
}
