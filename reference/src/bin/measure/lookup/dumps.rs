//! The instructions of single calls: callgrind writes a dump after each call of the functions.

use std::fs;
use std::path::{Path, PathBuf};
use std::process::Command;
use std::{env, io, process};

use reference::lookup::COMMANDS;

/// Of one call for each command byte, by each of the functions.
pub fn instructions(path: &Path, symbols: &[&str]) -> io::Result<Vec<Vec<f64>>> {
    let folder = Folder::new()?;
    run(path, symbols, &folder.0)?;
    let calls = calls(&folder.0)?;
    symbols.iter().map(|symbol| counts(&calls, symbol)).collect()
}

/// Of its own, and removed however the count ends.
struct Folder(PathBuf);

impl Folder {
    fn new() -> io::Result<Folder> {
        let path = env::temp_dir().join(format!("measure-lookup-{}", process::id()));
        match fs::create_dir(&path) {
            Ok(()) => Ok(Folder(path)),
            Err(error) => Err(io::Error::other(format!("{}: {error}", path.display()))),
        }
    }
}

impl Drop for Folder {
    fn drop(&mut self) {
        // What cannot be removed is no reason to lose the figures.
        let _ = fs::remove_dir_all(&self.0);
    }
}

/// Names are written in full, which the dumps else have only at their first place.
fn run(path: &Path, symbols: &[&str], folder: &Path) -> io::Result<()> {
    let output = Command::new("valgrind")
        .args([
            "--tool=callgrind",
            "--callgrind-out-file=dump",
            "--compress-strings=no",
        ])
        .args(symbols.iter().map(|symbol| format!("--dump-after={symbol}")))
        .arg(path)
        .arg("once")
        .current_dir(folder)
        .output()?;
    if output.status.success() {
        Ok(())
    } else {
        Err(io::Error::other(format!("under valgrind: {}", output.status)))
    }
}

#[derive(Debug, PartialEq)]
pub struct Call {
    /// Dumps are numbered in the order in which they were written.
    pub part: usize,
    pub symbol: String,
    pub instructions: f64,
}

fn calls(folder: &Path) -> io::Result<Vec<Call>> {
    let mut calls = Vec::new();
    for entry in fs::read_dir(folder)? {
        let dump = fs::read(entry?.path())?;
        calls.extend(call(&String::from_utf8_lossy(&dump)));
    }
    calls.sort_by_key(|call| call.part);
    Ok(calls)
}

/// The call after which the dump was written; none if that was for another reason. The dump's own sum
/// has the caller's instructions since the last dump in it too, the line of the call only those inside.
pub fn call(dump: &str) -> Option<Call> {
    let behind = |start: &str| dump.lines().find_map(|line| line.strip_prefix(start));
    let part = behind("part: ")?.trim().parse().ok()?;
    let symbol = behind("desc: Trigger: --dump-after=")?;
    let mut lines = dump.lines();
    lines.find(|line| line.strip_prefix("cfn=") == Some(symbol))?;
    let once = lines.next()?.starts_with("calls=1 ");
    let instructions = lines.next()?.split(' ').next_back()?.parse().ok()?;
    once.then(|| Call {
        part,
        symbol: symbol.to_string(),
        instructions,
    })
}

/// In the order of the command bytes, which is that of the calls.
pub fn counts(calls: &[Call], symbol: &str) -> io::Result<Vec<f64>> {
    let own = calls.iter().filter(|call| call.symbol == symbol);
    let counts: Vec<f64> = own.map(|call| call.instructions).collect();
    if counts.len() == COMMANDS {
        return Ok(counts);
    }
    let told = counts.len();
    Err(io::Error::other(format!(
        "valgrind told of {told} calls of {symbol}, not of {COMMANDS}"
    )))
}
