//! `compare PROGRAM [CALLS [SEED]]`: random scripts, answered by another `simulate`
//! and by the reference, line against line.

#![forbid(unsafe_code)]

mod check;
mod damage;
mod frames;
mod generate;
mod lines;
mod run;
mod shrink;
#[cfg(test)]
mod tests;

use std::env;
use std::fs;
use std::io;
use std::iter;
use std::path::{Path, PathBuf};
use std::process::ExitCode;

use reference::rng::Rng;

use generate::Script;

const CALLS: usize = 200_000;
const SEED: u64 = 1;
/// From this many calls on, two sessions of 65535 orders are run besides.
const ENOUGH_FOR_LONGEST: usize = 100_000;
const MOST_PRINTED: usize = 1000;

fn main() -> ExitCode {
    let Some((program, calls, seed)) = arguments() else {
        eprintln!("usage: compare PROGRAM [CALLS [SEED]]");
        return ExitCode::from(2);
    };
    match compare(&program, calls, seed) {
        Ok(Some(compared)) => {
            println!("{compared} calls compared, 0 differences");
            ExitCode::SUCCESS
        }
        Ok(None) => ExitCode::FAILURE,
        Err(error) => {
            eprintln!("{}: {error}", program.display());
            ExitCode::from(2)
        }
    }
}

fn arguments() -> Option<(PathBuf, usize, u64)> {
    let mut arguments = env::args_os().skip(1);
    let program = arguments.next()?.into();
    let mut number = |default: u64| match arguments.next() {
        Some(text) => text.to_str()?.parse().ok(),
        None => Some(default),
    };
    let calls = number(CALLS as u64)? as usize;
    let seed = number(SEED)?;
    arguments.next().is_none().then_some((program, calls, seed))
}

/// The scripts of a run, each with its number.
fn scripts(calls: usize, seed: u64) -> impl Iterator<Item = (u64, Script)> {
    let mut made = 0;
    let mut number = 0;
    iter::from_fn(move || {
        if made >= calls {
            return None;
        }
        number += 1;
        let mut rng = Rng::new(seed, number);
        let length = rng.between(2000, 5000).min(calls - made);
        let script = generate::script(rng, length);
        made += script.calls;
        Some((number, script))
    })
}

/// The number of calls compared, or none once a difference has been printed.
fn compare(program: &Path, calls: usize, seed: u64) -> io::Result<Option<usize>> {
    let mut compared = 0;
    for (number, script) in scripts(calls, seed) {
        compared += script.calls;
        if !agrees(program, &script, &format!("script {number} of seed {seed}"))? {
            return Ok(None);
        }
    }
    if calls >= ENOUGH_FOR_LONGEST {
        for (script, name) in [
            (generate::longest_session(Rng::new(seed, 0)), "longest session"),
            (
                generate::longest_by_pages(Rng::new(seed, 0)),
                "longest session by pages",
            ),
        ] {
            compared += script.calls;
            if !agrees(program, &script, &format!("{name} of seed {seed}"))? {
                return Ok(None);
            }
        }
    }
    Ok(Some(compared))
}

fn agrees(program: &Path, script: &Script, name: &str) -> io::Result<bool> {
    match check::closing_sentences(&script.lines) {
        Ok(covered) => assert!(
            !script.allowed || covered == script.lines.len(),
            "{name} is no allowed list"
        ),
        Err((line, _)) => {
            let failing = |lines: &[Vec<u8>]| check::closing_sentences(lines).err().map(|(line, _)| line);
            let short = shrink::shortest(&script.lines[..=line], failing);
            println!("{name}: demand 3 does not hold of the reference itself");
            print_script(&short);
            if let Err((line, what)) = check::closing_sentences(&short) {
                println!("after line {}: {what}", line + 1);
            }
            return Ok(false);
        }
    }

    let newline = script.final_newline;
    let Some(found) = run::difference(program, &script.lines, newline)? else {
        return Ok(true);
    };
    // Without a newline at its end only the whole script is the same script.
    let shorter = |lines: &[Vec<u8>], newline| run::difference(program, lines, newline).ok().flatten();
    let ends_with = [true, newline]
        .into_iter()
        .find(|newline| shorter(&script.lines[..=found.line], *newline).is_some());
    let (short, newline) = match ends_with {
        Some(newline) => {
            let failing = |lines: &[Vec<u8>]| shorter(lines, newline).map(|difference| difference.line);
            (shrink::shortest(&script.lines[..=found.line], failing), newline)
        }
        None => (script.lines.clone(), newline),
    };
    let found = shorter(&short, newline).unwrap_or(found);

    let note = if newline { "" } else { ", no newline at its end" };
    println!(
        "difference in {name} ({} lines, cut to {}{note}):",
        script.lines.len(),
        short.len()
    );
    print_script(&short);
    println!("at line {}", found.line + 1);
    println!("reference: {}", found.reference);
    println!("program:   {}", found.program);
    Ok(false)
}

/// Prints the script; of a very long one the ends, and all of it to a file.
fn print_script(lines: &[Vec<u8>]) {
    println!("--- script");
    if lines.len() <= MOST_PRINTED {
        print_lines(lines);
    } else {
        let file = env::temp_dir().join("compare-script.txt");
        print_lines(&lines[..20]);
        match fs::write(&file, lines.join(&b'\n')) {
            Ok(()) => println!("... (whole script: {})", file.display()),
            Err(error) => println!("... (whole script not written: {error})"),
        }
        print_lines(&lines[lines.len() - 20..]);
    }
    println!("--- end of script");
}

fn print_lines(lines: &[Vec<u8>]) {
    for line in lines {
        println!("{}", line.escape_ascii());
    }
}
