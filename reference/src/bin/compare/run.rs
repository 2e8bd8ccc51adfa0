//! Both sides of a script, and where they part.

use std::io::{self, Write};
use std::path::Path;
use std::process::{Command, Stdio};
use std::thread;

use reference::script::Simulation;

pub struct Difference {
    /// Which line of the script, from 0.
    pub line: usize,
    pub reference: String,
    pub program: String,
}

/// Runs the program on the lines and finds the first answer that is not the reference's.
pub fn difference(program: &Path, lines: &[Vec<u8>], final_newline: bool) -> io::Result<Option<Difference>> {
    let mut input = lines.join(&b'\n');
    if final_newline {
        input.push(b'\n');
    }
    let (output, exit) = run(program, input)?;
    let mut given = output.split(|byte| *byte == b'\n');

    let mut simulation = Simulation::new();
    for (place, line) in lines.iter().enumerate() {
        let Some(answer) = simulation.line(line) else {
            continue;
        };
        for reference in answer.to_string().lines() {
            let program = given.next();
            if program != Some(reference.as_bytes()) {
                return Ok(Some(Difference {
                    line: place,
                    reference: reference.to_string(),
                    program: shown(program),
                }));
            }
        }
    }
    let last = lines.len().saturating_sub(1);
    let end = |reference: &str, program: String| {
        Ok(Some(Difference {
            line: last,
            reference: reference.to_string(),
            program,
        }))
    };
    // After the last newline one empty piece is left.
    match (given.next(), given.next()) {
        (Some(b""), None) => {}
        (more, _) => return end("(end of output)", shown(more)),
    }
    match exit {
        Some(0) => Ok(None),
        Some(code) => end("exit 0", format!("exit {code}")),
        None => end("exit 0", "ended by a signal".to_string()),
    }
}

fn shown(line: Option<&[u8]>) -> String {
    match line {
        None => "(no more output)".to_string(),
        Some(line) => line.escape_ascii().to_string(),
    }
}

fn run(program: &Path, input: Vec<u8>) -> io::Result<(Vec<u8>, Option<i32>)> {
    let mut child = Command::new(program)
        .stdin(Stdio::piped())
        .stdout(Stdio::piped())
        .stderr(Stdio::null())
        .spawn()?;
    let stdin = child.stdin.take();
    let writer = thread::spawn(move || {
        // A program that ends early shows in its output; a broken pipe here says no more.
        let _ = stdin.map(|mut stdin| stdin.write_all(&input));
    });
    let output = child.wait_with_output()?;
    let _ = writer.join();
    Ok((output.stdout, output.status.code()))
}
