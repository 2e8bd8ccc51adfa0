//! Reads a script from standard input and answers it on standard output.

#![forbid(unsafe_code)]

use std::io::{self, BufRead, BufWriter, Write};

use reference::script::Simulation;

fn main() -> io::Result<()> {
    let mut input = io::stdin().lock();
    let mut output = BufWriter::new(io::stdout().lock());
    let mut simulation = Simulation::new();
    let mut line = Vec::new();
    while input.read_until(b'\n', &mut line)? > 0 {
        let text = line.strip_suffix(b"\n").unwrap_or(&line);
        if let Some(answer) = simulation.line(text) {
            writeln!(output, "{answer}")?;
        }
        line.clear();
    }
    output.flush()
}
