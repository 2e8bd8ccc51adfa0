//! Runs of the programs: their outputs, times and instructions.

use std::io::{self, Read};
use std::path::{Path, PathBuf};
use std::process::{Command, Stdio};
use std::time::{Duration, Instant};

use crate::Failure;
use crate::input::Input;

pub fn check_equal(what: &str, programs: &[PathBuf], input: &Input) -> Result<(), Failure> {
    let (mut expected, mut output) = (Vec::new(), Vec::new());
    timed(&programs[0], input, Some(&mut expected))?;
    for path in &programs[1..] {
        timed(path, input, Some(&mut output))?;
        if output != expected {
            let equal = output.iter().zip(&expected).take_while(|(a, b)| a == b).count();
            return Err(Failure::Differ(format!(
                "{what}: the outputs of {} and {} differ from byte {equal} on",
                programs[0].display(),
                path.display()
            )));
        }
    }
    Ok(())
}

/// The shortest time of each program, all programs in turn within each round.
pub fn best_times(
    programs: &[PathBuf],
    rounds: usize,
    mut time: impl FnMut(&Path) -> Result<Duration, Failure>,
) -> Result<Vec<Duration>, Failure> {
    let mut best = vec![Duration::MAX; programs.len()];
    for _ in 0..rounds {
        for (best, path) in best.iter_mut().zip(programs) {
            *best = time(path)?.min(*best);
        }
    }
    Ok(best)
}

/// Runs the program over the whole input and tells how long it took. The output goes through a pipe
/// to the lent vector, or to /dev/null, where standard error goes.
pub fn timed(path: &Path, input: &Input, output: Option<&mut Vec<u8>>) -> Result<Duration, Failure> {
    let run = || {
        let mut command = Command::new(path);
        command.stdin(input.rewound()?);
        command.stdout(if output.is_some() {
            Stdio::piped()
        } else {
            Stdio::null()
        });
        command.stderr(Stdio::null());
        let begin = Instant::now();
        let mut child = command.spawn()?;
        let mut read = Ok(0);
        if let (Some(output), Some(mut stdout)) = (output, child.stdout.take()) {
            output.clear();
            read = stdout.read_to_end(output);
        }
        let status = child.wait()?;
        let took = begin.elapsed();
        read?;
        if status.success() {
            Ok(took)
        } else {
            Err(io::Error::other(status.to_string()))
        }
    };
    run().map_err(|error| Failure::Run {
        path: path.to_path_buf(),
        error,
    })
}

pub fn has_valgrind() -> bool {
    Command::new("valgrind").arg("--version").output().is_ok()
}

/// The instructions of each program over the whole input, its start and end included.
pub fn instructions(programs: &[PathBuf], input: &Input) -> Result<Vec<f64>, Failure> {
    let count = |path: &PathBuf| {
        let output = Command::new("valgrind")
            .args(["--tool=callgrind", "--callgrind-out-file=/dev/null"])
            .arg(path)
            .stdin(input.rewound()?)
            .stdout(Stdio::null())
            .output()?;
        if !output.status.success() {
            return Err(io::Error::other(format!("under valgrind: {}", output.status)));
        }
        let report = String::from_utf8_lossy(&output.stderr);
        let mut counts = report.lines().filter_map(|line| line.split_once("Collected :"));
        let count = counts.find_map(|(_, count)| count.trim().parse().ok());
        count.ok_or_else(|| io::Error::other("no count in valgrind's report"))
    };
    let failed = |path: &PathBuf, error| Failure::Run {
        path: path.clone(),
        error,
    };
    programs
        .iter()
        .map(|path| count(path).map_err(|error| failed(path, error)))
        .collect()
}
