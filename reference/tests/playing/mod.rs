//! Lines played on a simulation, and their answers.

use reference::script::{Answer, Simulation};

/// The line's answer as printed, its number aside.
pub fn answer(simulation: &mut Simulation, line: &str) -> String {
    let answer = simulation.line(line.as_bytes()).expect("each line is a call");
    match (answer.to_string(), answer) {
        (_, Answer::Invalid(_, error)) => error.to_string(),
        (printed, _) => printed,
    }
}

pub fn expect(simulation: &mut Simulation, lines: &[(&str, &str)]) {
    for (line, expected) in lines {
        assert_eq!(answer(simulation, line), *expected, "{line}");
    }
}

pub fn run(simulation: &mut Simulation, lines: &[&str]) {
    for line in lines {
        let answer = answer(simulation, line);
        assert!(answer.starts_with("ok"), "{line}: {answer}");
    }
}
