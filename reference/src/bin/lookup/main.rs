//! Another implementation's lookup of a command byte, from its library: by table as it is now, and by
//! match. `lookup check` compares the answers with the rows of documents 01 and 02,
//! `lookup time [CALLS]` times the calls, `lookup once` makes each call once, to count its instructions.

mod time;

use std::env;
use std::io::{self, Write};
use std::num::NonZeroU64;
use std::process::ExitCode;

use reference::lookup::{CALLS, difference};

/// The differences told in full.
const MOST_TOLD: usize = 4;

pub type Lookup = extern "C" fn(u8) -> u32;

// Safe to call: each takes any byte, answers by value and has no state.
unsafe extern "C" {
    safe fn puoskenda_lookup(command: u8) -> u32;
    safe fn puoskenda_lookup_by_match(command: u8) -> u32;
}

/// What a call costs with nothing looked up.
#[inline(never)]
extern "C" fn empty(command: u8) -> u32 {
    u32::from(command)
}

fn main() -> ExitCode {
    let arguments: Option<Vec<String>> = env::args_os()
        .skip(1)
        .map(|word| word.into_string().ok())
        .collect();
    let words: Vec<&str> = arguments.iter().flatten().map(String::as_str).collect();
    match words[..] {
        ["check"] => check(),
        ["time"] => time(CALLS),
        ["time", calls] => match calls.parse() {
            Ok(calls) => time(calls),
            Err(_) => usage(),
        },
        ["once"] => once(),
        _ => usage(),
    }
}

fn usage() -> ExitCode {
    eprintln!("usage: lookup check | lookup time [CALLS] | lookup once");
    ExitCode::from(2)
}

fn told(text: &str, code: ExitCode) -> ExitCode {
    match io::stdout().write_all(text.as_bytes()) {
        Ok(()) => code,
        Err(error) => {
            eprintln!("lookup: standard output: {error}");
            ExitCode::from(2)
        }
    }
}

fn check() -> ExitCode {
    let different = |command| {
        difference(
            command,
            puoskenda_lookup(command),
            puoskenda_lookup_by_match(command),
        )
    };
    let differences: Vec<String> = (0..=u8::MAX).filter_map(different).collect();
    if differences.is_empty() {
        let equal = "256 command bytes: both lookups answer as the fifteen rows of documents 01 and 02\n";
        return told(equal, ExitCode::SUCCESS);
    }
    let mut text = String::new();
    for difference in differences.iter().take(MOST_TOLD) {
        text += &format!("{difference}\n");
    }
    if differences.len() > MOST_TOLD {
        text += &format!("and {} command bytes more\n", differences.len() - MOST_TOLD);
    }
    told(&text, ExitCode::from(1))
}

fn time(calls: NonZeroU64) -> ExitCode {
    let functions: [(_, Lookup); 3] = [
        ("match", puoskenda_lookup_by_match),
        ("table", puoskenda_lookup),
        ("empty", empty),
    ];
    told(&time::lines(functions, calls.get()), ExitCode::SUCCESS)
}

fn once() -> ExitCode {
    let functions: [Lookup; 2] = [puoskenda_lookup, puoskenda_lookup_by_match];
    let mut sum: u64 = 0;
    for function in functions {
        for command in 0..=u8::MAX {
            sum += u64::from(function(command));
        }
    }
    told(&format!("sum {sum}\n"), ExitCode::SUCCESS)
}
