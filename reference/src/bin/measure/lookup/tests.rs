//! What is read from callgrind's dumps, and which command bytes are named.

use super::dumps::{Call, call, counts};
use super::{bytes_at, ends, least, most};

/// A dump as callgrind writes it, with the caller's seven instructions beside the call's eleven.
const DUMP: &str = "# callgrind format
version: 1
part: 12

desc: Timerange: Basic block 64439 - 64445
desc: Trigger: --dump-after=puoskenda_lookup

positions: line
events: Ir
summary: 18

fn=puoskenda_lookup
0 11

fn=lookup::main
0 3
cfn=puoskenda_lookup
calls=1 0 
0 11
0 4

fn=main
cfn=std::rt::lang_start_internal
calls=0 0 
0 18

totals: 18
";

fn call_of(part: usize, symbol: &str, instructions: f64) -> Call {
    Call {
        part,
        symbol: symbol.to_string(),
        instructions,
    }
}

#[test]
fn a_dump_tells_the_instructions_inside_the_call() {
    assert_eq!(call(DUMP), Some(call_of(12, "puoskenda_lookup", 11.0)));
}

#[test]
fn a_longer_symbol_is_another_function() {
    let caller = DUMP.replace("cfn=puoskenda_lookup\n", "cfn=puoskenda_lookup_by_match\n");
    assert_eq!(call(&caller), None);
    let both = DUMP.replace("puoskenda_lookup\n", "puoskenda_lookup_by_match\n");
    assert_eq!(call(&both), Some(call_of(12, "puoskenda_lookup_by_match", 11.0)));
}

#[test]
fn other_dumps_tell_of_no_call() {
    let at_the_end = DUMP.replace("--dump-after=puoskenda_lookup", "Program termination");
    let two_calls = DUMP.replace("calls=1 ", "calls=2 ");
    let no_number = DUMP.replace("\n0 11\n0 4", "\n0 eleven\n0 4");
    let cut = &DUMP[..DUMP.find("calls=1").expect("it is there")];
    for dump in [&at_the_end, &two_calls, &no_number, cut, ""] {
        assert_eq!(call(dump), None, "{dump}");
    }
}

#[test]
fn counts_are_of_256_calls_or_none() {
    let mut calls: Vec<Call> = (0..256).map(|part| call_of(part, "one", part as f64)).collect();
    calls.extend((256..512).map(|part| call_of(part, "other", 1.0)));
    let expected: Vec<f64> = (0..256).map(f64::from).collect();
    assert_eq!(counts(&calls, "one").ok(), Some(expected));
    assert_eq!(counts(&calls, "other").ok(), Some(vec![1.0; 256]));
    calls.pop();
    let error = counts(&calls, "other").expect_err("a call is missing");
    assert_eq!(
        error.to_string(),
        "valgrind told of 255 calls of other, not of 256"
    );
}

#[test]
fn the_fastest_and_the_slowest_bytes_are_named() {
    let figures = [2.5, 1.5, 3.5, 1.5, 2.0, 1.5];
    assert_eq!([least(&figures), most(&figures)], [1.5, 3.5]);
    assert_eq!(bytes_at(&figures, 2.0), "04h");
    let told = ends(&figures, "fewest", "most");
    assert_eq!(told, "fewest at 01h and 2 more, most at 02h");
}
