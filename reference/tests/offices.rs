//! Several offices at one box.

mod playing;

use playing::{answer, expect, run};
use reference::script::Simulation;

/// What `describe` tells of the office in use, its settings cut to the level.
fn office(simulation: &mut Simulation) -> String {
    let told = answer(simulation, "describe");
    let line = told.lines().nth(1).expect("two lines");
    line.split(", master").next().unwrap_or_default().to_string()
}

fn at_box(simulation: &mut Simulation) -> String {
    let told = answer(simulation, "describe");
    told.split(", master").next().unwrap_or_default().to_string()
}

const WELCOME_3: &str = "11 04 00 03 00 00 00 20 25 00 00 00 01 00 00 00 00 00 00 00 00 01 00 00 01 \
                         00 00 00 00 00 00 00 00 00 00 00 00 00 00 00 00 00 00 00 00 00 00";

/// Office 1 has session 3 and three orders to raise by 10: one confirmed, one taken, one on its way. Office 2 has
/// opened session 4 above it.
///
/// From the offices: OPEN 3, ORDERs 1 to 3, OPEN 4. From the box: WELCOME 3, ACK 1, ACK 2, WELCOME 4.
fn relieved() -> Simulation {
    let mut simulation = Simulation::new();
    run(&mut simulation, &["open 3", "to-box 1", "to-office 1"]);
    run(&mut simulation, &["raise 10", "raise 10", "raise 10"]);
    run(&mut simulation, &["to-box 2", "to-office 2", "to-box 3"]);
    run(&mut simulation, &["use 2", "open 4", "to-box 5", "to-office 4"]);
    simulation
}

#[test]
fn lines_that_choose_an_office() {
    let mut simulation = Simulation::new();
    run(&mut simulation, &["open 3"]);
    for (line, expected) in [
        ("use 1", "ok"),
        ("use 2", "ok"),
        ("use 08", "ok"),
        ("use 4 # 5", "ok"),
        ("use 0", "number out of range"),
        ("use 9", "number out of range"),
        ("use 257", "number out of range"),
        ("use 18446744073709551617", "number out of range"),
        ("use 9 x", "number out of range"),
        ("use", "not a number"),
        ("use x", "not a number"),
        ("use -1", "not a number"),
        ("use x 9", "not a number"),
        ("use 1 1", "too many words"),
        ("use 1 x", "too many words"),
        ("Use 1", "not a call"),
        // After all that it is still office 4.
        ("reopen", "refused 13"),
        ("use 1", "ok"),
        ("reopen", "ok 10 04 00 03 00 00 00"),
    ] {
        assert_eq!(answer(&mut simulation, line), expected, "{line}");
    }
}

#[test]
fn each_of_eight_offices_has_its_own_state() {
    let mut simulation = Simulation::new();
    for number in 1..=8 {
        run(&mut simulation, &[&format!("use {number}")]);
        assert_eq!(office(&mut simulation), "office never opened");
        run(&mut simulation, &[&format!("open {}", 10 * number)]);
    }
    for number in (1..=8).rev() {
        run(&mut simulation, &[&format!("use {number}")]);
        let expected = format!("office session {}, opening", 10 * number);
        assert_eq!(office(&mut simulation), expected);
    }
}

#[test]
fn each_office_has_its_own_receiver() {
    let mut simulation = Simulation::new();
    let half = "stream-office 01 2F 00 11 04 00 03";
    let rest = "stream-office 00 00 00 20 25 00 00 00 01 00 00 00 00 00 00 00 00 01 00 00 01 00 00 00 00 00 00 00 00 \
                00 00 00 00 00 00 00 00 00 00 00 00 00 00";
    let welcomed = format!("took 43 frame {WELCOME_3}: ok");
    run(&mut simulation, &["open 3", "to-box 1"]);
    expect(
        &mut simulation,
        &[
            (half, "took 7"),
            ("use 2", "ok"),
            (
                "stream-office 01 01 00 99 01 02 00",
                "took 4 frame 99: refused 14 at 0 / took 3",
            ),
            ("restart", "ok"),
            ("use 1", "ok"),
            (rest, &welcomed),
            ("use 2", "ok"),
            ("stream-office 14 05", "took 2 frame 14 05: refused 14 at 0"),
        ],
    );
    run(&mut simulation, &["use 1"]);
    assert_eq!(
        office(&mut simulation),
        "office session 3, settled, 0 of 0 orders confirmed: level 0"
    );
}

#[test]
fn frames_of_all_offices_are_counted_together() {
    let mut simulation = relieved();
    expect(
        &mut simulation,
        &[
            ("to-box 6", "no such frame"),
            ("raise 7", "ok 12 06 00 04 00 00 00 01 00 22 02 00 07 00"),
            ("use 3", "ok"),
            // Whoever is in use.
            ("to-box 6", "ok 13 06 00 04 00 00 00 01 00"),
            (
                "pieces-box 4 128",
                "took 17 frame 12 06 00 03 00 00 00 03 00 22 02 00 0A 00: refused 6 14 05 00 03 00 00 00 06",
            ),
            (
                "to-box-all 6 1 into 94",
                "ok 13 06 00 04 00 00 00 01 00 / refused 6 14 05 00 03 00 00 00 06, 77 untouched",
            ),
            ("to-office 8", "ok"),
            ("to-office 9", "no such frame"),
        ],
    );
}

#[test]
fn the_last_4096_frames_of_all_offices_are_kept() {
    let mut simulation = Simulation::new();
    for number in 1..=4097 {
        run(
            &mut simulation,
            &[&format!("use {}", 1 + number % 2), &format!("open {number}")],
        );
    }
    expect(
        &mut simulation,
        &[("to-box 1", "no such frame"), ("to-box 4098", "no such frame")],
    );
    let second = answer(&mut simulation, "to-box 2");
    assert!(second.starts_with("ok 11 04 00 02 00 00 00 "), "{second}");
}

#[test]
fn an_overtaken_session_takes_no_further_order() {
    let mut simulation = relieved();
    let refused = "refused 6 14 05 00 03 00 00 00 06";
    expect(
        &mut simulation,
        &[
            ("to-box 1", refused),
            ("to-box 2", refused),
            ("to-box 3", refused),
            ("to-box 4", refused),
        ],
    );
    assert_eq!(at_box(&mut simulation), "box session 4, 0 orders taken: level 20");
    // The same numbers of session 4 are its own.
    run(&mut simulation, &["lower 5", "to-box 6", "to-office 9"]);
    assert_eq!(at_box(&mut simulation), "box session 4, 1 order taken: level 15");
    assert_eq!(
        office(&mut simulation),
        "office session 4, settled, 1 of 1 orders confirmed: level 15"
    );
}

#[test]
fn an_overtaken_office_is_over_by_its_own_refuse_alone() {
    let mut simulation = relieved();
    let first = "office session 3, waiting, 1 of 3 orders confirmed: level 30";
    run(&mut simulation, &["raise 1", "to-box 6", "use 1"]);
    assert_eq!(office(&mut simulation), first);
    // WELCOME and ACK of session 4.
    run(&mut simulation, &["to-office 4", "to-office 5"]);
    assert_eq!(office(&mut simulation), first);
    // What comes late of its own session still counts.
    run(&mut simulation, &["to-office 3"]);
    let counted = "office session 3, waiting, 2 of 3 orders confirmed: level 30";
    assert_eq!(office(&mut simulation), counted);
    let refused = "refused 6 14 05 00 03 00 00 00 06";
    expect(&mut simulation, &[("to-box 4", refused)]);
    assert_eq!(office(&mut simulation), counted);
    run(&mut simulation, &["use 2", "to-office 6"]);
    assert_eq!(
        office(&mut simulation),
        "office session 4, waiting, 0 of 1 orders confirmed: level 21"
    );
    run(&mut simulation, &["use 1", "to-office 6"]);
    assert_eq!(
        office(&mut simulation),
        "office session 3, over, 2 of 3 orders confirmed"
    );
    // It comes back with a higher session, which overtakes the second one's.
    run(&mut simulation, &["open 5", "to-box 7", "to-office 7"]);
    assert_eq!(
        office(&mut simulation),
        "office session 5, settled, 0 of 0 orders confirmed: level 21"
    );
    expect(
        &mut simulation,
        &[("to-box 6", "refused 6 14 05 00 04 00 00 00 06")],
    );
}

#[test]
fn an_open_that_comes_too_late_ends_its_office() {
    let mut simulation = Simulation::new();
    run(&mut simulation, &["open 3", "use 2", "open 4", "to-box 2"]);
    expect(
        &mut simulation,
        &[
            ("to-box 1", "refused 6 14 05 00 03 00 00 00 06"),
            ("to-office 2", "ok"),
        ],
    );
    assert_eq!(office(&mut simulation), "office session 4, opening");
    run(&mut simulation, &["use 1", "to-office 2"]);
    assert_eq!(
        office(&mut simulation),
        "office session 3, over, 0 of 0 orders confirmed"
    );
}

#[test]
fn a_restart_leaves_the_offices_alone() {
    let mut simulation = relieved();
    run(&mut simulation, &["raise 1", "restart"]);
    expect(
        &mut simulation,
        &[
            ("to-box 4", "refused 5 14 05 00 03 00 00 00 05"),
            ("to-box 6", "refused 5 14 05 00 04 00 00 00 05"),
            // Told 4, the highest that was opened.
            ("to-box 5", "refused 6 14 05 00 04 00 00 00 06"),
        ],
    );
    assert_eq!(
        office(&mut simulation),
        "office session 4, waiting, 0 of 1 orders confirmed: level 21"
    );
    run(&mut simulation, &["use 1", "to-office 6"]);
    assert_eq!(
        office(&mut simulation),
        "office session 3, waiting, 1 of 3 orders confirmed: level 30"
    );
    run(&mut simulation, &["to-office 5"]);
    assert_eq!(
        office(&mut simulation),
        "office session 3, over, 1 of 3 orders confirmed"
    );
}

#[test]
fn windows_are_each_offices_own() {
    let mut simulation = relieved();
    let raise_8 = format!("issue-all {} into 516", ["raise 1"; 8].join(" / "));
    run(&mut simulation, &[&raise_8]);
    expect(
        &mut simulation,
        &[
            ("raise 1", "refused 8"),
            ("use 1", "ok"),
            ("resend 1", "refused 13"),
            ("resend 3", "ok 12 06 00 03 00 00 00 03 00 22 02 00 0A 00"),
            ("resend 4", "refused 13"),
        ],
    );
    // Two are unanswered here.
    run(&mut simulation, &["raise 1"; 6]);
    expect(
        &mut simulation,
        &[
            ("raise 1", "refused 8"),
            ("use 2", "ok"),
            ("resend 8", "ok 12 06 00 04 00 00 00 08 00 22 02 00 01 00"),
            ("resend 9", "refused 13"),
        ],
    );
}

#[test]
fn a_run_over_two_sessions() {
    let mut simulation = Simulation::new();
    run(&mut simulation, &["open 3", "to-box 1", "to-office 1"]);
    run(&mut simulation, &["raise 10", "raise 20", "use 2", "open 4"]);
    let welcome = WELCOME_3
        .replacen("03", "04", 1)
        .replacen("25 00 00 00", "25 00 0A 00", 1);
    let expected = format!(
        "ok 13 06 00 03 00 00 00 01 00 / ok {welcome} / refused 6 14 05 00 03 00 00 00 06 / ok {welcome}, {} untouched",
        516 - 9 - 47 - 8 - 47
    );
    expect(&mut simulation, &[("to-box-all 2 4 3 4 into 516", &expected)]);
    assert_eq!(at_box(&mut simulation), "box session 4, 0 orders taken: level 10");
}

#[test]
fn two_offices_with_one_session_follow_the_rules_alone() {
    let mut simulation = Simulation::new();
    run(
        &mut simulation,
        &["open 3", "use 2", "open 3", "to-box 1", "to-box 2"],
    );
    run(
        &mut simulation,
        &["to-office 1", "raise 5", "use 1", "to-office 2", "raise 7"],
    );
    // The box knows no offices: the first ORDER 1 is taken, the other one is a repeat.
    expect(
        &mut simulation,
        &[
            ("to-box 4", "ok 13 06 00 03 00 00 00 01 00"),
            ("to-box 3", "ok 13 06 00 03 00 00 00 01 00"),
            ("to-office 3", "ok"),
            ("use 2", "ok"),
            ("to-office 3", "ok"),
        ],
    );
    assert_eq!(at_box(&mut simulation), "box session 3, 1 order taken: level 7");
    assert_eq!(
        office(&mut simulation),
        "office session 3, settled, 1 of 1 orders confirmed: level 5"
    );
}
