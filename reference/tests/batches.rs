//! Batches of orders at the office and runs of frames at the box.

mod playing;

use playing::{answer, expect, run};
use reference::script::Simulation;

/// With session 3 open at both ends.
fn open() -> Simulation {
    let mut simulation = Simulation::new();
    run(&mut simulation, &["open 3", "to-box 1", "to-office 1"]);
    simulation
}

fn batch(items: &[&str]) -> String {
    format!("issue-all {}", items.join(" / "))
}

/// A command with so many data bytes.
fn command(count: usize) -> String {
    format!("command 00{}", " 00".repeat(count))
}

/// ORDER of session 3 to raise by 1.
fn raise_1(number: u16) -> String {
    let [low, high] = number.to_le_bytes();
    format!("12 06 00 03 00 00 00 {low:02X} {high:02X} 22 02 00 01 00")
}

fn ack(count: u8) -> String {
    format!("ok 13 06 00 03 00 00 00 {count:02X} 00")
}

const CUT: &str = "refused 14 at 0 14 05 00 00 00 00 00 0E";

#[test]
fn a_batch_does_what_single_orders_do() {
    let items = [
        "raise 1000",
        "lower 1",
        "command 00 A5 00",
        "command 4C 03",
        "raise 65535",
        "command 02 00",
        "lower 5",
        &command(16),
    ];
    let (mut together, mut singly) = (open(), open());
    let answers = items.map(|item| answer(&mut singly, item));
    let frames = answers
        .each_ref()
        .map(|answer| answer.strip_prefix("ok ").unwrap());
    run(&mut together, &["room 512"]);
    assert_eq!(
        answer(&mut together, &batch(&items)),
        format!("ok {}", frames.join(" / "))
    );
    for index in 2..=9 {
        for line in [format!("to-box {index}"), format!("resend {}", index - 1)] {
            assert_eq!(answer(&mut together, &line), answer(&mut singly, &line));
        }
    }
    for line in ["show", "to-office 9", "show", "describe"] {
        assert_eq!(answer(&mut together, line), answer(&mut singly, line));
    }
    assert!(answer(&mut together, "show").contains("office settled session 3 confirmed 8 issued 8"));
}

#[test]
fn a_batch_is_issued_as_a_whole_or_not_at_all() {
    let mut simulation = open();
    run(&mut simulation, &["room 512", "raise 7"]);
    let before = answer(&mut simulation, "show");
    let too_long = command(17);
    let frames = [
        "12 06 00 03 00 00 00 02 00 22 02 00 E8 03",
        "12 06 00 03 00 00 00 03 00 23 02 00 01 00",
    ];
    expect(
        &mut simulation,
        &[
            (&batch(&["raise 1000", "lower 1", &too_long]), "refused 2"),
            (&batch(&[&too_long, "raise 1000"]), "refused 2"),
            (&batch(&["raise 1"; 8]), "refused 8"),
            (&batch(&["raise 1"; 9]), "refused 2"),
            (
                "issue-all raise 1000 / lower 1 into 60",
                "refused 1, 60 untouched",
            ),
            ("to-box 3", "no such frame"),
            ("resend 2", "refused 13"),
            ("show", &before),
            (
                "issue-all raise 1000 / lower 1",
                &format!("ok {}", frames.join(" / ")),
            ),
            ("to-box 4", "refused 7 14 05 00 03 00 00 00 07"),
            ("to-box 2", &ack(1)),
            ("to-box 3", &ack(2)),
            ("resend 3", &format!("ok {}", frames[1])),
        ],
    );
    let shown = answer(&mut simulation, "show");
    // 7 + 1000 - 1 = 1006.
    assert!(
        shown.contains("confirmed 0 issued 3 settings EE 03 01"),
        "{shown}"
    );
}

#[test]
fn a_batch_of_none_is_issued_anywhere() {
    let mut simulation = Simulation::new();
    let none = [
        ("issue-all", "ok"),
        ("issue-all into 0", "ok, 0 untouched"),
        ("issue-all into 516", "ok, 516 untouched"),
    ];
    run(&mut simulation, &["room 0"]);
    expect(&mut simulation, &none);
    run(&mut simulation, &["room 47", "open 3"]);
    expect(&mut simulation, &none);
    run(&mut simulation, &["to-box 1", "to-office 1"]);
    expect(&mut simulation, &none);
    run(&mut simulation, &["office 14 05 00 03 00 00 00 05"]);
    expect(&mut simulation, &none);
    expect(&mut simulation, &[("to-box 2", "no such frame")]);
}

#[test]
fn each_order_has_the_output_that_the_earlier_ones_left() {
    for count in 1..=8 {
        let line = batch(&vec!["raise 1"; count]);
        let frames: Vec<String> = (1..=count as u16).map(raise_1).collect();
        let least = 14 * (count - 1) + 47;
        let enough = format!("ok {}, 33 untouched", frames.join(" / "));
        let short = format!("refused 1, {} untouched", least - 1);
        expect(
            &mut open(),
            &[
                (&format!("{line} into {}", least - 1), &short),
                ("to-box 2", "no such frame"),
                (&format!("{line} into {least}"), &enough),
            ],
        );
        let mut simulation = open();
        let line = [&line[..], &enough.replace(", 33 untouched", "")];
        expect(
            &mut simulation,
            &[
                (&format!("room {}", least - 1), "ok"),
                (line[0], "refused 1"),
                (&format!("room {least}"), "ok"),
                (line[0], line[1]),
            ],
        );
    }
    assert_eq!(14 * 7 + 47, 145);
    // ORDERs of 29, 13 and 14 bytes.
    let line = batch(&[&command(16), "command 01", "raise 1"]);
    for (room, refused) in [
        (46, true),
        (47, true),
        (75, true),
        (76, true),
        (88, true),
        (89, false),
    ] {
        let told = answer(&mut open(), &format!("{line} into {room}"));
        let expected = if refused {
            format!("refused 1, {room} untouched")
        } else {
            format!(
                "ok 12 06 00 03 00 00 00 01 00 21 11 00{} / 12 06 00 03 00 00 00 02 00 21 01 00 01 / {}, 33 untouched",
                " 00".repeat(17),
                raise_1(3)
            )
        };
        assert_eq!(told, expected, "{room}");
    }
}

#[test]
fn the_first_order_that_fails_gives_the_refusal() {
    let long = command(17);
    let mut simulation = Simulation::new();
    // 2 for the count before all else, then each order's own: 10, 1, 2, 9, 8.
    expect(
        &mut simulation,
        &[
            (&batch(&["raise 1"; 9]), "refused 2"),
            (
                &format!("{} into 0", batch(&["raise 1"; 9])),
                "refused 2, 0 untouched",
            ),
            (&format!("{} into 0", batch(&[&long])), "refused 10, 0 untouched"),
            (&batch(&["raise 1"; 8]), "refused 10"),
            ("open 3", "ok 10 04 00 03 00 00 00"),
            ("issue-all raise 1", "refused 10"),
        ],
    );
    run(&mut simulation, &["to-box 1", "to-office 1", "room 512"]);
    expect(
        &mut simulation,
        &[
            // In the first order and in the second 1 goes before 2; the first order's 2 before the second one's 1.
            (&format!("{} into 46", batch(&[&long])), "refused 1, 46 untouched"),
            (
                &format!("{} into 60", batch(&["raise 1", &long])),
                "refused 1, 60 untouched",
            ),
            (
                &format!("{} into 61", batch(&["raise 1", &long])),
                "refused 2, 61 untouched",
            ),
            (
                &format!("{} into 61", batch(&["raise 1", &long, "raise 1"])),
                "refused 2, 61 untouched",
            ),
            (
                &format!("{} into 61", batch(&["raise 1", "raise 1", &long])),
                "refused 1, 61 untouched",
            ),
        ],
    );
    // Five unanswered leave room for three.
    run(&mut simulation, &[&batch(&["raise 1"; 5])]);
    expect(
        &mut simulation,
        &[
            (&batch(&["raise 1"; 4]), "refused 8"),
            (&batch(&["raise 1", "raise 1", "raise 1", &long]), "refused 2"),
            (
                &batch(&["raise 1", "raise 1", "raise 1", "raise 1", &long]),
                "refused 8",
            ),
            (
                &format!("{} into 88", batch(&["raise 1"; 4])),
                "refused 1, 88 untouched",
            ),
            (
                &format!("{} into 89", batch(&["raise 1"; 4])),
                "refused 8, 89 untouched",
            ),
            ("to-box-all 2 3", &format!("{} / {}", ack(1), ack(2))),
            ("to-office 2", "ok"),
            (&batch(&["raise 1"; 5]), "refused 8"),
        ],
    );
    run(&mut simulation, &[&batch(&["raise 1"; 4])]);
    expect(
        &mut simulation,
        &[
            ("issue-all raise 1", "refused 8"),
            ("issue-all", "ok"),
            ("office 14 05 00 03 00 00 00 06", "ok"),
            ("issue-all raise 1", "refused 10"),
        ],
    );
}

#[test]
fn a_batch_over_the_last_number() {
    let mut simulation = open();
    let (eight, long) = (batch(&["raise 0"; 8]), command(17));
    run(&mut simulation, &["room 512"]);
    for round in 0..8191 {
        let first = 8 * round + 2;
        let indexes: Vec<String> = (first..first + 8).map(|index: u32| index.to_string()).collect();
        let carry = format!("to-box-all {}", indexes.join(" "));
        let last = format!("to-office {}", first + 7);
        run(&mut simulation, &[&eight, &carry, &last]);
    }
    let shown = answer(&mut simulation, "show");
    assert!(shown.contains("settled session 3 confirmed 65528 issued 65528"));
    expect(&mut simulation, &[(&eight, "refused 9")]);
    run(&mut simulation, &[&batch(&["raise 0"; 3])]);
    expect(
        &mut simulation,
        &[
            (&batch(&["raise 0"; 5]), "refused 9"),
            // The fifth order is over its length, and the fourth is the last.
            (
                &batch(&["raise 0", "raise 0", "raise 0", "raise 0", &long]),
                "refused 2",
            ),
            (
                &batch(&["raise 0", "raise 0", "raise 0", "raise 0", "raise 0", &long]),
                "refused 9",
            ),
        ],
    );
    // One number and two places of the window are left.
    run(&mut simulation, &[&batch(&["raise 0"; 3])]);
    expect(
        &mut simulation,
        &[
            (&batch(&["raise 0"; 3]), "refused 9"),
            (
                &batch(&["raise 0"; 1]),
                "ok 12 06 00 03 00 00 00 FF FF 22 02 00 00 00",
            ),
            ("issue-all raise 0", "refused 9"),
            ("issue-all raise 0 into 46", "refused 1, 46 untouched"),
            (&batch(&[&long]), "refused 2"),
            ("issue-all", "ok"),
        ],
    );
}

#[test]
fn a_full_window_goes_behind_the_last_number() {
    let mut simulation = open();
    run(&mut simulation, &["room 512"]);
    let mut frames = 1;
    for count in [vec![8; 8190], vec![7]].concat() {
        run(&mut simulation, &[&batch(&vec!["raise 0"; count])]);
        for index in frames + 1..=frames + count {
            run(&mut simulation, &[&format!("to-box {index}")]);
        }
        frames += count;
        run(&mut simulation, &[&format!("to-office {frames}")]);
    }
    // 65527 are issued; after eight more both 8 and 9 stand against another one.
    expect(
        &mut simulation,
        &[
            (&batch(&["raise 0"; 9]), "refused 2"),
            ("raise 0", "ok 12 06 00 03 00 00 00 F8 FF 22 02 00 00 00"),
        ],
    );
    run(&mut simulation, &[&batch(&["raise 0"; 7])]);
    expect(
        &mut simulation,
        &[
            ("issue-all raise 0", "refused 9"),
            ("issue-all raise 0 / raise 0", "refused 9"),
        ],
    );
}

#[test]
fn a_run_of_more_than_8_or_of_other_lengths() {
    let mut simulation = open();
    for (line, expected) in [
        ("box-all / / / / / / / /", "refused 2"),
        ("box-all / / / / / / / / into 0", "refused 2, 0 untouched"),
        (
            "to-box-all 1 1 1 1 1 1 1 1 1 into 516",
            "refused 2, 516 untouched",
        ),
        ("box-cut 0 0 0 0 0 0 0 0 0", "refused 2"),
        ("box-cut 7 / 10 04 00 09 00 00 00 00", "refused 2"),
        ("box-cut 7 / 10 04 00 09 00 00", "refused 2"),
        ("box-cut 7 1 / 10 04 00 09 00 00 00", "refused 2"),
        ("box-cut / 10", "refused 2"),
        ("box-cut / 10 into 0", "refused 2, 0 untouched"),
        ("box-cut 1", "refused 2"),
        ("box-cut 1 /", "refused 2"),
        // 2 goes before 1.
        ("box-cut 7 / 10 04 00 09 00 00 into 46", "refused 2, 46 untouched"),
        // Sums that come out right modulo 2^64, and lengths that do modulo 2^32 and 2^16.
        ("box-cut 9223372036854775808 9223372036854775808", "refused 2"),
        (
            "box-cut 9223372036854775808 9223372036854775808 7 / 10 04 00 09 00 00 00 into 516",
            "refused 2, 516 untouched",
        ),
        ("box-cut 18446744073709551615 1", "refused 2"),
        (
            "box-cut 18446744073709551615 8 / 10 04 00 09 00 00 00",
            "refused 2",
        ),
        (
            "box-cut 8 18446744073709551615 / 10 04 00 09 00 00 00",
            "refused 2",
        ),
        ("box-cut 18446744073709551615", "refused 2"),
        ("box-cut 4294967303 / 10 04 00 09 00 00 00", "refused 2"),
        ("box-cut 65543 / 10 04 00 09 00 00 00", "refused 2"),
        // None of it reached the box.
        ("to-office 2", "no such frame"),
    ] {
        assert_eq!(answer(&mut simulation, line), expected, "{line}");
    }
    assert!(answer(&mut simulation, "show").starts_with("box session 3 highest 3 taken 0 "));
}

#[test]
fn a_run_of_none() {
    let mut simulation = Simulation::new();
    run(&mut simulation, &["room 0"]);
    expect(
        &mut simulation,
        &[
            ("box-all", "ok"),
            ("to-box-all", "ok"),
            ("box-cut", "ok"),
            ("box-cut /", "ok"),
            ("box-all into 40", "ok, 40 untouched"),
            ("to-box-all into 0", "ok, 0 untouched"),
            ("box-cut into 516", "ok, 516 untouched"),
            ("box-cut / into 1", "ok, 1 untouched"),
            ("to-office 1", "no such frame"),
        ],
    );
}

#[test]
fn a_run_needs_47_bytes_a_frame() {
    for count in 1..=8 {
        let slashes = " /".repeat(count - 1);
        let line = match count {
            1 => "box-cut 0".to_string(),
            _ => format!("box-all{slashes}"),
        };
        let least = 47 * count;
        let told = vec![CUT; count].join(" / ");
        let mut simulation = Simulation::new();
        expect(
            &mut simulation,
            &[
                (
                    &format!("{line} into {}", least - 1),
                    &format!("refused 1, {} untouched", least - 1),
                ),
                ("to-office 1", "no such frame"),
                // Eight bytes a REFUSE.
                (
                    &format!("{line} into {least}"),
                    &format!("{told}, {} untouched", 39 * count),
                ),
                (&format!("room {}", least - 1), "ok"),
                (&line, "refused 1"),
                (&format!("room {least}"), "ok"),
                (&line, &told),
                (&format!("to-office {}", 2 * count + 1), "no such frame"),
                (&format!("to-office {}", 2 * count), "ok"),
            ],
        );
    }
}

#[test]
fn each_frame_of_a_run_is_judged_by_itself() {
    let mut simulation = Simulation::new();
    run(&mut simulation, &["room 376"]);
    let [one, two, three, five] = [1, 2, 3, 5].map(raise_1);
    let opening = "10 04 00 03 00 00 00";
    let welcome = "ok 11 04 00 03 00 00 00 20 25 00 00 00 01 00 00 00 00 00 00 00 00 01 00 00 01 \
                   00 00 00 00 00 00 00 00 00 00 00 00 00 00 00 00 00 00 00 00 00 00";
    let told = [
        "refused 5 14 05 00 03 00 00 00 05",
        welcome,
        welcome,
        &ack(1),
        &ack(1),
        "refused 7 14 05 00 03 00 00 00 07",
        &ack(2),
        &ack(2),
    ];
    let line = [&one, opening, opening, &one, &one, &three, &two, opening].join(" / ");
    expect(
        &mut simulation,
        &[(&format!("box-all {line}"), &told.join(" / "))],
    );
    // Another session, damaged frames between, each with the offset in itself, and one for the other end.
    let line = [
        &three,
        "12 06 00 03 00 00 00 04 00",
        "",
        "13 06 00 03 00 00 00 01 00",
        "10 04 00 02 00 00 00",
        "10 04 00 03 00 00 00 00",
        "10 04 00 07 00 00 00",
        &five,
    ];
    let told = [
        &ack(3),
        "refused 14 at 9 14 05 00 00 00 00 00 0E",
        CUT,
        "refused 19 at 0 14 05 00 00 00 00 00 13",
        "refused 6 14 05 00 02 00 00 00 06",
        "refused 18 at 7 14 05 00 00 00 00 00 12",
        "ok 11 04 00 07 00 00 00 20 25 00 03 00 01 00 00 00 00 00 00 00 00 01 00 00 01 \
         00 00 00 00 00 00 00 00 00 00 00 00 00 00 00 00 00 00 00 00 00 00",
        "refused 6 14 05 00 03 00 00 00 06",
    ];
    // 9 + 8 + 8 + 8 + 8 + 8 + 47 + 8 of 400 bytes.
    expect(
        &mut simulation,
        &[(
            &format!("box-all {} into 400", line.join(" / ")),
            &format!("{}, 296 untouched", told.join(" / ")),
        )],
    );
    let shown = answer(&mut simulation, "show");
    assert!(
        shown.starts_with("box session 7 highest 7 taken 0 settings 03 00"),
        "{shown}"
    );
    // The highest session is that of a run too.
    run(&mut simulation, &["restart"]);
    expect(
        &mut simulation,
        &[
            ("to-box-all", "ok"),
            (
                "box-all 10 04 00 07 00 00 00",
                "refused 6 14 05 00 07 00 00 00 06",
            ),
        ],
    );
}

#[test]
fn frames_cut_anyhow() {
    let mut simulation = Simulation::new();
    let frames = format!("10 04 00 03 00 00 00 {} {}", raise_1(1), raise_1(2));
    run(&mut simulation, &["room 512", "box-cut 7 / 10 04 00 03 00 00 00"]);
    expect(
        &mut simulation,
        &[
            // The first order's last byte goes to the second.
            (
                &format!("box-cut 7 13 15 / {frames}"),
                &format!(
                    "ok 11 04 00 03 00 00 00 20 25 00 00 00 01 00 00 00 00 00 00 00 00 01 00 00 01{} / \
                     refused 14 at 9 14 05 00 00 00 00 00 0E / {CUT}",
                    " 00".repeat(22)
                ),
            ),
            (
                &format!("box-cut 0 21 0 14 / {frames}"),
                &format!(
                    "{CUT} / refused 18 at 7 14 05 00 00 00 00 00 12 / {CUT} / refused 7 14 05 00 03 00 00 00 07"
                ),
            ),
            (
                &format!("box-cut 7 14 0 14 / {frames} into 188"),
                &format!(
                    "ok 11 04 00 03 00 00 00 20 25 00 00 00 01 00 00 00 00 00 00 00 00 01 00 00 01{} / {} / {CUT} / {}, 115 untouched",
                    " 00".repeat(22),
                    ack(1),
                    ack(2)
                ),
            ),
        ],
    );
}

#[test]
fn written_frames_in_a_run() {
    let mut simulation = open();
    run(&mut simulation, &["room 512", &batch(&["raise 1"; 8])]);
    let seven = "refused 7 14 05 00 03 00 00 00 07";
    expect(
        &mut simulation,
        &[
            (
                "to-box-all 3 2 2 4 3 1",
                &[seven, &ack(1), &ack(1), seven, &ack(2), &ack(2)].join(" / "),
            ),
            // The second ACK of the run; the REFUSE before it is a frame of its own.
            ("to-office 3", "ok"),
            ("pieces-office 2 128", "took 11 frame 14 05 00 03 00 00 00 07: ok"),
            ("to-office 8", "no such frame"),
            ("to-box-all 4 5 6 7 8 9 into 281", "refused 1, 281 untouched"),
            (
                "to-box-all 4 5 6 7 8 9 into 282",
                &format!("{}, 228 untouched", [3, 4, 5, 6, 7, 8].map(ack).join(" / ")),
            ),
            ("to-office 13", "ok"),
        ],
    );
    let shown = answer(&mut simulation, "show");
    assert!(
        shown.contains("office settled session 3 confirmed 8 issued 8 settings 08 00 01"),
        "{shown}"
    );
    assert!(shown.starts_with("box session 3 highest 3 taken 8 settings 08 00 01"));
}

#[test]
fn items_are_judged_from_left_to_right() {
    let mut simulation = open();
    let nine = " / raise 1".repeat(8);
    for (line, expected) in [
        ("issue-all /", "not a call"),
        ("issue-all raise 1 /", "not a call"),
        ("issue-all / raise 1", "not a call"),
        ("issue-all / into 40", "not a call"),
        ("issue-all raise 1 / / raise x", "not a call"),
        ("issue-all open 4", "not a call"),
        ("issue-all raise 1/raise 2", "not a number"),
        ("issue-all raise/1", "not a call"),
        ("issue-all raise", "not a number"),
        ("issue-all raise / lower", "not a number"),
        ("issue-all raise 1 / lower x 65536", "not a number"),
        ("issue-all lower 65536 / raise x", "number out of range"),
        ("issue-all raise 18446744073709551616", "number out of range"),
        ("issue-all raise 1 1 / raise x", "too many words"),
        ("issue-all command", "not bytes"),
        ("issue-all command / raise 1", "not bytes"),
        ("issue-all command 00 1 / raise x", "not bytes"),
        ("issue-all raise 1 into", "not a number"),
        ("issue-all into", "not a number"),
        ("issue-all raise 1 into x", "not a number"),
        ("issue-all raise 1 into 517", "number out of range"),
        ("issue-all raise 1 into 47 1", "too many words"),
        ("issue-all raise x into 517", "not a number"),
        ("issue-all raise 65536 into x", "number out of range"),
        ("box-all 1", "not bytes"),
        ("box-all 10 / 1 / zz", "not bytes"),
        ("box-all 10/10", "not bytes"),
        ("box-all 10 into 517", "number out of range"),
        ("box-all into 40 40", "too many words"),
        ("to-box-all x 9", "not a number"),
        ("to-box-all 1 9 x", "no such frame"),
        ("to-box-all 0", "no such frame"),
        ("to-box-all 1 18446744073709551617", "no such frame"),
        ("to-box-all 1 / 1", "not a number"),
        ("to-box-all 1 into -1", "not a number"),
        ("box-cut x / 1", "not a number"),
        ("box-cut 18446744073709551616 x / 1", "number out of range"),
        ("box-cut 99999999999999999999999 / 10", "number out of range"),
        ("box-cut 1 -1 / 1", "not a number"),
        ("box-cut 1 / 1", "not bytes"),
        ("box-cut 1 / 10 / 10", "not bytes"),
        ("box-cut / /", "not bytes"),
        ("box-cut 1/10", "not a number"),
        ("box-cut 1 / 10 into 1000", "number out of range"),
        (&format!("issue-all raise 1{nine} / raise x"), "not a number"),
        (&format!("issue-all raise 1{nine} / show"), "not a call"),
        ("issue-alls", "not a call"),
        ("Box-all", "not a call"),
        ("box-cuts", "not a call"),
    ] {
        assert_eq!(answer(&mut simulation, line), expected, "{line}");
    }
    assert_eq!(
        answer(&mut simulation, " issue-all  raise 01  into 047 # 1"),
        format!("ok {}, 33 untouched", raise_1(1))
    );
    // The longest line that is read, and one byte more.
    let bytes = " 00".repeat(1363);
    for (line, expected) in [
        (
            format!("box-all{bytes}"),
            "refused 15 at 0 14 05 00 00 00 00 00 0F",
        ),
        (format!("box-all {bytes}"), "line too long"),
    ] {
        assert_eq!(answer(&mut simulation, &line), expected);
    }
}
