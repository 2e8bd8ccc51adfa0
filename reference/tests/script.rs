//! The script's lines and their answers.

use reference::script::Simulation;

/// The line's answer, as printed; nothing where there is none.
fn answer(simulation: &mut Simulation, line: &str) -> String {
    let answer = simulation.line(line.as_bytes());
    answer.map(|answer| answer.to_string()).unwrap_or_default()
}

fn run(simulation: &mut Simulation, lines: &[&str]) {
    for line in lines {
        let answer = answer(simulation, line);
        assert!(answer.starts_with("ok"), "{line}: {answer}");
    }
}

const FRESH: &str = "level 0, master on, not parked, splash mode 0, drive strength 0, heater 0 kHz at 0 %, \
                     bezel 0 and 0, test pixels (0, 0) to (0, 0), normal mode, red level 0, green level 0, blue level 0, \
                     current limit 0, sensor gain 0, status none";

fn at_level(level: u16) -> String {
    FRESH.replacen("level 0", &format!("level {level}"), 1)
}

#[test]
fn script_lines() {
    let mut simulation = Simulation::new();
    let long = format!("show #{}", "x".repeat(4091));
    for (line, expected) in [
        ("", ""),
        ("   # nothing", ""),
        ("show\r", "line 3: not a call"),
        ("room 513 1", "line 4: number out of range"),
        ("room 512 1", "line 5: too many words"),
        ("room", "line 6: not a number"),
        ("to-box 0 x", "line 7: no such frame"),
        ("to-box 99999999999999999999999", "line 8: no such frame"),
        ("command", "line 9: not bytes"),
        ("packet wrote", "line 10: not a call"),
        ("packet write", "line 11: not bytes"),
        ("packet read ff", "refused 3"),
        ("reply write 01", "reply 01 data end 1"),
        ("reply read", "refused 12"),
        ("bus", "bus"),
        ("box", "refused 14 at 0 14 05 00 00 00 00 00 0E"),
        (&long, "line 17: line too long"),
        ("restart 4294967296", "line 18: number out of range"),
        ("restart 4294967295", "ok"),
        ("open 0", "refused 6"),
        ("show 1", "line 21: too many words"),
        ("describe 1", "line 22: too many words"),
        ("describe describe", "line 23: too many words"),
        ("Describe", "line 24: not a call"),
        ("describes", "line 25: not a call"),
    ] {
        assert_eq!(answer(&mut simulation, line), expected, "{line}");
    }
}

#[test]
fn wrap_and_the_receiver_on_the_bench() {
    let mut simulation = Simulation::new();
    let bytes = |count: usize| " 01".repeat(count);
    let long = |first: &str, count: usize| format!("{first}{}", bytes(count));
    for (line, expected) in [
        (
            "wrap 10 10 04 00 03 00 00 00",
            "wrapped 01 07 00 10 04 00 03 00 00 00",
        ),
        ("wrap 9 10 04 00 03 00 00 00", "refused 1"),
        ("wrap 0", "refused 2"),
        ("wrap 128", "refused 2"),
        (&long("wrap 67", 64), &long("wrapped 01 40 00", 64)),
        (&long("wrap 66", 64), "refused 1"),
        (&long("wrap 0", 65), "refused 2"),
        (&long("wrap 128", 65), "refused 2"),
        ("wrap", "line 9: not a number"),
        ("wrap x 129", "line 10: not a number"),
        ("wrap 129 x", "line 11: number out of range"),
        ("wrap 128 x", "line 12: not bytes"),
        ("stream", "took 0"),
        ("stream 00 FF 01", "took 3"),
        ("dropped", "dropped 2"),
        ("stream 02 00 aa", "took 3"),
        ("stream BB", "took 1 frame AA BB"),
        (
            "stream 01 01 00 CC 01 01 00 DD",
            "took 4 frame CC / took 4 frame DD",
        ),
        (
            "stream 01 00 00 01 01 00 EE",
            "took 3 refused 16 at 0 / took 4 frame EE",
        ),
        ("stream 01 41 00", "took 3 refused 16 at 0"),
        (&long("stream", 64), "took 64"),
        ("stream 01 01 01 00 11", "took 5 frame 11"),
        ("stream 01 00 01 02", "took 3 refused 16 at 0 / took 1"),
        (&long("stream", 255), "took 255"),
        ("stream 01 01 00 07 33 33", "took 4 frame 07 / took 2"),
        ("stream 01 41 00 22", "took 3 refused 16 at 0 / took 1"),
        ("dropped", "dropped 4"),
        ("stream 0", "line 28: not bytes"),
        ("dropped 1", "line 29: too many words"),
        // A restart is none of the bench's business.
        ("restart", "ok"),
        ("dropped", "dropped 4"),
        (&long("stream", 64), "took 64"),
        ("stream 01 01 00 08", "took 4 frame 08"),
    ] {
        assert_eq!(answer(&mut simulation, line), expected, "{line}");
    }
}

const WELCOME_3: &str = "11 04 00 03 00 00 00 20 25 00 00 00 01 00 00 00 00 00 00 00 00 01 00 00 01 \
                         00 00 00 00 00 00 00 00 00 00 00 00 00 00 00 00 00 00 00 00 00 00";

#[test]
fn streams_to_both_ends() {
    let mut simulation = Simulation::new();
    let opened = format!("took 4 / took 4 / took 2 frame 10 04 00 03 00 00 00: ok {WELCOME_3}");
    let welcomed = format!("took 50 frame {WELCOME_3}: ok");
    for (line, expected) in [
        ("open 3", "ok 10 04 00 03 00 00 00"),
        ("pieces-box 1 4", &opened),
        ("pieces-office 1 128", &welcomed),
        ("raise 1000", "ok 12 06 00 03 00 00 00 01 00 22 02 00 E8 03"),
        ("room 46", "ok"),
        (
            "stream-box 01 0E 00 12 06 00 03 00 00 00 01 00 22 02 00 E8 03",
            "took 17 frame 12 06 00 03 00 00 00 01 00 22 02 00 E8 03: refused 1",
        ),
        ("room 47", "ok"),
        ("stream-box 01 0E 00 12 06 00 03 00", "took 8"),
        // A bare frame passes the receiver by.
        ("to-box 2", "ok 13 06 00 03 00 00 00 01 00"),
        (
            "stream-box 00 00 01 00 22 02 00 E8 03",
            "took 9 frame 12 06 00 03 00 00 00 01 00 22 02 00 E8 03: ok 13 06 00 03 00 00 00 01 00",
        ),
        (
            "stream-office 55 01 09 00 13 06 00 03 00 00 00 01 00 01 00 00",
            "took 13 frame 13 06 00 03 00 00 00 01 00: ok / took 3 refused 16 at 0",
        ),
        (
            "stream-box 01 01 00 10",
            "took 4 frame 10: refused 14 at 0 14 05 00 00 00 00 00 0E",
        ),
        (
            "stream-office 01 07 00 10 04 00 03 00 00 00",
            "took 10 frame 10 04 00 03 00 00 00: refused 19 at 0",
        ),
        // A length that is refused writes no REFUSE.
        ("stream-box 01 00 00", "took 3 refused 16 at 0"),
        ("stream-box", "took 0"),
        ("pieces-office 4 11", "took 11 frame 14 05 00 00 00 00 00 0E: ok"),
        ("to-office 5", "line 17: no such frame"),
    ] {
        assert_eq!(answer(&mut simulation, line), expected, "{line}");
    }
    let shown = answer(&mut simulation, "show");
    assert!(
        shown.contains("office settled session 3 confirmed 1 issued 1 settings E8 03"),
        "{shown}"
    );
}

#[test]
fn restart_renews_the_receiver_of_the_box() {
    let mut simulation = Simulation::new();
    run(&mut simulation, &["open 3", "to-box 1", "to-office 1"]);
    for (line, expected) in [
        ("stream-box 01 07", "took 2"),
        ("stream-office 01 09 00 13 06", "took 5"),
        ("restart", "ok"),
        (
            "pieces-box 1 9",
            "took 9 / took 1 frame 10 04 00 03 00 00 00: refused 6 14 05 00 03 00 00 00 06",
        ),
        ("stream-box 01 41 00 01", "took 3 refused 16 at 0 / took 1"),
        ("restart 2", "ok"),
        (
            "stream-box 01 02 00 10 04",
            "took 5 frame 10 04: refused 14 at 0 14 05 00 00 00 00 00 0E",
        ),
        (
            "stream-office 00 03 00 00 00 01 00",
            "took 7 frame 13 06 00 03 00 00 00 01 00: ok",
        ),
    ] {
        assert_eq!(answer(&mut simulation, line), expected, "{line}");
    }
}

#[test]
fn pieces_are_judged_from_left_to_right() {
    let mut simulation = Simulation::new();
    run(&mut simulation, &["open 3", "to-box 1"]);
    for (arguments, expected) in [
        ("", "not a number"),
        (" x x", "not a number"),
        (" 0 x", "no such frame"),
        (" 2 0", "no such frame"),
        (" 99999999999999999999999 129 x", "no such frame"),
        (" 1", "not a number"),
        (" 1 x x", "not a number"),
        (" 1 0 x", "number out of range"),
        (" 1 129 x", "number out of range"),
        (" 1 18446744073709551617", "number out of range"),
        (" 1 128 x", "too many words"),
        (" 1 1 into 47", "too many words"),
    ] {
        for word in ["pieces-box", "pieces-office"] {
            let line = format!("{word}{arguments}");
            let told = answer(&mut simulation, &line);
            assert_eq!(
                told.split_once(": ").map(|(_, what)| what),
                Some(expected),
                "{line}"
            );
        }
    }
}

#[test]
fn room_of_0_to_512() {
    let mut simulation = Simulation::new();
    assert_eq!(simulation.room(), 47);
    for (line, expected) in [
        ("room 512", "ok"),
        ("open 1", "ok 10 04 00 01 00 00 00"),
        ("room 46", "ok"),
        ("reopen", "refused 1"),
        ("room 513", "line 5: number out of range"),
        ("reopen", "refused 1"),
        ("room 65", "ok"),
        ("reopen", "ok 10 04 00 01 00 00 00"),
        ("room 0", "ok"),
        ("reopen", "refused 1"),
        ("room 256", "ok"),
        ("reopen", "ok 10 04 00 01 00 00 00"),
        // The packet writer's output is as long as its longest packet, whatever the room.
        ("room 0", "ok"),
        ("packet read 00", "packet A5 01 00 01"),
    ] {
        assert_eq!(answer(&mut simulation, line), expected, "{line}");
    }
}

#[test]
fn describe_the_box() {
    let mut simulation = Simulation::new();
    let mut box_is = |lines: &[&str], expected: String| {
        run(&mut simulation, lines);
        let described = answer(&mut simulation, "describe");
        assert_eq!(described.lines().next(), Some(&expected[..]));
    };
    box_is(&[], format!("box with no session open, highest 0: {FRESH}"));
    box_is(
        &["open 7", "to-box 1"],
        format!("box session 7, 0 orders taken: {FRESH}"),
    );
    box_is(
        &["box 12 06 00 07 00 00 00 01 00 22 02 00 E8 03"],
        format!("box session 7, 1 order taken: {}", at_level(1000)),
    );
    box_is(
        &["box 12 06 00 07 00 00 00 02 00 22 02 00 E8 03"],
        format!("box session 7, 2 orders taken: {}", at_level(2000)),
    );
    box_is(
        &["restart"],
        format!("box with no session open, highest 7: {FRESH}"),
    );
    box_is(
        &["restart 4294967295"],
        format!("box with no session open, highest 4294967295: {FRESH}"),
    );
}

#[test]
fn describe_the_office() {
    let mut simulation = Simulation::new();
    let mut office_is = |lines: &[&str], expected: &str| {
        run(&mut simulation, lines);
        let described = answer(&mut simulation, "describe");
        assert_eq!(described.lines().nth(1), Some(expected));
    };
    office_is(&[], "office never opened");
    office_is(&["open 7"], "office session 7, opening");
    office_is(
        &["to-box 1", "to-office 1"],
        &format!("office session 7, settled, 0 of 0 orders confirmed: {FRESH}"),
    );
    let settings = at_level(1000);
    office_is(
        &["raise 1000", "to-box 2", "to-office 2"],
        &format!("office session 7, settled, 1 of 1 orders confirmed: {settings}"),
    );
    let settings = at_level(3000);
    office_is(
        &["raise 1000", "raise 1000"],
        &format!("office session 7, waiting, 1 of 3 orders confirmed: {settings}"),
    );
    office_is(
        &["office 14 05 00 07 00 00 00 05"],
        "office session 7, over, 1 of 3 orders confirmed",
    );
    office_is(&["open 8"], "office session 8, opening");
    office_is(
        &["office 14 05 00 08 00 00 00 06"],
        "office session 8, over, 0 of 0 orders confirmed",
    );
}

#[test]
fn describe_every_setting() {
    let mut simulation = Simulation::new();
    run(
        &mut simulation,
        &[
            "open 1",
            "to-box 1",
            "to-office 1",
            "command 00 B8 88",
            "to-box 2",
            "command 04 01",
            "to-box 3",
            "command 4A 01",
            "to-box 4",
            "command 4C 02",
            "to-box 5",
            "command 4E 01 02 64",
            "to-box 6",
            "command 50 05 00 00 07 00 01",
            "to-box 7",
            "command A6 01 00 02 00 FF FF 00 01",
            "to-box 8",
            "to-office 8",
            "command C8 01",
            "to-box 9",
            "command CA 01 02",
            "to-box 10",
            "command CC FF FF",
            "to-box 11",
            "command CE 00 80",
            "to-box 12",
            "command D0 07 00",
            "to-box 13",
            "command D2 03",
            "to-box 14",
            "command 02 00",
            "to-box 15",
            "to-office 15",
        ],
    );
    let settings = "level 35000, master off, parked, splash mode 1, drive strength 2, heater 513 kHz at 100 %, \
                    bezel -5 and 7, test pixels (1, 2) to (65535, 256), calibration mode, red level 513, \
                    green level 65535, blue level 32768, current limit 7, sensor gain 3, status none";
    let described = answer(&mut simulation, "describe");
    let lines: Vec<&str> = described.lines().collect();
    assert_eq!(
        lines,
        [
            format!("box session 1, 14 orders taken: {settings}"),
            format!("office session 1, settled, 14 of 14 orders confirmed: {settings}"),
        ]
    );

    // A read while master is off; then an unknown ID, a wrong length, strength 3, and a level that needs an escape.
    run(
        &mut simulation,
        &[
            "command 01",
            "command 02 01",
            "command 1E",
            "command 00",
            "command 4C 03",
            "command 00 A5 00",
        ],
    );
    let described = answer(&mut simulation, "describe");
    let status = ", status not available, invalid command, out of range, escape seen, length";
    assert!(described.contains("level 165, master on,"), "{described}");
    assert!(described.ends_with(status), "{described}");
    // The extremes of an offset.
    run(
        &mut simulation,
        &[
            "to-box 16",
            "to-box 17",
            "command 50 FF FF 01 FF FF 00",
            "to-office 17",
        ],
    );
    assert!(answer(&mut simulation, "describe").contains(" bezel 65535 and -65535, "));
}

#[test]
fn describe_every_status_bit() {
    let named = [
        (0, 3, "incomplete"),
        (0, 2, "not available"),
        (0, 0, "invalid command"),
        (1, 5, "out of range"),
        (3, 7, "escape seen"),
        (3, 6, "length"),
        (3, 5, "bytes ignored"),
        (3, 4, "checksum"),
    ];
    let told = |status: [u8; 4]| {
        let mut simulation = Simulation::new();
        let status: String = status.iter().map(|byte| format!(" {byte:02X}")).collect();
        let welcome = format!(
            "office 11 04 00 01 00 00 00 20 25 00 00 00 01 00 00 00 00 00 00 00 00 01 00 00 01{}{status}",
            " 00".repeat(18)
        );
        run(&mut simulation, &["open 1", &welcome]);
        let described = answer(&mut simulation, "describe");
        described.rsplit_once(", status ").unwrap().1.to_string()
    };
    assert_eq!(told([0; 4]), "none");
    assert_eq!(told([0x08, 0, 0, 0x80]), "incomplete, escape seen");
    assert_eq!(told([0, 0, 1, 0]), "other bits");
    assert_eq!(
        told([0xFF; 4]),
        "incomplete, not available, invalid command, out of range, escape seen, length, bytes ignored, \
         checksum, other bits"
    );
    for byte in 0..4 {
        for bit in 0..8 {
            let mut status = [0; 4];
            status[byte] = 1 << bit;
            let name = named.iter().find(|(at, of, _)| (*at, *of) == (byte, bit));
            assert_eq!(told(status), name.map_or("other bits", |(.., name)| name));
        }
    }
}

#[test]
fn faults_of_a_frame_with_their_offsets() {
    let mut simulation = Simulation::new();
    for (line, expected) in [
        ("box 10 04 00 03 00 00", "refused 14 at 0 14 05 00 00 00 00 00 0E"),
        (
            "box 12 06 00 03 00 00 00 01 00",
            "refused 14 at 9 14 05 00 00 00 00 00 0E",
        ),
        ("box 22 02 00 E8 03", "refused 15 at 0 14 05 00 00 00 00 00 0F"),
        ("box 10 00 00", "refused 16 at 0 14 05 00 00 00 00 00 10"),
        (
            "box 12 06 00 03 00 00 00 00 00",
            "refused 17 at 0 14 05 00 00 00 00 00 11",
        ),
        (
            "box 10 04 00 03 00 00 00 10",
            "refused 18 at 7 14 05 00 00 00 00 00 12",
        ),
        (
            "box 13 06 00 03 00 00 00 01 00",
            "refused 19 at 0 14 05 00 00 00 00 00 13",
        ),
        ("office 11 04 00 03 00 00 00", "refused 14 at 7"),
        ("office 11 04 00 03 00 00 00 22 02 00 E8 03", "refused 15 at 7"),
        ("office 11 04 00 03 00 00 00 20 00 00", "refused 16 at 7"),
        ("office 14 05 00 00 00 00 00 04", "refused 17 at 0"),
        ("office 14 05 00 00 00 00 00 13", "ok"),
        ("office 13 06 00 03 00 00 00 01 00 00", "refused 18 at 9"),
        ("office 10 04 00 03 00 00 00", "refused 19 at 0"),
        // The offset is the frame's own, wherever it came in the stream.
        (
            "stream-office 00 01 0A 00 13 06 00 03 00 00 00 01 00 00 01 00 00",
            "took 14 frame 13 06 00 03 00 00 00 01 00 00: refused 18 at 9 / took 3 refused 16 at 0",
        ),
        // The box's refusals can be carried to the office, which does nothing on them.
        ("to-office 2", "ok"),
        ("pieces-office 7 20", "took 11 frame 14 05 00 00 00 00 00 13: ok"),
        ("room 46", "ok"),
        ("box", "refused 1"),
        ("office", "refused 14 at 0"),
    ] {
        assert_eq!(answer(&mut simulation, line), expected, "{line}");
    }
}

#[test]
fn explain_every_refusal() {
    let mut simulation = Simulation::new();
    for expected in [
        "1: output too short",
        "2: too much data, more than 8 at once, lengths that do not fit the bytes, or a frame that cannot be wrapped",
        "3: ID over 127",
        "5: no session open",
        "6: not the open session, nor one to open",
        "7: an order before this one is missing",
        "8: 8 orders unanswered",
        "9: no order number left",
        "10: office not open",
        "11: reserved response, or wrong sum",
        "12: reply not complete",
        "13: nothing to send again",
    ] {
        let number = expected.split(':').next().unwrap();
        assert_eq!(answer(&mut simulation, &format!("explain {number}")), expected);
    }
    for (number, words) in [
        (14, "ends inside the field at @, or before it"),
        (15, "unexpected tag of the field at @"),
        (16, "wrong length of the field at @"),
        (17, "contents not allowed in the field at @"),
        (18, "bytes after the end, from @ on"),
        (19, "meant for the other end, by the field at @"),
    ] {
        for offset in ["0", "7", "14", "4294967295"] {
            let line = format!("explain {number} at {offset}");
            let expected = format!("{number}: {}", words.replace('@', offset));
            assert_eq!(answer(&mut simulation, &line), expected);
        }
    }
    assert_eq!(
        answer(&mut simulation, " explain  014  at  007 # 14"),
        "14: ends inside the field at 7, or before it"
    );
}

#[test]
fn explain_what_is_no_refusal() {
    let mut simulation = Simulation::new();
    for (place, arguments) in [
        "",
        "0",
        "4",
        "4 at 0",
        "20",
        "20 at 0",
        "255",
        "256",
        "257",
        "262",
        "270 at 0",
        "4294967302",
        "18446744073709551622",
        "99999999999999999999999",
        "-6",
        "+6",
        "06x",
        "0x6",
        "x",
        "six",
        "at",
        "at 7",
        "6 at 7",
        "6 at",
        "6 7",
        "6 x",
        "14",
        "14 7",
        "14 at",
        "14 at x",
        "14 at -1",
        "14 at 7 7",
        "14 at 7 at 7",
        "14 At 7",
        "14 on 7",
        "14 at 4294967296",
        "14 at 18446744073709551623",
        "14 at 99999999999999999999999",
        "refused 6",
        "14 # at 7",
    ]
    .into_iter()
    .enumerate()
    {
        let expected = format!("line {}: not a refusal", place + 1);
        assert_eq!(answer(&mut simulation, &format!("explain {arguments}")), expected);
    }
    // The length of the line and the first word go before.
    let long = format!("explain{}4", " ".repeat(4089));
    assert_eq!(answer(&mut simulation, &long), "line 41: line too long");
    assert_eq!(answer(&mut simulation, "explains 6"), "line 42: not a call");
    assert_eq!(answer(&mut simulation, "Explain 6"), "line 43: not a call");
}
