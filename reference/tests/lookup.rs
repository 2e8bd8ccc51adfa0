//! What `lookup` and `measure` share: the fifteen rows beside what the controller does, a difference in
//! words, the shuffled order, and the lines of the times.

use reference::controller::Controller;
use reference::lookup::{Times, commands_with_rows, difference, expected, in_words, shuffle};
use reference::packet::{LONGEST_PACKET, Way, write_packet};
use reference::rng::Rng;

const WRITTEN: u32 = 0x1000;
const WITH_MASTER_OFF: u32 = 0x2000;
const IN_CALIBRATION_ONLY: u32 = 0x4000;

/// The reply's first two bytes: the response, and behind it the data count of a good read.
fn reply(controller: &mut Controller, way: Way, id: u8, data: &[u8]) -> [u8; 2] {
    let packet = write_packet(way, id, data, LONGEST_PACKET).expect("a seven-bit ID and little data");
    for byte in packet {
        controller.exchange(byte);
    }
    [controller.exchange(0x00), controller.exchange(0x00)]
}

/// A controller to which this has been written.
fn after(id: u8, value: u8) -> Controller {
    let mut controller = Controller::fresh();
    assert_eq!(reply(&mut controller, Way::Write, id, &[value])[0], 0x01);
    controller
}

fn with_master_off() -> Controller {
    after(0x01, 0)
}

fn in_calibration_mode() -> Controller {
    after(0x64, 1)
}

/// The row as the controller shows it: no number is in it, and no row where a read is an invalid command.
/// Writes have no data here: one that is available is answered with 05.
fn shown(id: u8) -> Option<u32> {
    let [response, count] = reply(&mut Controller::fresh(), Way::Read, id, &[]);
    if response == 0x03 {
        return None;
    }
    assert_eq!(response, 0x01, "read of ID {id:02X}h");
    let mut row = u32::from(count);
    let [normal, calibrating] = [Controller::fresh(), in_calibration_mode()]
        .map(|mut controller| reply(&mut controller, Way::Write, id, &[])[0]);
    match (normal, calibrating) {
        (0x03, 0x03) => {}
        (0x05, 0x05) => row += WRITTEN,
        (0x04, 0x05) => row += WRITTEN + IN_CALIBRATION_ONLY,
        other => panic!("write of ID {id:02X}h: {other:02X?}"),
    }
    // In calibration mode it is read too, and with master off its writes fare as its reads.
    assert_eq!(
        reply(&mut in_calibration_mode(), Way::Read, id, &[])[0..1],
        [0x01]
    );
    let [read, written] = [Way::Read, Way::Write].map(|way| reply(&mut with_master_off(), way, id, &[])[0]);
    match (read, written) {
        (0x04, 0x03 | 0x04) => {}
        (0x01, 0x05) => row += WITH_MASTER_OFF,
        other => panic!("ID {id:02X}h with master off: {other:02X?}"),
    }
    Some(row)
}

#[test]
fn the_rows_are_the_controllers() {
    let mut rows = 0;
    for id in 0..=0x7F {
        let answer = shown(id).map_or(0, |row| row + 0x100 * rows);
        rows += u32::from(answer != 0);
        for command in [2 * id, 2 * id + 1] {
            assert_eq!(expected(command), answer, "{command:02X}h");
        }
    }
    assert_eq!(rows, 15);
    assert_eq!(commands_with_rows().len(), 30);
}

#[test]
fn rows_of_the_last_ids() {
    // Register 9, then 10 to 14; 63h and 6Ah have no row.
    for (command, answer) in [
        (0xC6, 0x0000),
        (0xC7, 0x0000),
        (0xC8, 0x1901),
        (0xC9, 0x1901),
        (0xCA, 0x5A02),
        (0xCB, 0x5A02),
        (0xCC, 0x5B02),
        (0xCD, 0x5B02),
        (0xCE, 0x5C02),
        (0xCF, 0x5C02),
        (0xD0, 0x5D02),
        (0xD1, 0x5D02),
        (0xD2, 0x5E01),
        (0xD3, 0x5E01),
        (0xD4, 0x0000),
        (0xD5, 0x0000),
    ] {
        assert_eq!(expected(command), answer, "{command:02X}h");
    }
}

#[test]
fn answers_in_words() {
    for (answer, words) in [
        (0x0000, "no row"),
        (
            0x1002,
            "00h backlight, written and read, 2 data bytes, not available while master is off",
        ),
        (
            0x3101,
            "01h master, written and read, 1 data byte, available while master is off",
        ),
        (
            0x0704,
            "33h status, read only, 4 data bytes, not available while master is off",
        ),
        (
            0x1901,
            "64h calibration mode, written and read, 1 data byte, not available while master is off",
        ),
        (
            0x5A02,
            "65h red level, written and read, 2 data bytes, not available while master is off, \
             written in calibration mode only",
        ),
        (
            0x5E01,
            "69h sensor gain, written and read, 1 data byte, not available while master is off, \
             written in calibration mode only",
        ),
        (
            0x8F00,
            "a register number 15, which is none, read only, 0 data bytes, \
             not available while master is off, and bits above these",
        ),
        (
            0x1_7101,
            "01h master, written and read, 1 data byte, available while master is off, \
             written in calibration mode only, and bits above these",
        ),
    ] {
        assert_eq!(in_words(answer), words);
    }
}

#[test]
fn a_difference_is_told_in_words() {
    for command in 0..=u8::MAX {
        let right = expected(command);
        assert_eq!(difference(command, right, right), None);
        assert!(difference(command, right ^ 1, right).is_some());
        assert!(difference(command, right, right ^ 0x8000_0000).is_some());
        assert!(difference(command, right ^ 1, right ^ 1).is_some());
    }
    let told = difference(0x4F, 0x1502, 0x1503).expect("the counts differ");
    let lines = [
        "command byte 4Fh, a read of ID 27h:",
        "  by table  1502h  27h heater, written and read, 2 data bytes, not available while master is off",
        "  by match  1503h  27h heater, written and read, 3 data bytes, not available while master is off",
        "  expected  1503h  27h heater, written and read, 3 data bytes, not available while master is off",
    ];
    assert_eq!(told, lines.join("\n"));
    let told = difference(0xCE, 0x5C02, 0x1C02).expect("the rights differ");
    let lines = [
        "command byte CEh, a write of ID 67h:",
        "  by table  5C02h  67h blue level, written and read, 2 data bytes, not available while master is off, \
         written in calibration mode only",
        "  by match  1C02h  67h blue level, written and read, 2 data bytes, not available while master is off",
        "  expected  5C02h  67h blue level, written and read, 2 data bytes, not available while master is off, \
         written in calibration mode only",
    ];
    assert_eq!(told, lines.join("\n"));
}

#[test]
fn a_shuffle_keeps_every_byte_and_repeats() {
    let sorted: Vec<u8> = (0..=u8::MAX).collect();
    let shuffled = |seed| {
        let mut commands = sorted.clone();
        shuffle(&mut commands, &mut Rng::new(seed, 0));
        commands
    };
    for seed in 0..20 {
        let mut commands = shuffled(seed);
        assert_eq!(commands, shuffled(seed));
        assert_ne!(commands, shuffled(seed + 1));
        assert_ne!(commands, sorted);
        commands.sort();
        assert_eq!(commands, sorted);
    }
}

/// Every byte may come to every place.
#[test]
fn a_shuffle_leaves_no_place_out() {
    let mut met = [[false; 4]; 4];
    let mut rng = Rng::new(1, 0);
    for _ in 0..200 {
        let mut bytes = [0, 1, 2, 3];
        shuffle(&mut bytes, &mut rng);
        for (place, byte) in bytes.into_iter().enumerate() {
            met[place][usize::from(byte)] = true;
        }
    }
    assert_eq!(met, [[true; 4]; 4]);
}

fn times(first: f64) -> Times {
    Times {
        best: (0..256).map(|command| first + f64::from(command)).collect(),
        median: (0..256).map(|command| first + f64::from(command) / 2.0).collect(),
        total: (0..256).map(|command| first + f64::from(command) / 4.0).collect(),
        streams: [first + 2.5, first + 3.25],
    }
}

#[test]
fn lines_tell_the_times() {
    let (one, other) = (times(1.5), times(100.0));
    let lines = format!("{}{}sum 7\n", one.lines("one"), other.lines("other"));
    assert!(lines.starts_with("one byte 00 best 1.5000 median 1.5000 total 1.5000\n"));
    assert!(lines.contains("\none byte 01 best 2.5000 median 2.0000 total 1.7500\n"));
    assert!(lines.ends_with("\nother streams 102.5000 103.2500\nsum 7\n"));
    assert_eq!(Times::of_lines("one", &lines), Some(one));
    assert_eq!(Times::of_lines("other", &lines), Some(other));
    assert_eq!(Times::of_lines("on", &lines), None);
}

#[test]
fn lines_must_be_whole() {
    let lines = times(1.5).lines("one");
    let without = |line: &str| {
        assert!(lines.contains(line));
        lines.replace(line, "")
    };
    for bad in [
        without("one byte FF best 256.5000 median 129.0000 total 65.2500\n"),
        without("one byte 00 best 1.5000 median 1.5000 total 1.5000\n"),
        without("one byte 4C best 77.5000 median 39.5000 total 20.5000\n"),
        without("one streams 4.0000 4.7500\n"),
        lines.replace("77.5000", "much"),
        lines.replace("77.5000", "inf"),
        lines.replace("39.5000", ""),
        lines.replace("4.7500\n", "\n"),
    ] {
        assert_eq!(Times::of_lines("one", &bad), None, "{bad}");
    }
}
