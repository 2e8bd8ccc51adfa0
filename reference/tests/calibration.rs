//! Calibration mode, the lamps' levels, the current limit and the sensor gain: document 02's sixth request
//! by DLPU057A's sections 3.35 to 3.40. All bytes were worked out by hand.

mod common;
mod playing;

use common::hex;
use playing::{answer, expect, run};
use reference::cab::{Cab, Refused};
use reference::controller::Controller;
use reference::fault::{Fault, Wrong};
use reference::link::Order;
use reference::office::{Office, Word};
use reference::packet::{Way, write_packet};
use reference::refusal::Refusal;
use reference::script::Simulation;
use reference::settings::Settings;

const INTO_MODE: &str = "A5 C8 01 01 CA";
const OUT_OF_MODE: &str = "A5 C8 01 00 C9";
const MASTER_OFF: &str = "A5 02 01 00 03";
const MASTER_ON: &str = "A5 02 01 01 04";
const STATUS: &str = "A5 67 00 67";

const NO_STATUS: &str = "01 04 00 00 00 00 05";
const CHECKSUM: &str = "01 04 00 00 00 10 15";
const INVALID_COMMAND: &str = "01 04 01 00 00 00 06";
const NOT_AVAILABLE: &str = "01 04 04 00 00 00 09";
const LENGTH: &str = "01 04 00 00 00 40 45";
const OUT_OF_RANGE: &str = "01 04 00 20 00 00 25";

/// Sends the bytes, then 00: the reply comes at once, and nothing after it.
fn answers(controller: &mut Controller, bytes: &str, reply: &str) {
    let (sent, reply) = (hex(bytes), hex(reply));
    let input = sent.iter().copied().chain(vec![0x00; reply.len() + 1]);
    let out: Vec<u8> = input.map(|byte| controller.exchange(byte)).collect();
    assert_eq!(
        out,
        [vec![0xFF; sent.len()], reply, vec![0xFF]].concat(),
        "{bytes}"
    );
}

fn all_answer(controller: &mut Controller, rows: &[(&str, &str)]) {
    for (bytes, reply) in rows {
        answers(controller, bytes, reply);
    }
}

fn in_mode() -> Controller {
    let mut controller = Controller::fresh();
    answers(&mut controller, INTO_MODE, "01");
    controller
}

/// In calibration mode; the levels are 1201h, 2301h, 3401h and 4501h, the gain is 2.
fn trimmed() -> Controller {
    let mut controller = in_mode();
    all_answer(
        &mut controller,
        &[
            ("A5 CA 02 01 12 DF", "01"),
            ("A5 CC 02 01 23 F2", "01"),
            ("A5 CE 02 01 34 05", "01"),
            ("A5 D0 02 01 45 18", "01"),
            ("A5 D2 01 02 D5", "01"),
        ],
    );
    controller
}

/// What the six read as in `trimmed`.
const TRIMMED: [(&str, &str); 6] = [
    ("A5 C9 00 C9", "01 01 01 03"),
    ("A5 CB 00 CB", "01 02 01 12 16"),
    ("A5 CD 00 CD", "01 02 01 23 27"),
    ("A5 CF 00 CF", "01 02 01 34 38"),
    ("A5 D1 00 D1", "01 02 01 45 49"),
    ("A5 D3 00 D3", "01 01 02 04"),
];

/// What the six read as in a fresh controller.
const FRESH: [(&str, &str); 6] = [
    ("A5 C9 00 C9", "01 01 00 02"),
    ("A5 CB 00 CB", "01 02 00 00 03"),
    ("A5 CD 00 CD", "01 02 00 00 03"),
    ("A5 CF 00 CF", "01 02 00 00 03"),
    ("A5 D1 00 D1", "01 02 00 00 03"),
    ("A5 D3 00 D3", "01 01 00 02"),
];

const NORMAL_MODE: (&str, &str) = ("A5 C9 00 C9", "01 01 00 02");

#[test]
fn fresh_they_are_all_0() {
    let mut controller = Controller::fresh();
    all_answer(&mut controller, &FRESH);
    answers(&mut controller, STATUS, NO_STATUS);
}

#[test]
fn each_is_written_and_read_back() {
    let mut controller = trimmed();
    all_answer(&mut controller, &TRIMMED);
    answers(&mut controller, STATUS, NO_STATUS);
    let held = controller.settings();
    assert_eq!(
        [held.red, held.green, held.blue, held.current_limit],
        [0x1201, 0x2301, 0x3401, 0x4501]
    );
    assert_eq!((held.calibration, held.gain), (true, 2));
}

#[test]
fn levels_with_bytes_that_are_escaped() {
    let mut controller = in_mode();
    all_answer(
        &mut controller,
        &[
            // A5 5A is 5AA5h.
            ("A5 CA 02 5A 00 5A 5A CB", "01"),
            ("A5 CB 00 CB", "01 02 A5 5A 02"),
            ("A5 CC 02 5A 5A 5A 00 CD", "01"),
            ("A5 CD 00 CD", "01 02 5A A5 02"),
            // The sum is A5, and 5A.
            ("A5 CE 02 D5 00 5A 00", "01"),
            ("A5 CF 00 CF", "01 02 D5 00 D8"),
            ("A5 D0 02 00 88 5A 5A", "01"),
            ("A5 D1 00 D1", "01 02 00 88 8B"),
            (STATUS, "01 04 00 00 00 80 85"),
        ],
    );
    let held = controller.settings();
    assert_eq!(
        [held.red, held.green, held.blue, held.current_limit],
        [23205, 42330, 213, 34816]
    );
}

#[test]
fn the_sections_read_requests() {
    for (id, request) in [
        (0x64, "A5 C9 00 C9"),
        (0x65, "A5 CB 00 CB"),
        (0x66, "A5 CD 00 CD"),
        (0x67, "A5 CF 00 CF"),
        (0x68, "A5 D1 00 D1"),
        (0x69, "A5 D3 00 D3"),
    ] {
        assert_eq!(write_packet(Way::Read, id, &[], 516), Ok(hex(request)));
    }
}

/// What is held after a command; a refusal shows in the status.
fn run_on(before: &Controller, command: u8, data: &[u8]) -> Settings {
    let mut controller = before.clone();
    controller.run(command, data);
    *controller.settings()
}

/// A writer escapes some of the data, which "escape seen" tells; that is none of the command's doing.
fn without_escape(mut settings: Settings) -> Settings {
    settings.status[3] &= 0x7F;
    settings
}

#[test]
fn any_level_is_taken_and_nothing_else_changes() {
    let trimmed = trimmed();
    let before = *trimmed.settings();
    for value in 0..=255 {
        for [low, high] in [[value, 0x00], [0xFF, value], [value, value]] {
            let level = 256 * u16::from(high) + u16::from(low);
            for (command, after) in [
                (0xCA, Settings { red: level, ..before }),
                (
                    0xCC,
                    Settings {
                        green: level,
                        ..before
                    },
                ),
                (
                    0xCE,
                    Settings {
                        blue: level,
                        ..before
                    },
                ),
                (
                    0xD0,
                    Settings {
                        current_limit: level,
                        ..before
                    },
                ),
            ] {
                let held = without_escape(run_on(&trimmed, command, &[low, high]));
                assert_eq!(held, after, "{command:02X} {low:02X} {high:02X}");
            }
        }
    }
}

#[test]
fn modes_0_and_1_and_gains_0_to_3_are_taken() {
    for before in [Controller::fresh(), in_mode(), trimmed()] {
        let held = *before.settings();
        for value in 0..=255 {
            let after = without_escape(run_on(&before, 0xC8, &[value]));
            let expected = match value {
                0 | 1 => Settings {
                    calibration: value == 1,
                    ..held
                },
                _ => Settings {
                    status: [0x00, 0x20, 0x00, 0x00],
                    ..held
                },
            };
            assert_eq!(after, expected, "mode {value}");
        }
    }
    let trimmed = trimmed();
    let held = *trimmed.settings();
    for value in 0..=255 {
        let after = without_escape(run_on(&trimmed, 0xD2, &[value]));
        let expected = match value {
            0..=3 => Settings { gain: value, ..held },
            _ => Settings {
                status: [0x00, 0x20, 0x00, 0x00],
                ..held
            },
        };
        assert_eq!(after, expected, "gain {value}");
    }
}

#[test]
fn out_of_range() {
    for write in [
        "A5 C8 01 02 CB",
        "A5 C8 01 FF C8",
        "A5 D2 01 04 D7",
        "A5 D2 01 FF D2",
    ] {
        let mut controller = trimmed();
        answers(&mut controller, write, "07");
        answers(&mut controller, STATUS, OUT_OF_RANGE);
        all_answer(&mut controller, &TRIMMED);
    }
    let mut controller = Controller::fresh();
    all_answer(
        &mut controller,
        &[("A5 C8 01 02 CB", "07"), (STATUS, OUT_OF_RANGE)],
    );
    all_answer(&mut controller, &FRESH);
}

#[test]
fn section_4_11() {
    // As printed; the text beside it speaks of 01.
    let (host, printed) = ("A5 C8 01 02 CB 00 00", "FF FF FF FF FF FF 07");
    let without_dummies = |row: &[u8]| {
        row.iter()
            .copied()
            .filter(|byte| *byte != 0xFF)
            .collect::<Vec<_>>()
    };
    for (mut controller, mode) in [(Controller::fresh(), false), (in_mode(), true)] {
        let before = *controller.settings();
        let out: Vec<u8> = hex(host)
            .into_iter()
            .map(|byte| controller.exchange(byte))
            .collect();
        // One dummy less: the response goes out in the first exchange after the checksum.
        assert_eq!(out, hex("FF FF FF FF FF 07 FF"));
        assert_eq!(without_dummies(&out), without_dummies(&hex(printed)));
        let status = [0x00, 0x20, 0x00, 0x00];
        assert_eq!(*controller.settings(), Settings { status, ..before });
        assert_eq!(controller.settings().calibration, mode);
    }
}

#[test]
fn wrong_lengths_in_the_mode() {
    for request in [
        "A5 C8 00 C8",
        "A5 C8 02 00 00 CA",
        "A5 CA 00 CA",
        "A5 CA 01 09 D4",
        "A5 CA 03 09 09 09 E8",
        "A5 CC 01 09 D6",
        "A5 CE 03 09 09 09 EC",
        "A5 D0 01 09 DA",
        "A5 D2 00 D2",
        "A5 D2 02 00 00 D4",
        // Before the data are judged.
        "A5 C8 02 02 02 CE",
        "A5 D2 02 04 04 DC",
        // Reads have no data.
        "A5 C9 01 00 CA",
        "A5 CB 02 00 00 CD",
        "A5 CD 01 00 CE",
        "A5 CF 01 00 D0",
        "A5 D1 02 00 00 D3",
        "A5 D3 01 00 D4",
    ] {
        let mut controller = trimmed();
        all_answer(&mut controller, &[(request, "05"), (STATUS, LENGTH)]);
        all_answer(&mut controller, &TRIMMED);
    }
    // Outside the mode too, but for writes of 65h to 69h.
    for request in [
        "A5 C8 00 C8",
        "A5 C8 02 02 02 CE",
        "A5 C9 01 00 CA",
        "A5 CB 02 00 00 CD",
        "A5 D3 01 00 D4",
    ] {
        let mut controller = Controller::fresh();
        all_answer(&mut controller, &[(request, "05"), (STATUS, LENGTH)]);
        all_answer(&mut controller, &FRESH);
    }
}

/// Writes of 65h to 69h that would be taken in calibration mode.
const GOOD_WRITES: [&str; 5] = [
    "A5 CA 02 09 08 DD",
    "A5 CC 02 09 08 DF",
    "A5 CE 02 09 08 E1",
    "A5 D0 02 09 08 E3",
    "A5 D2 01 01 D4",
];

/// Such that would not, by their length (05) or by their data (07).
const BAD_WRITES: [&str; 8] = [
    "A5 CA 00 CA",
    "A5 CC 01 09 D6",
    "A5 CE 03 09 09 09 EC",
    "A5 D0 01 09 DA",
    "A5 D2 00 D2",
    "A5 D2 01 04 D7",
    "A5 D2 01 FF D2",
    "A5 D2 02 04 04 DC",
];

#[test]
fn refused_outside_the_mode() {
    let mut left = trimmed();
    answers(&mut left, OUT_OF_MODE, "01");
    for write in [&GOOD_WRITES[..], &BAD_WRITES].concat() {
        let mut controller = Controller::fresh();
        all_answer(&mut controller, &[(write, "04"), (STATUS, NOT_AVAILABLE)]);
        all_answer(&mut controller, &FRESH);
        answers(&mut controller, STATUS, NO_STATUS);
        // After the mode was left too; what it left stays.
        let mut controller = left.clone();
        all_answer(
            &mut controller,
            &[(write, "04"), (STATUS, NOT_AVAILABLE), NORMAL_MODE],
        );
        all_answer(&mut controller, &TRIMMED[1..]);
    }
    // Whatever the length and the data.
    for command in [0xCA, 0xCC, 0xCE, 0xD0, 0xD2] {
        for length in 0..=255 {
            let held = without_escape(run_on(&Controller::fresh(), command, &vec![length as u8; length]));
            let status = [0x04, 0x00, 0x00, 0x00];
            assert_eq!(
                held,
                Settings {
                    status,
                    ..Settings::fresh()
                },
                "{command:02X} {length}"
            );
        }
    }
}

#[test]
fn the_mode_is_switched_in_either_mode() {
    let mut controller = Controller::fresh();
    all_answer(
        &mut controller,
        &[
            (OUT_OF_MODE, "01"),
            NORMAL_MODE,
            (INTO_MODE, "01"),
            TRIMMED[0],
            (INTO_MODE, "01"),
            TRIMMED[0],
            (OUT_OF_MODE, "01"),
            NORMAL_MODE,
            (STATUS, NO_STATUS),
        ],
    );
}

#[test]
fn leaving_the_mode_keeps_the_levels() {
    let mut controller = trimmed();
    answers(&mut controller, OUT_OF_MODE, "01");
    answers(&mut controller, "A5 C9 00 C9", "01 01 00 02");
    all_answer(&mut controller, &TRIMMED[1..]);
    // And coming back.
    answers(&mut controller, INTO_MODE, "01");
    all_answer(&mut controller, &TRIMMED);
    all_answer(
        &mut controller,
        &[("A5 CC 02 09 08 DF", "01"), (STATUS, NO_STATUS)],
    );
    assert_eq!(controller.settings().green, 0x0809);
}

#[test]
fn master_off_keeps_mode_and_levels() {
    for into_or_out in [INTO_MODE, OUT_OF_MODE] {
        let mut controller = trimmed();
        answers(&mut controller, into_or_out, "01");
        let before = *controller.settings();
        answers(&mut controller, MASTER_OFF, "01");
        assert_eq!(
            *controller.settings(),
            Settings {
                master: false,
                ..before
            }
        );
        answers(&mut controller, MASTER_ON, "01");
        assert_eq!(*controller.settings(), before);
        all_answer(&mut controller, &TRIMMED[1..]);
    }
    // The mode holds again: a level is written.
    let mut controller = trimmed();
    all_answer(
        &mut controller,
        &[
            (MASTER_OFF, "01"),
            (MASTER_ON, "01"),
            TRIMMED[0],
            ("A5 D0 02 09 08 E3", "01"),
            ("A5 D1 00 D1", "01 02 09 08 14"),
            (STATUS, NO_STATUS),
        ],
    );
}

#[test]
fn with_master_off_all_six_are_not_available() {
    let reads = TRIMMED.map(|(request, _)| request);
    let modes = [INTO_MODE, OUT_OF_MODE, "A5 C8 01 02 CB", "A5 C8 00 C8"];
    let long_reads = ["A5 C9 01 00 CA", "A5 D3 01 00 D4"];
    for request in [&reads[..], &modes, &long_reads, &GOOD_WRITES, &BAD_WRITES].concat() {
        for mut controller in [Controller::fresh(), trimmed()] {
            let before = *controller.settings();
            all_answer(
                &mut controller,
                &[
                    (MASTER_OFF, "01"),
                    (request, "04"),
                    (MASTER_ON, "01"),
                    (STATUS, NOT_AVAILABLE),
                ],
            );
            assert_eq!(*controller.settings(), before, "{request}");
        }
    }
}

#[test]
fn the_sum_and_the_id_go_before_the_mode() {
    let with_master_off = || {
        let mut controller = trimmed();
        answers(&mut controller, MASTER_OFF, "01");
        controller
    };
    for (request, response, status) in [
        // The last byte should be DD, DA, D2 and D7.
        ("A5 CA 02 09 08 DC", "02", CHECKSUM),
        ("A5 D0 01 09 DB", "02", CHECKSUM),
        ("A5 D2 00 D3", "02", CHECKSUM),
        ("A5 D2 01 04 D6", "02", CHECKSUM),
        // 63h and 6Ah, and a write of 33h.
        ("A5 C6 00 C6", "03", INVALID_COMMAND),
        ("A5 C7 00 C7", "03", INVALID_COMMAND),
        ("A5 D4 02 00 00 D6", "03", INVALID_COMMAND),
        ("A5 D5 00 D5", "03", INVALID_COMMAND),
        ("A5 66 04 FF FF FF FF 66", "03", INVALID_COMMAND),
    ] {
        for mut controller in [Controller::fresh(), trimmed(), with_master_off()] {
            answers(&mut controller, request, response);
            all_answer(&mut controller, &[(MASTER_ON, "01"), (STATUS, status)]);
        }
    }
}

#[test]
fn every_other_register_is_the_same_in_either_mode() {
    // By its own data count in hexadecimal; no other ID is known.
    let counts = [
        (0x00, "02"),
        (0x01, "01"),
        (0x02, "01"),
        (0x25, "01"),
        (0x26, "01"),
        (0x27, "03"),
        (0x28, "06"),
        (0x33, "04"),
        (0x53, "08"),
        (0x64, "01"),
        (0x65, "02"),
        (0x66, "02"),
        (0x67, "02"),
        (0x68, "02"),
        (0x69, "01"),
    ];
    for mut controller in [Controller::fresh(), trimmed()] {
        for id in 0..=0x7F {
            let packet = write_packet(Way::Read, id, &[], 516).unwrap();
            for byte in packet {
                controller.exchange(byte);
            }
            let reply = [controller.exchange(0x00), controller.exchange(0x00)];
            let known = counts.iter().find(|(known, _)| *known == id);
            let expected = known.map_or([0x03, 0xFF], |(_, count)| [0x01, hex(count)[0]]);
            assert_eq!(reply, expected, "ID {id:02X}h");
        }
    }
    let mut controller = trimmed();
    all_answer(&mut controller, &UNTRIMMED);
    all_answer(&mut controller, &TRIMMED);
    answers(&mut controller, STATUS, NO_STATUS);
}

/// A write of each register that calibration is not about, master aside.
const UNTRIMMED: [(&str, &str); 7] = [
    ("A5 00 02 B8 88 42", "01"),
    ("A5 04 01 01 06", "01"),
    ("A5 4A 01 01 4C", "01"),
    ("A5 4C 01 02 4F", "01"),
    ("A5 4E 03 01 02 64 B8", "01"),
    ("A5 50 06 05 00 00 07 00 01 63", "01"),
    ("A5 A6 08 01 00 02 00 03 00 04 00 B8", "01"),
];

/// The settings block of a fresh controller.
const FRESH_BLOCK: &str = "00 00 01 00 00 00 00 00 00 00 00 01 00 00 01 00 00 00 00 00 00 00 00 \
                           00 00 00 00 00 00 00 00 00 00 00 00 00 00";

#[test]
fn the_block_by_hand() {
    let mut controller = trimmed();
    all_answer(&mut controller, &UNTRIMMED);
    answers(&mut controller, "A5 D2 01 04 D7", "07");
    let by_hand = [
        "B8 88 01 01 01 02",
        "01 02 64",
        "05 00 00 07 00 01",
        "01 00 02 00 03 00 04 00",
        "01",
        "01 12",
        "01 23",
        "01 34",
        "01 45",
        "02",
        "00 20 00 00",
    ];
    let block = hex(&by_hand.join(" "));
    assert_eq!(block.len(), 37);
    assert_eq!(controller.settings().to_block(), block);
    assert_eq!(Settings::from_block(&block), Some(*controller.settings()));
}

#[test]
fn each_place_of_the_block() {
    let fresh = hex(FRESH_BLOCK);
    assert_eq!(fresh.len(), 37);
    assert_eq!(Settings::fresh().to_block(), fresh);
    for (command, data, place) in [
        (0xC8, "01", 23),
        (0xCA, "12 34", 24),
        (0xCC, "12 34", 26),
        (0xCE, "12 34", 28),
        (0xD0, "12 34", 30),
        (0xD2, "03", 32),
    ] {
        let held = run_on(&in_mode(), command, &hex(data));
        let mut block = fresh.clone();
        block[23] = 0x01;
        block[place..place + hex(data).len()].copy_from_slice(&hex(data));
        assert_eq!(held.to_block(), block, "{command:02X}");
        assert_eq!(Settings::from_block(&block), Some(held), "{command:02X}");
    }
    // The status is the last: 34 is "out of range", 36 has "escape seen" and "length".
    let held = run_on(&Controller::fresh(), 0xC8, &[0xA5]);
    assert_eq!(held.to_block()[33..], hex("00 20 00 80"));
    let held = run_on(&Controller::fresh(), 0xCA, &[]);
    assert_eq!(held.to_block()[33..], hex("04 00 00 00"));
}

/// WELCOME of session 3, its block by parts.
fn welcome(parts: &[&str]) -> Vec<u8> {
    let block = parts.join(" ");
    hex(&format!("11 04 00 03 00 00 00 20 25 00 {block}"))
}

const UNTRIMMED_PART: &str = "00 00 01 00 00 00 00 00 00 00 00 01 00 00 01 00 00 00 00 00 00 00 00";

#[test]
fn a_welcome_has_47_bytes() {
    let mut cab = Cab::restarted(0);
    let fresh = welcome(&[FRESH_BLOCK]);
    assert_eq!(fresh.len(), 47);
    assert_eq!(cab.frame_in(&hex("10 04 00 03 00 00 00"), 47), Ok(fresh));
    for (number, order) in [
        (1, "C8 01"),
        (2, "CA 01 12"),
        (3, "CC A5 23"),
        (4, "CE 01 34"),
        (5, "D0 5A 45"),
        (6, "D2 02"),
        (7, "C8 00"),
    ] {
        let order = hex(order);
        let head = format!("12 06 00 03 00 00 00 0{number} 00 21 0{} 00", order.len());
        let ack = hex(&format!("13 06 00 03 00 00 00 0{number} 00"));
        assert_eq!(cab.frame_in(&[hex(&head), order].concat(), 47), Ok(ack));
    }
    let mut again = welcome(&[UNTRIMMED_PART, "00 01 12 A5 23 01 34 5A 45 02 00 00 00 80"]);
    again[3] = 0x04;
    assert_eq!(cab.frame_in(&hex("10 04 00 04 00 00 00"), 47), Ok(again));
}

fn opening() -> Office {
    let mut office = Office::NeverOpened;
    office.open(3, 47).unwrap();
    office
}

#[test]
fn blocks_that_a_controller_could_hold() {
    let refused = Err(Fault {
        offset: 7,
        wrong: Wrong::Contents,
    });
    for value in 0..=255 {
        let byte = format!("{value:02X}");
        let mode = welcome(&[UNTRIMMED_PART, &byte, "01 12 01 23 01 34 01 45 02 00 00 00 00"]);
        let expected = if value < 2 { Ok(()) } else { refused };
        assert_eq!(opening().frame_in(&mode), expected, "mode {value}");
        let gain = welcome(&[UNTRIMMED_PART, "00 01 12 01 23 01 34 01 45", &byte, "00 00 00 00"]);
        let expected = if value < 4 { Ok(()) } else { refused };
        assert_eq!(opening().frame_in(&gain), expected, "gain {value}");
        // Any level, in either mode.
        for mode in ["00", "01"] {
            let levels = [&byte[..]; 8].join(" ");
            let bytes = welcome(&[UNTRIMMED_PART, mode, &levels, "03 FF FF FF FF"]);
            let mut office = opening();
            assert_eq!(office.frame_in(&bytes), Ok(()), "level {value}");
            let held = office.settings().expect("it is open");
            let level = 257 * value;
            assert_eq!(
                [held.red, held.green, held.blue, held.current_limit],
                [level; 4],
                "level {value}"
            );
            assert_eq!(held.to_block(), bytes[10..], "level {value}");
        }
    }
    // At the box it is meant for the other end.
    let bytes = welcome(&[UNTRIMMED_PART, "02 01 12 01 23 01 34 01 45 04 00 00 00 00"]);
    let told = Cab::restarted(0).frame_in(&bytes, 47).unwrap_err();
    assert_eq!(told.refusal.to_string(), "19 at 0");
}

#[test]
fn blocks_in_another_order() {
    let mut office = opening();
    // The status before the six: its first byte stands where the mode should, and blue's low one where the
    // gain should.
    for (behind, told) in [
        ("02 00 00 00 01 01 12 01 23 01 34 01 45 02", "17 at 7"),
        ("00 00 00 00 01 01 12 01 23 04 34 01 45 02", "17 at 7"),
        // Gain and mode exchanged.
        ("02 01 12 01 23 01 34 01 45 01 00 00 00 00", "17 at 7"),
    ] {
        let fault = office.frame_in(&welcome(&[UNTRIMMED_PART, behind])).unwrap_err();
        assert_eq!(Refusal::from(fault).to_string(), told, "{behind}");
    }
    // Without the six, and with one byte more or less.
    for (block, told) in [
        (format!("20 1B 00 {UNTRIMMED_PART} 00 00 00 00"), "16 at 7"),
        (format!("20 26 00 {FRESH_BLOCK} 00"), "16 at 7"),
        (format!("20 24 00 {}", &FRESH_BLOCK[3..]), "16 at 7"),
        (format!("20 25 00 {}", &FRESH_BLOCK[3..]), "14 at 7"),
        (format!("20 25 00 {FRESH_BLOCK} 00"), "18 at 47"),
    ] {
        let bytes = hex(&format!("11 04 00 03 00 00 00 {block}"));
        let fault = office.frame_in(&bytes).unwrap_err();
        assert_eq!(Refusal::from(fault).to_string(), told, "{block}");
    }
    assert_eq!(office.word(), Word::Waiting);
    assert!(office.settings().is_none());
}

#[test]
fn every_call_of_the_office_needs_47_bytes() {
    let short = Err(Refusal::ShortOutput);
    let open = hex("10 04 00 03 00 00 00");
    let mut office = Office::NeverOpened;
    for room in [0, 7, 37, 46] {
        assert_eq!(office.open(3, room), short, "{room}");
        assert!(office.progress().is_none());
    }
    assert_eq!(office.open(3, 47), Ok(open.clone()));
    for room in [0, 7, 37, 46] {
        assert_eq!(office.open_again(room), short, "{room}");
    }
    assert_eq!(office.open_again(47), Ok(open));
    office.frame_in(&welcome(&[FRESH_BLOCK])).unwrap();

    let (command, data) = (0xC8, vec![0x01]);
    let orders = [Order::Raise(1), Order::Lower(1), Order::Command { command, data }];
    for (number, order) in (1..).zip(orders) {
        for room in [0, 14, 37, 46] {
            assert_eq!(office.issue(order.clone(), room), short, "{room}");
            assert_eq!(office.progress().unwrap().issued, number - 1);
        }
        let frame = office.issue(order, 47).unwrap();
        for room in [0, 14, 37, 46] {
            assert_eq!(office.send_again(number, room), short, "{room}");
        }
        assert_eq!(office.send_again(number, 47), Ok(frame));
    }
    // Of a batch each order needs 47 behind the frames of 14 bytes before it.
    let two = [Order::Raise(1), Order::Raise(1)];
    for room in [0, 46, 47, 51, 60] {
        assert_eq!(office.issue_all(&two, room), Err(Refusal::ShortOutput), "{room}");
        assert_eq!(office.progress().unwrap().issued, 3);
    }
    assert_eq!(office.issue_all(&two, 61).unwrap().len(), 2);
    assert_eq!(office.issue_all(&two[..1], 46), Err(Refusal::ShortOutput));
    assert_eq!(office.issue_all(&two[..1], 47).unwrap().len(), 1);
}

#[test]
fn every_call_of_the_box_needs_47_bytes() {
    let short = Refused {
        refusal: Refusal::ShortOutput,
        frame: None,
    };
    let mut cab = Cab::restarted(0);
    // An ORDER too early, an OPEN, ORDERs, a repeat, one too far, and rubbish.
    for (frame, written) in [
        ("12 06 00 03 00 00 00 01 00 21 02 00 C8 01", 8),
        ("10 04 00 03 00 00 00", 47),
        ("12 06 00 03 00 00 00 01 00 21 02 00 C8 01", 9),
        ("12 06 00 03 00 00 00 02 00 21 03 00 CA 01 12", 9),
        ("12 06 00 03 00 00 00 02 00 21 03 00 CA 01 12", 9),
        ("12 06 00 03 00 00 00 04 00 21 03 00 CA 01 12", 8),
        ("10 04 00 03 00 00 00", 9),
        ("10 04 00 02 00 00 00", 8),
        ("99", 8),
        ("", 8),
    ] {
        let before = format!("{cab:?}");
        for room in [0, 9, 37, 46] {
            assert_eq!(cab.frame_in(&hex(frame), room), Err(short.clone()), "{frame}");
            let run = cab.frames_in(&[hex(frame).len() as u64], &hex(frame), room);
            assert_eq!(run, Err(Refusal::ShortOutput), "{frame}");
            let two = [hex(frame), hex(frame)].concat();
            let lengths = [hex(frame).len() as u64; 2];
            assert_eq!(
                cab.frames_in(&lengths, &two, 47 + room),
                Err(Refusal::ShortOutput),
                "{frame}"
            );
        }
        assert_eq!(format!("{cab:?}"), before, "{frame}");
        let mut other = cab.clone();
        let run = other
            .frames_in(&[hex(frame).len() as u64], &hex(frame), 47)
            .unwrap();
        let single = cab.frame_in(&hex(frame), 47);
        assert_eq!(run.len(), 1, "{frame}");
        assert_eq!(run[0], single, "{frame}");
        let frame_out = single.unwrap_or_else(|refused| refused.frame.expect("a REFUSE"));
        assert_eq!(frame_out.len(), written, "{frame}");
    }
    let held = cab.controller().settings();
    assert_eq!((held.calibration, held.red), (true, 0x1201));
}

#[test]
fn an_order_outside_the_mode_is_taken_and_counted() {
    let mut cab = Cab::restarted(0);
    let mut office = opening();
    office
        .frame_in(&cab.frame_in(&hex("10 04 00 03 00 00 00"), 47).unwrap())
        .unwrap();
    for (command, data, order, ack, behind) in [
        (
            0xCA,
            "01 12",
            "12 06 00 03 00 00 00 01 00 21 03 00 CA 01 12",
            "13 06 00 03 00 00 00 01 00",
            "00 00 00 00 00 00 00 00 00 00 04 00 00 00",
        ),
        // A read clears the status, and needs no mode.
        (
            0x67,
            "",
            "12 06 00 03 00 00 00 02 00 21 01 00 67",
            "13 06 00 03 00 00 00 02 00",
            "00 00 00 00 00 00 00 00 00 00 00 00 00 00",
        ),
        // Nine data bytes of which one is escaped, and a gain of 4: not available all the same.
        (
            0xCC,
            "A5 00 00 00 00 00 00 00 00",
            "12 06 00 03 00 00 00 03 00 21 0A 00 CC A5 00 00 00 00 00 00 00 00",
            "13 06 00 03 00 00 00 03 00",
            "00 00 00 00 00 00 00 00 00 00 04 00 00 80",
        ),
        (
            0xD2,
            "04",
            "12 06 00 03 00 00 00 04 00 21 02 00 D2 04",
            "13 06 00 03 00 00 00 04 00",
            "00 00 00 00 00 00 00 00 00 00 04 00 00 80",
        ),
        (
            0xC8,
            "01",
            "12 06 00 03 00 00 00 05 00 21 02 00 C8 01",
            "13 06 00 03 00 00 00 05 00",
            "01 00 00 00 00 00 00 00 00 00 04 00 00 80",
        ),
        (
            0xD2,
            "04",
            "12 06 00 03 00 00 00 06 00 21 02 00 D2 04",
            "13 06 00 03 00 00 00 06 00",
            "01 00 00 00 00 00 00 00 00 00 04 20 00 80",
        ),
        (
            0xD0,
            "FF 01",
            "12 06 00 03 00 00 00 07 00 21 03 00 D0 FF 01",
            "13 06 00 03 00 00 00 07 00",
            "01 00 00 00 00 00 00 FF 01 00 04 20 00 80",
        ),
    ] {
        let data = hex(data);
        assert_eq!(office.issue(Order::Command { command, data }, 47), Ok(hex(order)));
        assert_eq!(cab.frame_in(&hex(order), 47), Ok(hex(ack)));
        office.frame_in(&hex(ack)).unwrap();
        assert_eq!(office.word(), Word::Settled);
        let block = hex(&format!("{UNTRIMMED_PART} {behind}"));
        assert_eq!(cab.controller().settings().to_block(), block, "{order}");
        assert_eq!(office.settings().unwrap().to_block(), block, "{order}");
    }
}

#[test]
fn a_session_that_trims_the_lamps() {
    let mut simulation = Simulation::new();
    expect(&mut simulation, &[("open 7", "ok 10 04 00 07 00 00 00")]);
    run(&mut simulation, &["to-box 1", "to-office 1"]);
    let seven = "refused 7 14 05 00 07 00 00 00 07";
    expect(
        &mut simulation,
        &[
            ("command C8 01", "ok 12 06 00 07 00 00 00 01 00 21 02 00 C8 01"),
            (
                "command CA 10 27",
                "ok 12 06 00 07 00 00 00 02 00 21 03 00 CA 10 27",
            ),
            (
                "command CC A5 5A",
                "ok 12 06 00 07 00 00 00 03 00 21 03 00 CC A5 5A",
            ),
            // The first order is lost; the others come too early.
            ("to-box 3", seven),
            ("to-box 4", seven),
            ("resend 1", "ok 12 06 00 07 00 00 00 01 00 21 02 00 C8 01"),
            ("to-box 5", "ok 13 06 00 07 00 00 00 01 00"),
            // Its ACK is lost. The second is taken, and comes again.
            ("to-box 3", "ok 13 06 00 07 00 00 00 02 00"),
            ("resend 1", "ok 12 06 00 07 00 00 00 01 00 21 02 00 C8 01"),
            ("to-box 6", "ok 13 06 00 07 00 00 00 02 00"),
            ("to-box 4", "ok 13 06 00 07 00 00 00 03 00"),
            ("to-office 7", "ok"),
            (
                "command CE 00 30",
                "ok 12 06 00 07 00 00 00 04 00 21 03 00 CE 00 30",
            ),
            (
                "command D0 FF FF",
                "ok 12 06 00 07 00 00 00 05 00 21 03 00 D0 FF FF",
            ),
            ("command D2 03", "ok 12 06 00 07 00 00 00 06 00 21 02 00 D2 03"),
            ("command C8 00", "ok 12 06 00 07 00 00 00 07 00 21 02 00 C8 00"),
            (
                "to-box-all 7 8 9 10 into 188",
                "ok 13 06 00 07 00 00 00 04 00 / ok 13 06 00 07 00 00 00 05 00 / \
                 ok 13 06 00 07 00 00 00 06 00 / ok 13 06 00 07 00 00 00 07 00, 152 untouched",
            ),
            // The late order is not obeyed twice, though the mode is left now.
            ("to-box 4", "ok 13 06 00 07 00 00 00 07 00"),
            ("to-office 12", "ok"),
        ],
    );
    let settings = "00 00 01 00 00 00 00 00 00 00 00 01 00 00 01 00 00 00 00 00 00 00 00 \
                    00 10 27 A5 5A 00 30 FF FF 03 00 00 00 80";
    let words = "level 0, master on, not parked, splash mode 0, drive strength 0, heater 0 kHz at 0 %, \
                 bezel 0 and 0, test pixels (0, 0) to (0, 0), normal mode, red level 10000, green level 23205, \
                 blue level 12288, current limit 65535, sensor gain 3, status escape seen";
    expect(
        &mut simulation,
        &[
            (
                "show",
                &format!(
                    "box session 7 highest 7 taken 7 settings {settings}\n\
                     office settled session 7 confirmed 7 issued 7 settings {settings}"
                ),
            ),
            (
                "describe",
                &format!(
                    "box session 7, 7 orders taken: {words}\n\
                     office session 7, settled, 7 of 7 orders confirmed: {words}"
                ),
            ),
        ],
    );
    // A relief fitter finds it so; a restart does not.
    expect(
        &mut simulation,
        &[
            ("use 2", "ok"),
            ("open 8", "ok 10 04 00 08 00 00 00"),
            (
                "to-box 11",
                &format!("ok 11 04 00 08 00 00 00 20 25 00 {settings}"),
            ),
            ("to-office 13", "ok"),
            ("command C8 01", "ok 12 06 00 08 00 00 00 01 00 21 02 00 C8 01"),
            ("to-box 12", "ok 13 06 00 08 00 00 00 01 00"),
            ("restart", "ok"),
            ("open 9", "ok 10 04 00 09 00 00 00"),
            (
                "to-box 13",
                &format!("ok 11 04 00 09 00 00 00 20 25 00 {FRESH_BLOCK}"),
            ),
        ],
    );
    let described = answer(&mut simulation, "describe");
    assert!(
        described.starts_with(&format!(
            "box session 9, 0 orders taken: {}",
            "level 0, master on, not parked, splash mode 0, drive strength 0, heater 0 kHz at 0 %, \
             bezel 0 and 0, test pixels (0, 0) to (0, 0), normal mode, red level 0, green level 0, blue level 0, \
             current limit 0, sensor gain 0, status none\n"
        )),
        "{described}"
    );
}

#[test]
fn a_link_that_loses_frames_settles_at_last() {
    // Every order and every ACK is lost so often before it comes through.
    for losses in 0..4 {
        let mut simulation = Simulation::new();
        run(&mut simulation, &["open 3", "to-box 1", "to-office 1"]);
        for (number, order) in (1..).zip([
            "C8 01", "CA 5A A5", "CC 00 01", "CE 02 03", "D0 04 05", "02 00", "D2 01", "02 01", "D2 02",
            "C8 00", "CA 00 00",
        ]) {
            run(&mut simulation, &[&format!("command {order}")]);
            for _ in 0..losses {
                run(&mut simulation, &[&format!("resend {number}")]);
            }
            for lost in 0..=losses {
                let latest = simulation.from_offices().written();
                run(&mut simulation, &[&format!("to-box {latest}")]);
                if lost == losses {
                    let latest = simulation.from_cab().written();
                    run(&mut simulation, &[&format!("to-office {latest}")]);
                } else {
                    run(&mut simulation, &[&format!("resend {number}")]);
                }
            }
        }
        // With master off the gain 1 was not available, nor was the red level after the mode.
        let settings = "00 00 01 00 00 00 00 00 00 00 00 01 00 00 01 00 00 00 00 00 00 00 00 \
                        00 5A A5 00 01 02 03 04 05 02 04 00 00 80";
        let shown = format!(
            "box session 3 highest 3 taken 11 settings {settings}\n\
             office settled session 3 confirmed 11 issued 11 settings {settings}"
        );
        expect(&mut simulation, &[("show", &shown)]);
    }
}
