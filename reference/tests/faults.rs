//! What is wrong with a frame: document 02's second request. The tables were worked out by
//! hand; behind them stand properties over frames of every kind.

mod common;

use common::hex;
use reference::cab::{Cab, Refused};
use reference::fault::{self, Wrong};
use reference::link::{End, Frame, Order};
use reference::office::{Office, Word};
use reference::refusal::Refusal;
use reference::rng::Rng;
use reference::settings::{Heater, Settings};

const OPEN: &str = "10 04 00 03 00 00 00";
const WELCOME: &str = "11 04 00 03 00 00 00";
const ORDER: &str = "12 06 00 03 00 00 00 01 00";
const ACK: &str = "13 06 00 03 00 00 00 01 00";
const REFUSE: &str = "14 05 00 03 00 00 00 05";
/// The settings of a fresh controller.
const FRESH: &str = "00 00 01 00 00 00 00 00 00 00 00 01 00 00 01 00 00 00 00 00 00 00 00 \
                     00 00 00 00 00 00 00 00 00 00 00 00 00 00";

const ENDS: [End; 2] = [End::Box, End::Office];

/// The number and the offset told, as an answer prints them.
fn told(bytes: &[u8], end: End) -> Option<String> {
    fault::told(bytes, end).map(|fault| Refusal::from(fault).to_string())
}

fn expect(bytes: &[u8], end: End, number: u8, offset: usize) {
    let expected = format!("{number} at {offset}");
    assert_eq!(told(bytes, end), Some(expected), "{bytes:02X?} at {end:?}");
}

/// A first field at fault is told alike at both ends.
fn at_both(number: u8, rows: &[&str]) {
    for row in rows {
        for end in ENDS {
            expect(&hex(row), end, number, 0);
        }
    }
}

/// Behind a good first field; at the other end that field has the lower offset.
fn at_second(end: End, number: u8, rows: &[&str]) {
    let first = hex(if end == End::Box { ORDER } else { WELCOME });
    for row in rows {
        let bytes = [&first[..], &hex(row)].concat();
        expect(&bytes, end, number, first.len());
        expect(&bytes, end.other(), 19, 0);
    }
}

#[test]
fn fourteen_ends_inside_a_field_or_before_a_needed_one() {
    at_both(
        14,
        &[
            "",
            "10",
            "10 04",
            "10 04 00",
            "10 04 00 03 00 00",
            "11 04 00 03 00 00",
            "12 06 00 03 00 00 00 01",
            "13 06 00 03 00 00 00 01",
            "14 05 00 03 00 00 00",
            // The high byte of the length counts.
            "10 04 01 03 00 00 00",
            "14 FF FF 03 00 00 00 05",
            // Before 15: an unknown tag, and a known one in the wrong place.
            "FF",
            "00 00",
            "15 01 00",
            "20 25 00 00",
            "22 02",
            // Before 16.
            "10 05 00 03 00 00 00",
            "13 07 00 03 00 00 00 01 00",
            // Before 17: number 0, and a REFUSE that carries 4.
            "12 07 00 03 00 00 00 00 00",
            "14 06 00 00 00 00 00 04",
        ],
    );
    at_second(
        End::Box,
        14,
        &[
            "",
            "21",
            "21 01",
            "21 01 00",
            "21 03 00 00 01",
            "22",
            "22 02",
            "22 02 00",
            "22 02 00 E8",
            "23 02 00 E8",
            "22 02 01 E8 03",
            "FF",
            "00 00",
            "24 01 00",
            "10 04 00 03 00 00",
            "20 25",
            "21 12 00 00",
            "22 03 00 E8 03",
            "23 FF FF E8 03",
        ],
    );
    at_second(
        End::Office,
        14,
        &[
            "",
            "20",
            "20 25",
            "20 25 00",
            &format!("20 25 00 {}", &FRESH[..36 * 3 - 1]),
            &format!("20 25 01 {FRESH}"),
            &format!("20 26 00 {FRESH}"),
            "FF",
            "00 00",
            "22 02 00 E8",
            "11 04 00 03 00 00",
            // Before 17: master 2.
            "20 25 00 00 00 02",
        ],
    );
}

#[test]
fn fifteen_an_unexpected_tag_or_order_of_tags() {
    at_both(
        15,
        &[
            "00 00 00",
            "01 07 00 10 04 00 03 00 00 00",
            "0F 04 00 03 00 00 00",
            "15 05 00 03 00 00 00 05",
            "90 04 00 03 00 00 00",
            &format!("20 25 00 {FRESH}"),
            "21 01 00 01",
            "22 02 00 E8 03",
            "23 02 00 E8 03",
            // The fields of a frame in the wrong order.
            "22 02 00 E8 03 12 06 00 03 00 00 00 01 00",
            // Before 16 and 17.
            "22 03 00 E8 03 00",
            "21 00 00",
            "20 00 00",
            // Bytes after have a higher offset.
            "FF 00 00 FF",
        ],
    );
    at_second(
        End::Box,
        15,
        &[
            "00 00 00",
            "1F 02 00 E8 03",
            "24 02 00 E8 03",
            "A2 02 00 E8 03",
            &format!("20 25 00 {FRESH}"),
            OPEN,
            ORDER,
            REFUSE,
            "10 02 00 E8 03",
            "20 02 00 E8 03",
            "12 06 00 03 00 00 00 00 00",
            "24 02 00 E8 03 FF",
        ],
    );
    at_second(
        End::Office,
        15,
        &[
            "00 00 00",
            &format!("1F 25 00 {FRESH}"),
            &format!("24 25 00 {FRESH}"),
            &format!("A0 25 00 {FRESH}"),
            "21 01 00 01",
            "22 02 00 E8 03",
            "23 02 00 E8 03",
            WELCOME,
            ACK,
            &format!("22 25 00 {FRESH}"),
            "14 05 00 00 00 00 00 04",
            &format!("21 01 00 01 20 25 00 {FRESH}"),
        ],
    );
}

#[test]
fn sixteen_a_wrong_length_for_its_tag() {
    at_both(
        16,
        &[
            "10 00 00",
            "10 03 00 03 00 00",
            "10 05 00 03 00 00 00 00",
            "11 03 00 03 00 00",
            &format!("11 05 00 03 00 00 00 00 20 25 00 {FRESH}"),
            "12 05 00 03 00 00 00 01",
            "12 04 00 03 00 00 00 22 02 00 E8 03",
            "12 07 00 03 00 00 00 01 00 00 22 02 00 E8 03",
            "13 05 00 03 00 00 00 01",
            "13 04 00 03 00 00 00",
            "13 07 00 03 00 00 00 01 00 00",
            "14 04 00 03 00 00 00",
            "14 06 00 03 00 00 00 05 05",
            // Before 17: number 0, a REFUSE that carries 4, one that carries 14 with a session.
            "12 07 00 03 00 00 00 00 00 00",
            "14 06 00 00 00 00 00 04 04",
            "14 06 00 03 00 00 00 0E 0E",
            // Bytes after have a higher offset.
            "10 03 00 03 00 00 00",
        ],
    );
    at_second(
        End::Box,
        16,
        &[
            "21 00 00",
            &format!("21 12 00{}", " 00".repeat(18)),
            &format!("21 01 01{}", " 00".repeat(257)),
            "22 00 00",
            "22 01 00 E8",
            "22 03 00 E8 03 00",
            "23 00 00",
            "23 01 00 E8",
            "23 03 00 E8 03 00",
            "22 01 00 E8 03",
        ],
    );
    at_second(
        End::Office,
        16,
        &[
            "20 00 00",
            &format!("20 24 00 {}", &FRESH[..36 * 3 - 1]),
            &format!("20 26 00 {FRESH} 00"),
            &format!("20 24 00 {FRESH}"),
            // Without what calibration is about.
            &format!("20 1B 00 {}", &FRESH[..27 * 3 - 1]),
            // Before 17: master 2.
            "20 03 00 00 00 02",
        ],
    );
}

#[test]
fn seventeen_contents_not_allowed() {
    at_both(
        17,
        &[
            "12 06 00 03 00 00 00 00 00 22 02 00 E8 03",
            "12 06 00 00 00 00 00 00 00 21 01 00 01",
            // What is wrong behind it has a higher offset.
            "12 06 00 03 00 00 00 00 00",
            "12 06 00 03 00 00 00 00 00 FF",
            "12 06 00 03 00 00 00 00 00 FF 00 00",
            "12 06 00 03 00 00 00 00 00 22 00 00",
            "14 05 00 00 00 00 00 04",
            "14 05 00 03 00 00 00 04",
            "14 05 00 00 00 00 00 0D",
            "14 05 00 00 00 00 00 14",
            "14 05 00 01 00 00 00 0E",
            "14 05 00 00 00 00 80 13",
            "14 05 00 00 00 00 00 04 FF",
        ],
    );
    for session in [[0, 0, 0, 0], [3, 0, 0, 0], [0, 1, 0, 0], [0, 0, 0, 1]] {
        for number in 0..=255 {
            let bytes = [&[0x14, 0x05, 0x00], &session[..], &[number]].concat();
            let good = match number {
                5..=7 => true,
                14..=19 => session == [0; 4],
                _ => false,
            };
            let expected = (!good).then(|| "17 at 0".to_string());
            assert_eq!(told(&bytes, End::Office), expected, "{bytes:02X?}");
            let expected = if good { "19 at 0" } else { "17 at 0" };
            assert_eq!(told(&bytes, End::Box).as_deref(), Some(expected), "{bytes:02X?}");
        }
    }
}

#[test]
fn seventeen_in_the_settings() {
    // Which values each byte may have; the offsets stay other than 0 here, so both signs are good.
    let held = "34 12 01 01 00 02 10 00 64 05 01 00 07 01 01 01 00 02 00 03 00 04 00 \
                01 05 00 06 00 07 00 08 00 03 FF 00 FF 00";
    for place in 0..37 {
        let most = match place {
            2..=4 | 11 | 14 | 23 => 1,
            5 => 2,
            8 => 100,
            32 => 3,
            _ => 255,
        };
        for value in 0..=255 {
            let mut bytes = hex(&format!("{WELCOME} 20 25 00 {held}"));
            bytes[10 + place] = value;
            let expected = (value > most).then(|| "17 at 7".to_string());
            assert_eq!(told(&bytes, End::Office), expected, "byte {place} is {value}");
            expect(&bytes, End::Box, 19, 0);
        }
    }
    // An offset of 0 reads back with sign 1 alone.
    for place in [11, 14] {
        for value in 0..=255 {
            let mut bytes = hex(&format!("{WELCOME} 20 25 00 {FRESH}"));
            bytes[10 + place] = value;
            let expected = (value != 1).then(|| "17 at 7".to_string());
            assert_eq!(told(&bytes, End::Office), expected, "byte {place} is {value}");
        }
    }
    // Bytes after have a higher offset.
    let bytes = hex(&format!("{WELCOME} 20 25 00 00 00 02 {} FF", &FRESH[9..]));
    expect(&bytes, End::Office, 17, 7);
}

#[test]
fn eighteen_bytes_after_the_end() {
    for (end, frame, length) in [
        (End::Box, OPEN.to_string(), 7),
        (End::Box, format!("{ORDER} 21 01 00 01"), 13),
        (End::Box, format!("{ORDER} 22 02 00 E8 03"), 14),
        (End::Box, format!("{ORDER} 23 02 00 E8 03"), 14),
        (End::Box, format!("{ORDER} 21 03 00 00 B8 88"), 15),
        (End::Box, format!("{ORDER} 21 11 00{}", " 00".repeat(17)), 29),
        (End::Office, format!("{WELCOME} 20 25 00 {FRESH}"), 47),
        (End::Office, ACK.to_string(), 9),
        (End::Office, REFUSE.to_string(), 8),
        (End::Office, "14 05 00 00 00 00 00 0E".to_string(), 8),
    ] {
        assert_eq!(told(&hex(&frame), end), None, "{frame}");
        // Whatever they are: one byte, a cut field, a field, a whole frame.
        for more in ["00", "FF FF", "22 02", "22 02 00 E8 03", "23 01 00 00", OPEN, ACK] {
            let bytes = hex(&format!("{frame} {more}"));
            expect(&bytes, end, 18, length);
            expect(&bytes, end.other(), 19, 0);
        }
    }
}

#[test]
fn nineteen_meant_for_the_other_end() {
    for (end, frame) in [
        (End::Office, OPEN.to_string()),
        (End::Office, format!("{ORDER} 22 02 00 E8 03")),
        (End::Office, format!("{ORDER} 21 01 00 01")),
        (End::Box, format!("{WELCOME} 20 25 00 {FRESH}")),
        (End::Box, ACK.to_string()),
        (End::Box, REFUSE.to_string()),
        (End::Box, "14 05 00 00 00 00 00 13".to_string()),
        // Something is wrong behind the first field.
        (End::Office, ORDER.to_string()),
        (End::Office, format!("{ORDER} FF 00 00")),
        (End::Box, WELCOME.to_string()),
        (End::Box, format!("{WELCOME} 20 00 00")),
        (End::Box, format!("{ACK} 00")),
    ] {
        expect(&hex(&frame), end, 19, 0);
    }
}

#[test]
fn all_faults_are_listed() {
    let listed = |text: &str, end| {
        let mut faults = fault::faults(&hex(text), end);
        faults.sort();
        let told = |fault: &fault::Fault| Refusal::from(*fault).to_string();
        faults.iter().map(told).collect::<Vec<String>>().join(", ")
    };
    assert_eq!(listed("10 04 00 03 00 00 00", End::Box), "");
    assert_eq!(listed("10 04 00 03 00 00 00", End::Office), "19 at 0");
    assert_eq!(listed("20 01", End::Box), "14 at 0, 15 at 0");
    assert_eq!(listed("22 09 00 01", End::Box), "14 at 0, 15 at 0, 16 at 0");
    assert_eq!(
        listed("12 06 00 03 00 00 00 00 00 20 00 00 FF", End::Office),
        "17 at 0, 19 at 0, 15 at 9, 16 at 9, 17 at 9, 18 at 12"
    );
}

/// The rules once more, as one would read the bytes from the left: what is wrong, and at which offset.
fn read_from_the_left(bytes: &[u8], end: End) -> Option<(u8, usize)> {
    let Some((tag, contents, rest)) = cut_off(bytes) else {
        return Some((14, 0));
    };
    let number = match tag {
        0x10 | 0x11 => (contents.len() != 4).then_some(16),
        0x12 if contents.len() == 6 => (contents[4] == 0 && contents[5] == 0).then_some(17),
        0x13 if contents.len() == 6 => None,
        0x14 if contents.len() == 5 => {
            let fault = (14..20).contains(&contents[4]) && contents[..4] == [0; 4];
            (!fault && !(5..8).contains(&contents[4])).then_some(17)
        }
        0x12..=0x14 => Some(16),
        _ => Some(15),
    };
    let for_box = tag == 0x10 || tag == 0x12;
    let number = number.or((for_box != (end == End::Box)).then_some(19));
    if let Some(number) = number {
        return Some((number, 0));
    }

    let offset = bytes.len() - rest.len();
    if tag != 0x11 && tag != 0x12 {
        return (!rest.is_empty()).then_some((18, offset));
    }
    let Some((second, contents, after)) = cut_off(rest) else {
        return Some((14, offset));
    };
    let number = match (tag, second) {
        (0x11, 0x20) if contents.len() == 37 => Settings::from_block(contents).is_none().then_some(17),
        (0x11, 0x20) => Some(16),
        (0x12, 0x21) => (contents.is_empty() || contents.len() > 17).then_some(16),
        (0x12, 0x22 | 0x23) => (contents.len() != 2).then_some(16),
        _ => Some(15),
    };
    let number = number.map(|number| (number, offset));
    number.or((!after.is_empty()).then_some((18, bytes.len() - after.len())))
}

/// The first field, and what is behind it.
fn cut_off(bytes: &[u8]) -> Option<(u8, &[u8], &[u8])> {
    let [tag, low, high, rest @ ..] = bytes else {
        return None;
    };
    let (contents, rest) = rest.split_at_checked(usize::from(*low) + 256 * usize::from(*high))?;
    Some((*tag, contents, rest))
}

fn agrees_with_reading(bytes: &[u8]) {
    let frame = Frame::from_bytes(bytes);
    for end in ENDS {
        let told = fault::told(bytes, end).map(|fault| (fault.wrong.number(), fault.offset));
        assert_eq!(told, read_from_the_left(bytes, end), "{bytes:02X?} at {end:?}");
        // 01's list of frames, and the faults: bytes are a frame, or something is wrong with them.
        let whose = frame.as_ref().map(reader);
        assert_eq!(told.is_none(), whose == Some(end), "{bytes:02X?} at {end:?}");
    }
}

/// The end that a frame is meant for.
fn reader(frame: &Frame) -> End {
    match frame {
        Frame::Open { .. } | Frame::Order { .. } => End::Box,
        Frame::Welcome { .. } | Frame::Ack { .. } | Frame::Refuse { .. } => End::Office,
    }
}

fn random_settings(rng: &mut Rng) -> Settings {
    let mut word = || u16::from_le_bytes([rng.byte(), rng.byte()]);
    let mut settings = Settings {
        backlight: word(),
        heater: Heater { khz: word(), duty: 0 },
        bezel: [i32::from(word()), -i32::from(word())],
        pixels: [word(), word(), word(), word()],
        red: word(),
        green: word(),
        blue: word(),
        current_limit: word(),
        ..Settings::fresh()
    };
    settings.master = rng.chance(50);
    settings.parked = rng.chance(50);
    settings.splash = rng.chance(50);
    settings.strength = rng.below(3) as u8;
    settings.heater.duty = rng.below(101) as u8;
    settings.calibration = rng.chance(50);
    settings.gain = rng.below(4) as u8;
    settings.status = rng.number().to_le_bytes()[..4].try_into().unwrap();
    settings
}

/// Frames of every kind, all well formed: each length of a command, each number of a REFUSE.
fn frames(rng: &mut Rng) -> Vec<Frame> {
    let session = rng.pick(&[0, 1, 3, 0x0103, u32::MAX]);
    let number = rng.pick(&[1, 2, 255, 256, 65535]);
    let step = rng.number() as u16;
    let mut orders = vec![Order::Raise(step), Order::Lower(step)];
    for length in 0..=16 {
        let command = rng.byte();
        let data = rng.bytes(length);
        orders.push(Order::Command { command, data });
    }
    let order = |order| Frame::Order {
        session,
        number,
        order,
    };
    let mut frames: Vec<Frame> = orders.into_iter().map(order).collect();
    frames.push(Frame::Open { session });
    let settings = random_settings(rng);
    frames.push(Frame::Welcome { session, settings });
    frames.extend([0, number].map(|count| Frame::Ack { session, count }));
    frames.extend([5, 6, 7].map(|number| Frame::Refuse { session, number }));
    frames.extend((14..=19).map(|number| Frame::Refuse { session: 0, number }));
    frames
}

fn every_frame() -> impl Iterator<Item = Frame> {
    (0..40).flat_map(|stream| frames(&mut Rng::new(2, stream)))
}

/// Where the second field begins, if there is one.
fn second_field(frame: &Frame) -> Option<usize> {
    match frame {
        Frame::Welcome { .. } => Some(7),
        Frame::Order { .. } => Some(9),
        _ => None,
    }
}

#[test]
fn a_whole_frame_is_read_at_its_end_and_is_19_at_the_other() {
    for frame in every_frame() {
        let bytes = frame.to_bytes();
        let end = reader(&frame);
        expect(&bytes, end.other(), 19, 0);
        assert_eq!(Frame::read(&bytes, end), Ok(frame));
    }
}

#[test]
fn a_proper_beginning_is_14_at_the_field_cut_or_missing() {
    for frame in every_frame() {
        let bytes = frame.to_bytes();
        let end = reader(&frame);
        for cut in 0..bytes.len() {
            match second_field(&frame).filter(|second| *second <= cut) {
                None => ENDS.map(|end| expect(&bytes[..cut], end, 14, 0)),
                Some(second) => [
                    expect(&bytes[..cut], end, 14, second),
                    expect(&bytes[..cut], end.other(), 19, 0),
                ],
            };
        }
    }
}

#[test]
fn bytes_behind_a_frame_are_18_at_its_length() {
    let mut rng = Rng::new(3, 1);
    for frame in every_frame() {
        let bytes = frame.to_bytes();
        let end = reader(&frame);
        let other = Frame::Open { session: 3 }.to_bytes();
        let count = rng.between(1, 30);
        for more in [vec![rng.byte()], rng.bytes(count), other, bytes.clone()] {
            let longer = [&bytes[..], &more].concat();
            expect(&longer, end, 18, bytes.len());
            expect(&longer, end.other(), 19, 0);
        }
    }
}

#[test]
fn every_byte_changed_is_told_as_reading_from_the_left_does() {
    for frame in frames(&mut Rng::new(4, 1)) {
        let bytes = frame.to_bytes();
        for place in 0..bytes.len() {
            for value in 0..=255 {
                let mut changed = bytes.clone();
                changed[place] = value;
                agrees_with_reading(&changed);
            }
        }
    }
}

#[test]
fn every_short_row_of_bytes_is_told_as_reading_from_the_left_does() {
    let bytes = [
        0x00, 0x01, 0x02, 0x03, 0x04, 0x05, 0x06, 0x10, 0x11, 0x12, 0x13, 0x14, 0x20, 0x21, 0x22, 0xFF,
    ];
    for length in 0..=5 {
        for row in 0..bytes.len().pow(length) {
            let digits = (0..length).map(|place| row / bytes.len().pow(place) % bytes.len());
            let row: Vec<u8> = digits.map(|digit| bytes[digit]).collect();
            agrees_with_reading(&row);
        }
    }
}

#[test]
fn frames_damaged_in_several_places_are_told_as_reading_from_the_left_does() {
    let mut rng = Rng::new(5, 1);
    for _ in 0..400 {
        for frame in frames(&mut rng) {
            let mut bytes = frame.to_bytes();
            for _ in 0..rng.between(1, 3) {
                let place = rng.below(bytes.len());
                match rng.below(6) {
                    0 => bytes[place] = rng.byte(),
                    1 => bytes[place] = bytes[place].wrapping_add(1),
                    2 => bytes[place] = bytes[place].wrapping_sub(1),
                    3 => bytes.truncate(place.max(1)),
                    4 => bytes.insert(place, rng.byte()),
                    _ => bytes.push(rng.byte()),
                }
            }
            agrees_with_reading(&bytes);
        }
    }
}

#[test]
fn the_box_writes_the_number_and_names_session_0() {
    let mut cab = Cab::restarted(0);
    cab.frame_in(&hex(OPEN), 47).unwrap();
    cab.frame_in(&hex(&format!("{ORDER} 22 02 00 E8 03")), 47)
        .unwrap();
    let held = format!("{cab:?}");
    for (bytes, told, number) in [
        (ORDER.to_string(), "14 at 9", "0E"),
        (format!("{ORDER} 24 02 00 E8 03"), "15 at 9", "0F"),
        (format!("{ORDER} 22 03 00 E8 03 00"), "16 at 9", "10"),
        (
            "12 06 00 03 00 00 00 00 00 22 02 00 E8 03".to_string(),
            "17 at 0",
            "11",
        ),
        (format!("{OPEN} 00"), "18 at 7", "12"),
        (format!("{ORDER} 22 02 00 E8 03 00"), "18 at 14", "12"),
        (ACK.to_string(), "19 at 0", "13"),
    ] {
        let refused = cab.frame_in(&hex(&bytes), 47).unwrap_err();
        assert_eq!(refused.refusal.to_string(), told, "{bytes}");
        let frame = hex(&format!("14 05 00 00 00 00 00 {number}"));
        assert_eq!(refused.frame, Some(frame.clone()), "{bytes}");
        // What the box writes is a frame for the office.
        assert_eq!(fault::told(&frame, End::Office), None);
        // A short output goes before all of them.
        let short = Err(Refused {
            refusal: Refusal::ShortOutput,
            frame: None,
        });
        assert_eq!(cab.frame_in(&hex(&bytes), 46), short, "{bytes}");
    }
    assert_eq!(format!("{cab:?}"), held);
}

#[test]
fn the_office_does_nothing_on_refuse_14_to_19_or_a_fault() {
    let mut office = Office::NeverOpened;
    office.open(3, 47).unwrap();
    office
        .frame_in(&hex(&format!("{WELCOME} 20 25 00 {FRESH}")))
        .unwrap();
    let held = format!("{office:?}");
    for number in 14..=19 {
        let bytes = Frame::Refuse { session: 0, number }.to_bytes();
        assert_eq!(office.frame_in(&bytes), Ok(()));
        let bytes = Frame::Refuse { session: 3, number }.to_bytes();
        assert_eq!(
            office.frame_in(&bytes).map_err(|fault| fault.wrong),
            Err(Wrong::Contents)
        );
    }
    for bytes in [OPEN, WELCOME, "", "14 05 00 03 00 00 00 04"] {
        assert!(office.frame_in(&hex(bytes)).is_err(), "{bytes}");
    }
    assert_eq!(format!("{office:?}"), held);
    office.frame_in(&hex(REFUSE)).unwrap();
    assert_eq!(office.word(), Word::Over);
}
