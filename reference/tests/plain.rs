//! The controller written for speed: document 01's examples of the bus, with the bytes printed there,
//! document 02's bezel sign and calibration mode, and random traffic beside the other controller.

mod common;

use common::hex;
use reference::controller::Controller;
use reference::packet::{Way, write_packet};
use reference::rng::Rng;
use reference::settings::Settings;
use reference::{plain, traffic};

const STREAMS: u64 = 40;
const STREAM_BYTES: usize = 10_000;

fn exchanged(controller: &mut plain::Controller, input: &[u8]) -> Vec<u8> {
    let mut output = vec![0x00; input.len()];
    controller.exchange_all(input, &mut output);
    output
}

/// A fresh controller gets each of the bytes, then 00: the reply comes at once, and nothing after it.
fn fresh_answers(requests: &[(&str, &str)]) {
    let mut controller = plain::Controller::fresh();
    for (bytes, reply) in requests {
        let (sent, reply) = (hex(bytes), hex(reply));
        let input = [&sent[..], &vec![0x00; reply.len() + 1]].concat();
        let output = [vec![0xFF; sent.len()], reply, vec![0xFF]].concat();
        assert_eq!(exchanged(&mut controller, &input), output, "{bytes}");
    }
}

#[test]
fn examples() {
    let level = "A5 01 00 01";
    let status = "A5 67 00 67";
    let answers = fresh_answers;
    answers(&[("A5 00 02 FF FF 00", "01"), (level, "01 02 FF FF 01")]);
    answers(&[("A5 00 02 B8 88 42", "01"), (level, "01 02 B8 88 43")]);
    answers(&[
        ("A5 00 02 5A 00 5A 5A 01", "01"),
        (level, "01 02 A5 5A 02"),
        (status, "01 04 00 00 00 80 85"),
    ]);
    answers(&[("A5 00 02 A3 00 5A 00", "01"), (level, "01 02 A3 00 A6")]);

    answers(&[("A5 00 02 FF FF 01", "02"), (status, "01 04 00 00 00 10 15")]);
    answers(&[("A5 07 00 07", "03"), (status, "01 04 01 00 00 00 06")]);
    answers(&[("A5 00 01 FF 00", "05"), (status, "01 04 00 00 00 40 45")]);
    answers(&[("A5 4C 01 02 4F", "01"), ("A5 4D 00 4D", "01 01 02 04")]);
    answers(&[
        ("A5 4C 01 03 50", "07"),
        ("A5 4D 00 4D", "01 01 00 02"),
        (status, "01 04 00 20 00 00 25"),
    ]);
    answers(&[
        ("A5 00 A5 67 00 67", "01 04 08 00 00 00 0D"),
        (status, "01 04 00 00 00 00 05"),
    ]);
    answers(&[
        ("A5 50 06 05 00 00 07 00 01 63", "01"),
        ("A5 51 00 51", "01 06 05 00 00 07 00 01 14"),
    ]);

    answers(&[
        ("A5 02 01 00 03", "01"),
        (level, "04"),
        ("A5 03 00 03", "01 01 00 02"),
    ]);
    answers(&[
        ("A5 4E 03 01 02 64 B8", "01"),
        ("A5 4E 03 01 02 65 B9", "07"),
        ("A5 4F 00 4F", "01 03 01 02 64 6B"),
    ]);
    answers(&[
        ("A5 00 02 5A A5 01 00 01", "01 02 00 00 03"),
        (status, "01 04 08 00 00 80 8D"),
    ]);
}

/// Both controllers, which must never send out different bytes.
struct Pair {
    stream: u64,
    reference: Controller,
    plain: plain::Controller,
    /// Status bits met so far.
    seen: [u8; 4],
}

impl Pair {
    fn fresh(stream: u64) -> Self {
        Pair {
            stream,
            reference: Controller::fresh(),
            plain: plain::Controller::fresh(),
            seen: [0; 4],
        }
    }

    fn exchanged(&mut self, input: &[u8]) -> Vec<u8> {
        let output = exchanged(&mut self.plain, input);
        for (place, byte) in input.iter().enumerate() {
            let expected = self.reference.exchange(*byte);
            assert_eq!(
                output[place],
                expected,
                "stream {}, after the bytes {:02X?}",
                self.stream,
                &input[place.saturating_sub(30)..place]
            );
            for (seen, bits) in self.seen.iter_mut().zip(self.reference.settings().status) {
                *seen |= bits;
            }
        }
        output
    }

    /// Reads every register through the bus.
    fn read_all(&mut self) {
        let read = |command| vec![0xA5, command, 0x00, command];
        // Master as it is, then on, so that the others answer; status last, since the rest may set it.
        let first = [read(0x03), hex("A5 02 01 01 04")];
        let rest = [0x01, 0x05, 0x4B, 0x4D, 0x4F, 0x51, 0xA7].map(read);
        let calibration = [0xC9, 0xCB, 0xCD, 0xCF, 0xD1, 0xD3, 0x67].map(read);
        for packet in first.into_iter().chain(rest).chain(calibration) {
            let output = self.exchanged(&[&packet[..], &[0x00; 11]].concat());
            assert_eq!(output[packet.len()], 0x01, "{packet:02X?}");
        }
    }
}

#[test]
fn signs() {
    let status = "A5 67 00 67";
    let offsets = ("A5 50 06 05 00 00 07 00 01 63", "01");
    let bezel = "A5 51 00 51";
    let unchanged = (bezel, "01 06 05 00 00 07 00 01 14");
    for (write, read) in [
        ("A5 50 06 05 00 00 07 00 00 62", "01 06 05 00 00 07 00 00 13"),
        ("A5 50 06 05 00 01 07 00 00 63", "01 06 05 00 01 07 00 00 14"),
        ("A5 50 06 05 00 01 07 00 01 64", "01 06 05 00 01 07 00 01 15"),
        ("A5 50 06 00 00 00 00 00 00 56", "01 06 00 00 01 00 00 01 09"),
    ] {
        fresh_answers(&[(write, "01"), (bezel, read), (status, "01 04 00 00 00 00 05")]);
    }
    for write in [
        "A5 50 06 09 00 02 03 00 01 65",
        "A5 50 06 09 00 01 03 00 02 65",
        "A5 50 06 09 00 02 03 00 02 66",
        "A5 50 06 09 00 FF 03 00 01 62",
        "A5 50 06 09 00 00 03 00 FF 61",
        "A5 50 06 09 00 FF 03 00 FF 60",
        "A5 50 06 00 00 02 03 00 01 5C",
        "A5 50 06 09 00 01 00 00 02 62",
    ] {
        fresh_answers(&[
            offsets,
            (write, "07"),
            unchanged,
            (status, "01 04 00 20 00 00 25"),
        ]);
    }
    for write in ["A5 50 05 09 00 02 03 00 63", "A5 50 07 09 00 01 03 00 02 00 66"] {
        fresh_answers(&[
            offsets,
            (write, "05"),
            unchanged,
            (status, "01 04 00 00 00 40 45"),
        ]);
    }
    fresh_answers(&[
        offsets,
        ("A5 02 01 00 03", "01"),
        ("A5 50 06 09 00 02 03 00 01 65", "04"),
        ("A5 02 01 01 04", "01"),
        unchanged,
        (status, "01 04 04 00 00 00 09"),
    ]);

    // Every pair of signs, each behind what the one before left.
    let mut pair = Pair::fresh(0);
    for first in 0..=255 {
        for second in 0..=255 {
            let data = [second, 0x01, first, first, 0x00, second];
            let packet = write_packet(Way::Write, 0x28, &data, 516).unwrap();
            let response = pair.exchanged(&[&packet[..], &[0x00]].concat())[packet.len()];
            let expected = if first > 1 || second > 1 { 0x07 } else { 0x01 };
            assert_eq!(response, expected, "{first} {second}");
            pair.exchanged(&[&hex(bezel)[..], &[0x00; 9]].concat());
        }
    }
}

#[test]
fn calibration() {
    let status = "A5 67 00 67";
    let into_mode = ("A5 C8 01 01 CA", "01");
    let not_available = (status, "01 04 04 00 00 00 09");
    // All six, each read behind all writes: levels 513, 1027, 1541 and 2055, gain 3.
    let levels = [
        ("A5 CB 00 CB", "01 02 01 02 06"),
        ("A5 CD 00 CD", "01 02 03 04 0A"),
        ("A5 CF 00 CF", "01 02 05 06 0E"),
        ("A5 D1 00 D1", "01 02 07 08 12"),
        ("A5 D3 00 D3", "01 01 03 05"),
    ];
    let trimmed = [
        into_mode,
        ("A5 CA 02 01 02 CF", "01"),
        ("A5 CC 02 03 04 D5", "01"),
        ("A5 CE 02 05 06 DB", "01"),
        ("A5 D0 02 07 08 E1", "01"),
        ("A5 D2 01 03 D6", "01"),
    ];
    let mode_1 = ("A5 C9 00 C9", "01 01 01 03");
    let mode_0 = ("A5 C9 00 C9", "01 01 00 02");
    let none = (status, "01 04 00 00 00 00 05");
    fresh_answers(&[&trimmed[..], &levels, &[mode_1, none]].concat());
    // The levels stay when the mode is left, and when master goes off; so does the mode in that case.
    let left = [("A5 C8 01 00 C9", "01"), mode_0];
    fresh_answers(&[&trimmed[..], &left, &levels, &[none]].concat());
    let off_and_on = [("A5 02 01 00 03", "01"), ("A5 02 01 01 04", "01"), mode_1];
    fresh_answers(&[&trimmed[..], &off_and_on, &levels, &[none]].concat());

    let zero = [
        ("A5 CB 00 CB", "01 02 00 00 03"),
        ("A5 CD 00 CD", "01 02 00 00 03"),
        ("A5 CF 00 CF", "01 02 00 00 03"),
        ("A5 D1 00 D1", "01 02 00 00 03"),
        ("A5 D3 00 D3", "01 01 00 02"),
        mode_0,
    ];
    for write in [
        "A5 CA 02 01 02 CF",
        "A5 CC 02 03 04 D5",
        "A5 CE 02 05 06 DB",
        "A5 D0 02 07 08 E1",
        "A5 D2 01 03 D6",
        // Whatever the length and the data.
        "A5 CA 00 CA",
        "A5 D0 03 01 02 03 D9",
        "A5 D2 01 04 D7",
        "A5 D2 02 04 04 DC",
    ] {
        fresh_answers(&[&[(write, "04"), not_available], &zero[..]].concat());
    }
    for (request, response, status_told) in [
        // Behind the sum; 63h and 6Ah are unknown in either mode.
        ("A5 CA 02 01 02 CE", "02", "01 04 00 00 00 10 15"),
        ("A5 C6 00 C6", "03", "01 04 01 00 00 00 06"),
        ("A5 D4 00 D4", "03", "01 04 01 00 00 00 06"),
        ("A5 C8 01 02 CB", "07", "01 04 00 20 00 00 25"),
        ("A5 C8 01 FF C8", "07", "01 04 00 20 00 00 25"),
        ("A5 C8 00 C8", "05", "01 04 00 00 00 40 45"),
        ("A5 C8 02 02 00 CC", "05", "01 04 00 00 00 40 45"),
        ("A5 C9 01 00 CA", "05", "01 04 00 00 00 40 45"),
        ("A5 CB 01 00 CC", "05", "01 04 00 00 00 40 45"),
    ] {
        let told = [(request, response), (status, status_told)];
        fresh_answers(&[&told, &zero[..]].concat());
        fresh_answers(&[&trimmed[..], &told, &levels, &[mode_1]].concat());
    }
    for (write, response, status_told) in [
        ("A5 CA 01 FF CA", "05", "01 04 00 00 00 40 45"),
        ("A5 CE 03 09 09 09 EC", "05", "01 04 00 00 00 40 45"),
        ("A5 D2 01 04 D7", "07", "01 04 00 20 00 00 25"),
        ("A5 D2 01 FF D2", "07", "01 04 00 20 00 00 25"),
        ("A5 D2 02 04 04 DC", "05", "01 04 00 00 00 40 45"),
    ] {
        let told = [(write, response), (status, status_told), mode_1];
        fresh_answers(&[&trimmed[..], &told, &levels].concat());
    }
    // All six with master off.
    for request in [
        "A5 C8 01 00 C9",
        "A5 CA 02 09 09 DE",
        "A5 D2 01 00 D3",
        "A5 C9 00 C9",
        "A5 CB 00 CB",
        "A5 CD 00 CD",
        "A5 CF 00 CF",
        "A5 D1 00 D1",
        "A5 D3 00 D3",
    ] {
        let told = [
            ("A5 02 01 00 03", "01"),
            (request, "04"),
            ("A5 02 01 01 04", "01"),
            not_available,
            mode_1,
        ];
        fresh_answers(&[&trimmed[..], &told, &levels].concat());
    }
}

/// How much of calibration a controller's traffic met, each by what it was about.
#[derive(Default)]
struct Met {
    in_mode: usize,
    trimmed_and_left: usize,
    trimmed_with_master_off: usize,
}

impl Met {
    fn note(&mut self, held: &Settings) {
        let levels = [held.red, held.green, held.blue, held.current_limit];
        let trimmed = !levels.contains(&0) && held.gain != 0;
        self.in_mode += usize::from(held.calibration);
        self.trimmed_and_left += usize::from(trimmed && !held.calibration);
        self.trimmed_with_master_off += usize::from(trimmed && held.calibration && !held.master);
    }
}

#[test]
fn random_traffic() {
    let mut seen = [0; 4];
    let mut met = Met::default();
    for stream in 0..STREAMS {
        let mut rng = Rng::new(1, stream);
        let mut bytes = Vec::new();
        while bytes.len() < STREAM_BYTES {
            bytes.extend(traffic::bus(&mut rng));
        }
        let mut pair = Pair::fresh(stream);
        let mut rest = &bytes[..];
        while !rest.is_empty() {
            let most = rng.pick(&[0, 1, 2, 10, 300, 5000]);
            let (run, after) = rest.split_at(rng.between(0, most).min(rest.len()));
            pair.exchanged(run);
            met.note(pair.reference.settings());
            rest = after;
        }
        pair.read_all();
        for (seen, bits) in seen.iter_mut().zip(pair.seen) {
            *seen |= bits;
        }
    }
    assert_eq!(seen, [0x0D, 0x20, 0x00, 0xF0], "all status bits are met");
    let counts = [met.in_mode, met.trimmed_and_left, met.trimmed_with_master_off];
    assert!(counts.iter().all(|count| *count >= 10), "{counts:?}");
}

#[test]
#[should_panic(expected = "a byte out for each byte in")]
fn lengths_that_differ() {
    plain::Controller::fresh().exchange_all(&[0xA5, 0x01], &mut [0x00]);
}
