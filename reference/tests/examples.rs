//! The fixed examples of document 01 and the built ones of DLPU057A section 4,
//! with the bytes printed there; and document 02's bezel sign and stream.

mod common;

use common::hex;
use reference::cab::{Cab, Refused};
use reference::controller::Controller;
use reference::fault::{Fault, Wrong};
use reference::link::{Frame, Order};
use reference::office::{Office, Word};
use reference::packet::{Way, read_reply, write_packet};
use reference::refusal::Refusal;
use reference::settings::{Heater, Settings};
use reference::stream::{Came, Receiver, Taken, wrap};

/// Sends the bytes, then 00: the reply comes at once, and nothing after it.
fn answers(controller: &mut Controller, bytes: &str, reply: &str) {
    let (bytes, reply) = (hex(bytes), hex(reply));
    let sent = bytes.iter().copied().chain(vec![0x00; reply.len() + 1]);
    let out: Vec<u8> = sent.map(|byte| controller.exchange(byte)).collect();
    assert_eq!(
        out,
        [vec![0xFF; bytes.len()], reply, vec![0xFF]].concat(),
        "{bytes:02X?}"
    );
}

fn fresh_answers(bytes: &str, reply: &str) -> Settings {
    let mut controller = Controller::fresh();
    answers(&mut controller, bytes, reply);
    *controller.settings()
}

#[test]
fn starred() {
    let mut controller = Controller::fresh();
    answers(&mut controller, "A5 00 02 FF FF 00", "01");
    assert_eq!(controller.settings().backlight, 65535);
    answers(&mut controller, "A5 01 00 01", "01 02 FF FF 01");

    assert_eq!(fresh_answers("A5 00 02 B8 88 42", "01").backlight, 35000);
    let escaped = fresh_answers("A5 00 02 5A 00 5A 5A 01", "01");
    assert_eq!(escaped.backlight, 23205);
    assert_eq!(escaped.status, [0, 0, 0, 0x80]);
    assert_eq!(fresh_answers("A5 00 02 A3 00 5A 00", "01").backlight, 163);

    assert_eq!(fresh_answers("A5 00 02 FF FF 01", "02").status, [0, 0, 0, 0x10]);
    assert_eq!(fresh_answers("A5 07 00 07", "03").status, [0x01, 0, 0, 0]);
    assert_eq!(fresh_answers("A5 00 01 FF 00", "05").status, [0, 0, 0, 0x40]);
    assert_eq!(fresh_answers("A5 4C 01 02 4F", "01").strength, 2);
    assert_eq!(fresh_answers("A5 4C 01 03 50", "07").status, [0, 0x20, 0, 0]);
    let cut = fresh_answers("A5 00 A5 67 00 67", "01 04 08 00 00 00 0D");
    assert_eq!(cut.status, [0; 4]);
    assert_eq!(
        fresh_answers("A5 50 06 05 00 00 07 00 01 63", "01").bezel,
        [-5, 7]
    );
}

#[test]
fn master_off() {
    let mut controller = Controller::fresh();
    answers(&mut controller, "A5 00 02 B8 88 42", "01");
    answers(&mut controller, "A5 02 01 00 03", "01");
    answers(&mut controller, "A5 01 00 01", "04");
    answers(&mut controller, "A5 67 00 67", "04");
    answers(&mut controller, "A5 03 00 03", "01 01 00 02");
    answers(&mut controller, "A5 02 01 01 04", "01");
    assert_eq!(controller.settings().backlight, 35000);
    answers(&mut controller, "A5 67 00 67", "01 04 04 00 00 00 09");
}

#[test]
fn frames_of_session_3() {
    let raise = hex("12 06 00 03 00 00 00 01 00 22 02 00 E8 03");
    let ack = hex("13 06 00 03 00 00 00 01 00");
    let welcome = hex(
        "11 04 00 03 00 00 00 20 25 00 00 00 01 00 00 00 00 00 00 00 00 01 00 00 01 \
         00 00 00 00 00 00 00 00 00 00 00 00 00 00 00 00 00 00 00 00 00 00",
    );
    let mut cab = Cab::restarted(0);
    let mut office = Office::NeverOpened;
    assert_eq!(office.word(), Word::Waiting);
    let open = office.open(3, 47).unwrap();
    assert_eq!(open, hex("10 04 00 03 00 00 00"));
    assert_eq!(cab.frame_in(&open, 47), Ok(welcome.clone()));
    assert_eq!(office.frame_in(&welcome), Ok(()));
    assert_eq!(office.word(), Word::Settled);
    assert_eq!(office.issue(Order::Raise(1000), 47), Ok(raise.clone()));
    assert_eq!(office.word(), Word::Waiting);
    assert_eq!(cab.frame_in(&raise, 47), Ok(ack.clone()));
    assert_eq!(cab.frame_in(&raise, 47), Ok(ack.clone()), "the same order again");
    assert_eq!(cab.controller().settings().backlight, 1000);
    assert_eq!(office.frame_in(&ack), Ok(()));
    assert_eq!(office.word(), Word::Settled);
    assert_eq!(office.settings(), Some(cab.controller().settings()));
}

fn opened_office(session: u32) -> Office {
    let mut office = Office::NeverOpened;
    office.open(session, 47).unwrap();
    let settings = Settings::fresh();
    office
        .frame_in(&Frame::Welcome { session, settings }.to_bytes())
        .unwrap();
    office
}

fn ack(session: u32, count: u16) -> Vec<u8> {
    Frame::Ack { session, count }.to_bytes()
}

#[test]
fn window_of_eight() {
    let mut office = opened_office(3);
    for _ in 0..8 {
        office.issue(Order::Raise(1), 47).unwrap();
    }
    assert_eq!(office.issue(Order::Raise(1), 47), Err(Refusal::WindowFull));
    assert_eq!(office.progress().unwrap().issued, 8);
    assert_eq!(office.settings().unwrap().backlight, 8);
    office.frame_in(&ack(3, 5)).unwrap();
    office.frame_in(&ack(3, 4)).unwrap();
    office.frame_in(&ack(3, 9)).unwrap();
    assert_eq!(office.progress().unwrap().confirmed, 5);
    assert_eq!(office.send_again(5, 47), Err(Refusal::NotUnanswered));
    assert_eq!(office.send_again(9, 47), Err(Refusal::NotUnanswered));
    let again = hex("12 06 00 03 00 00 00 06 00 22 02 00 01 00");
    assert_eq!(office.send_again(6, 47), Ok(again));
    assert_eq!(office.send_again(6, 46), Err(Refusal::ShortOutput));
    assert_eq!(office.send_again(5, 46), Err(Refusal::NotUnanswered));
}

#[test]
fn order_65535_goes_and_the_next_does_not() {
    let mut office = opened_office(3);
    let mut cab = Cab::restarted(0);
    cab.frame_in(&hex("10 04 00 03 00 00 00"), 47).unwrap();
    for number in 1..=65535 {
        let order = office.issue(Order::Raise(1), 47).unwrap();
        assert_eq!(order[7..9], u16::to_le_bytes(number));
        office.frame_in(&cab.frame_in(&order, 47).unwrap()).unwrap();
    }
    assert_eq!(office.word(), Word::Settled);
    assert_eq!(office.issue(Order::Raise(1), 47), Err(Refusal::AllIssued));
    assert_eq!(cab.open().unwrap().taken, 65535);
    assert_eq!(cab.controller().settings().backlight, 65535);
}

#[test]
fn nine_comes_before_eight() {
    let mut office = opened_office(3);
    for number in 1..=65535 {
        if number <= 65527 {
            office.issue(Order::Lower(1), 47).unwrap();
            office.frame_in(&ack(3, number)).unwrap();
        } else {
            office.issue(Order::Lower(1), 47).unwrap();
        }
    }
    assert_eq!(office.issue(Order::Lower(1), 47), Err(Refusal::AllIssued));
}

#[test]
fn duty_100_and_101() {
    let heater = fresh_answers("A5 4E 03 01 02 64 B8", "01").heater;
    assert_eq!(heater, Heater { khz: 513, duty: 100 });
    assert_eq!(
        fresh_answers("A5 4E 03 01 02 65 B9", "07").heater,
        Heater { khz: 0, duty: 0 }
    );
}

const STATUS: &str = "A5 67 00 67";
const NO_STATUS: &str = "01 04 00 00 00 00 05";
const BEZEL: &str = "A5 51 00 51";

#[test]
fn signs_0_and_1() {
    for (write, held, read) in [
        (
            "A5 50 06 05 00 00 07 00 00 62",
            [-5, -7],
            "01 06 05 00 00 07 00 00 13",
        ),
        (
            "A5 50 06 05 00 00 07 00 01 63",
            [-5, 7],
            "01 06 05 00 00 07 00 01 14",
        ),
        (
            "A5 50 06 05 00 01 07 00 00 63",
            [5, -7],
            "01 06 05 00 01 07 00 00 14",
        ),
        (
            "A5 50 06 05 00 01 07 00 01 64",
            [5, 7],
            "01 06 05 00 01 07 00 01 15",
        ),
        // Amount 0 with sign 0 reads back with sign 1.
        (
            "A5 50 06 00 00 00 00 00 00 56",
            [0, 0],
            "01 06 00 00 01 00 00 01 09",
        ),
        (
            "A5 50 06 00 00 00 07 00 01 5E",
            [0, 7],
            "01 06 00 00 01 07 00 01 10",
        ),
        (
            "A5 50 06 05 00 00 00 00 00 5B",
            [-5, 0],
            "01 06 05 00 00 00 00 01 0D",
        ),
        (
            "A5 50 06 00 00 01 00 00 00 57",
            [0, 0],
            "01 06 00 00 01 00 00 01 09",
        ),
    ] {
        let mut controller = Controller::fresh();
        answers(&mut controller, write, "01");
        assert_eq!(controller.settings().bezel, held, "{write}");
        answers(&mut controller, BEZEL, read);
        answers(&mut controller, STATUS, NO_STATUS);
    }
}

/// A controller that holds the offsets -5 and 7, and its settings.
fn with_offsets() -> (Controller, Settings) {
    let mut controller = Controller::fresh();
    answers(&mut controller, "A5 50 06 05 00 00 07 00 01 63", "01");
    let settings = *controller.settings();
    assert_eq!(settings.bezel, [-5, 7]);
    (controller, settings)
}

#[test]
fn a_sign_above_1() {
    for write in [
        "A5 50 06 09 00 02 03 00 01 65",
        "A5 50 06 09 00 02 03 00 00 64",
        "A5 50 06 09 00 01 03 00 02 65",
        "A5 50 06 09 00 00 03 00 02 64",
        "A5 50 06 09 00 02 03 00 02 66",
        "A5 50 06 09 00 FF 03 00 01 62",
        "A5 50 06 09 00 00 03 00 FF 61",
        "A5 50 06 09 00 FF 03 00 FF 60",
        // Whatever the amount.
        "A5 50 06 00 00 02 03 00 01 5C",
        "A5 50 06 09 00 01 00 00 02 62",
        "A5 50 06 00 00 FF 00 00 02 57",
    ] {
        let (mut controller, before) = with_offsets();
        answers(&mut controller, write, "07");
        let status = [0x00, 0x20, 0x00, 0x00];
        assert_eq!(*controller.settings(), Settings { status, ..before }, "{write}");
        answers(&mut controller, BEZEL, "01 06 05 00 00 07 00 01 14");
        answers(&mut controller, STATUS, "01 04 00 20 00 00 25");
        answers(&mut controller, STATUS, NO_STATUS);
    }
}

#[test]
fn every_pair_of_signs() {
    let (idle, before) = with_offsets();
    for first in 0..=255 {
        for second in 0..=255 {
            let mut controller = idle.clone();
            controller.run(0x50, &[0x09, 0x01, first, 0x03, 0x00, second]);
            let after = controller.settings();
            let signed = |amount: i32, sign| if sign == 0 { -amount } else { amount };
            let (bezel, out_of_range) = if first < 2 && second < 2 {
                ([signed(265, first), signed(3, second)], 0x00)
            } else {
                (before.bezel, 0x20)
            };
            assert_eq!(after.bezel, bezel, "{first} {second}");
            assert_eq!(after.status[1], out_of_range, "{first} {second}");
        }
    }
}

#[test]
fn a_sign_is_judged_after_all_else() {
    for (write, response, status) in [
        // A wrong sum.
        ("A5 50 06 09 00 02 03 00 01 66", "02", "01 04 00 00 00 10 15"),
        // Five data bytes, and seven.
        ("A5 50 05 09 00 02 03 00 63", "05", "01 04 00 00 00 40 45"),
        ("A5 50 07 09 00 02 03 00 01 00 66", "05", "01 04 00 00 00 40 45"),
        ("A5 50 07 09 00 01 03 00 02 00 66", "05", "01 04 00 00 00 40 45"),
    ] {
        let (mut controller, before) = with_offsets();
        answers(&mut controller, write, response);
        answers(&mut controller, STATUS, status);
        assert_eq!(*controller.settings(), before, "{write}");
    }
    for write in [
        "A5 50 06 09 00 02 03 00 01 65",
        "A5 50 06 09 00 01 03 00 FF 62",
        "A5 50 05 09 00 02 03 00 63",
    ] {
        let (mut controller, before) = with_offsets();
        answers(&mut controller, "A5 02 01 00 03", "01");
        answers(&mut controller, write, "04");
        answers(&mut controller, "A5 02 01 01 04", "01");
        answers(&mut controller, STATUS, "01 04 04 00 00 00 09");
        assert_eq!(*controller.settings(), before, "{write}");
    }
}

#[test]
fn an_order_with_a_sign_above_1_is_taken() {
    let mut cab = Cab::restarted(0);
    let mut office = Office::NeverOpened;
    let open = office.open(3, 47).unwrap();
    office.frame_in(&cab.frame_in(&open, 47).unwrap()).unwrap();
    for (data, order, ack, offsets_and_status) in [
        (
            "05 00 00 07 00 01",
            "12 06 00 03 00 00 00 01 00 21 07 00 50 05 00 00 07 00 01",
            "13 06 00 03 00 00 00 01 00",
            ["05 00 00 07 00 01", "00 00 00 00"],
        ),
        (
            "09 00 01 03 00 02",
            "12 06 00 03 00 00 00 02 00 21 07 00 50 09 00 01 03 00 02",
            "13 06 00 03 00 00 00 02 00",
            ["05 00 00 07 00 01", "00 20 00 00"],
        ),
        (
            "FF 00 FF 03 00 00",
            "12 06 00 03 00 00 00 03 00 21 07 00 50 FF 00 FF 03 00 00",
            "13 06 00 03 00 00 00 03 00",
            ["05 00 00 07 00 01", "00 20 00 00"],
        ),
        // The writer escapes this sign.
        (
            "00 00 A5 00 00 00",
            "12 06 00 03 00 00 00 04 00 21 07 00 50 00 00 A5 00 00 00",
            "13 06 00 03 00 00 00 04 00",
            ["05 00 00 07 00 01", "00 20 00 80"],
        ),
        (
            "02 00 01 00 00 00",
            "12 06 00 03 00 00 00 05 00 21 07 00 50 02 00 01 00 00 00",
            "13 06 00 03 00 00 00 05 00",
            ["02 00 01 00 00 01", "00 20 00 80"],
        ),
    ] {
        let (command, data) = (0x50, hex(data));
        assert_eq!(office.issue(Order::Command { command, data }, 47), Ok(hex(order)));
        assert_eq!(office.word(), Word::Waiting);
        assert_eq!(cab.frame_in(&hex(order), 47), Ok(hex(ack)));
        office.frame_in(&hex(ack)).unwrap();
        assert_eq!(office.word(), Word::Settled);
        let [offsets, status] = offsets_and_status;
        let block = hex(&format!(
            "00 00 01 00 00 00 00 00 00 {offsets} 00 00 00 00 00 00 00 00 \
             00 00 00 00 00 00 00 00 00 00 {status}"
        ));
        assert_eq!(cab.controller().settings().to_block(), block, "{order}");
        assert_eq!(office.settings().unwrap().to_block(), block, "{order}");
    }
}

#[test]
fn read_checksums_follow_the_sum_rule() {
    assert_eq!(write_packet(Way::Read, 0x26, &[], 516), Ok(hex("A5 4D 00 4D")));
    assert_eq!(write_packet(Way::Read, 0x27, &[], 516), Ok(hex("A5 4F 00 4F")));
    assert_eq!(write_packet(Way::Read, 0x28, &[], 516), Ok(hex("A5 51 00 51")));
    assert_eq!(fresh_answers("A5 4D 00 03", "02").strength, 0);
}

#[test]
fn writer() {
    assert_eq!(
        write_packet(Way::Write, 0, &hex("A5 5A"), 516),
        Ok(hex("A5 00 02 5A 00 5A 5A 01"))
    );
    assert_eq!(
        write_packet(Way::Write, 0, &hex("A3 00"), 7),
        Ok(hex("A5 00 02 A3 00 5A 00"))
    );
    assert_eq!(
        write_packet(Way::Write, 0, &hex("A3 00"), 6),
        Err(Refusal::ShortOutput)
    );
    assert_eq!(
        write_packet(Way::Write, 128, &[0; 256], 0),
        Err(Refusal::IdTooHigh)
    );
    assert_eq!(
        write_packet(Way::Write, 127, &[0; 256], 0),
        Err(Refusal::TooMuchData)
    );
    // Longest: command byte 5A, data of A5 and 5A alone, and a sum that is one of them too.
    let lengths = (0..=255).map(|count| {
        let data = [vec![0xA5; count], vec![0x5A; 255 - count]].concat();
        write_packet(Way::Write, 0x2D, &data, 516).unwrap().len()
    });
    assert_eq!(lengths.max(), Some(516));
}

#[test]
fn reader() {
    let reply =
        |asked, text| read_reply(asked, &hex(text)).map(|reply| (reply.response, reply.data, reply.end));
    assert_eq!(
        reply(Way::Read, "FF FF 01 02 FF FF 01 33"),
        Ok((1, hex("FF FF"), 7))
    );
    assert_eq!(reply(Way::Write, "FF 01 02 FF FF 02"), Ok((1, vec![], 2)));
    assert_eq!(reply(Way::Read, "08"), Ok((8, vec![], 1)));
    assert_eq!(reply(Way::Read, "01 00 01"), Ok((1, vec![], 3)));
    assert_eq!(reply(Way::Read, "01 02 FF FF 02"), Err(Refusal::BadReply));
    for cut in ["", "FF FF", "01", "01 02", "01 02 FF", "01 02 FF FF"] {
        assert_eq!(reply(Way::Read, cut), Err(Refusal::ReplyRunsOut), "{cut}");
    }
    for response in 0..=0xFE {
        let reserved = matches!(response, 0x00 | 0x06 | 0x09..=0xFE);
        let read = read_reply(Way::Write, &[response]);
        assert_eq!(read.err(), reserved.then_some(Refusal::BadReply));
    }
}

#[test]
fn section_4() {
    let mut controller = Controller::fresh();
    for (bytes, reply) in [
        ("A5 00 02 FF FF 00", "01"),
        ("A5 00 02 5A 00 23 CA", "01"),
        ("A5 00 02 FA 5A 5A 56", "01"),
        ("A5 00 02 E9 6F 5A 5A", "01"),
        ("A5 00 02 90 13 5A 00", "01"),
        ("A5 00 02 AB CD EF", "02"),
        ("A5 42 01 9F E2", "03"),
        ("A5 66 04 FF FF FF FF 66", "03"), // printed 04
        ("A5 00 04 AB 00 CD 12 8E", "05"),
        ("A5 C8 01 02 CB", "07"),
        ("A5 01 00 01", "01 02 90 13 A6"),
        ("A5 01 02 FF FF 00", "02"), // printed 05, but the sum is 01
        ("A5 01 02 FF FF 01", "05"),
    ] {
        answers(&mut controller, bytes, reply);
    }
    assert_eq!(controller.settings().status, [0x01, 0x20, 0, 0xD0]);
}

#[test]
fn slips() {
    let mut controller = Controller::fresh();
    answers(&mut controller, "A5 00 02 5A A5 01 00 01", "01 02 00 00 03");
    assert_eq!(controller.settings().status, [0x08, 0, 0, 0x80]);
    // A start cuts the rest of a reply; what was out stays out, and nothing is incomplete.
    let mut controller = Controller::fresh();
    let out: Vec<u8> = hex("A5 01 00 01 33 A5 03 00 03 11 22 33 44 5A 00 A5")
        .into_iter()
        .map(|byte| controller.exchange(byte))
        .collect();
    assert_eq!(out, hex("FF FF FF FF 01 02 FF FF FF 01 01 01 03 FF FF FF"));
    assert_eq!(controller.settings().status, [0, 0, 0, 0x20]);
}

#[test]
fn box_refusals() {
    let refused = |refusal: Refusal, frame: &str| {
        Err(Refused {
            refusal,
            frame: Some(hex(frame)),
        })
    };
    let fault = |wrong, offset| Refusal::Fault(Fault { offset, wrong });
    let mut cab = Cab::restarted(2);
    let order = |number| hex(&format!("12 06 00 03 00 00 00 0{number} 00 21 01 00 01"));
    assert_eq!(
        cab.frame_in(&order(1), 47),
        refused(Refusal::NoneOpen, "14 05 00 03 00 00 00 05")
    );
    assert_eq!(
        cab.frame_in(&hex("10 04 00 02 00 00 00"), 47),
        refused(Refusal::WrongSession, "14 05 00 02 00 00 00 06")
    );
    assert!(cab.frame_in(&hex("10 04 00 03 00 00 00"), 64).is_ok());
    assert_eq!(
        cab.frame_in(&order(0), 47),
        refused(fault(Wrong::Contents, 0), "14 05 00 00 00 00 00 11")
    );
    assert_eq!(
        cab.frame_in(&order(2), 47),
        refused(Refusal::BeyondNext, "14 05 00 03 00 00 00 07")
    );
    assert_eq!(cab.frame_in(&order(1), 47), Ok(hex("13 06 00 03 00 00 00 01 00")));
    assert_eq!(
        cab.frame_in(&hex("10 04 00 03 00 00 00"), 47),
        Ok(hex("13 06 00 03 00 00 00 01 00"))
    );
    assert_eq!(
        cab.frame_in(&hex("13 06 00 03 00 00 00 01 00"), 47),
        refused(fault(Wrong::OtherEnd, 0), "14 05 00 00 00 00 00 13")
    );
    let short = Err(Refused {
        refusal: Refusal::ShortOutput,
        frame: None,
    });
    assert_eq!(cab.frame_in(&[], 46), short);
}

#[test]
fn settings_that_no_controller_holds() {
    let fresh = Settings::fresh().to_block();
    assert_eq!(fresh.len(), 37);
    assert_eq!(Settings::from_block(&fresh), Some(Settings::fresh()));
    let with = |place: usize, value: u8| {
        let mut block = fresh.clone();
        block[place] = value;
        Settings::from_block(&block).is_some()
    };
    assert!(!with(2, 2) && !with(3, 2) && !with(4, 2) && !with(5, 3) && !with(8, 101));
    assert!(with(2, 0) && with(3, 1) && with(4, 1) && with(5, 2) && with(8, 100));
    assert!(
        !with(11, 0) && !with(11, 2) && !with(14, 0),
        "minus 0, or another sign"
    );
    assert!(!with(23, 2) && !with(32, 4), "calibration mode and gain");
    assert!(with(23, 1) && with(32, 3));
    assert!((24..32).all(|place| with(place, 0xFF)), "levels");
    assert!((33..37).all(|place| with(place, 0xFF)), "status");
}

#[test]
fn wrapped_frames() {
    for (frame, wrapped) in [
        ("AA", "01 01 00 AA"),
        ("10 04 00 03 00 00 00", "01 07 00 10 04 00 03 00 00 00"),
        (
            "13 06 00 03 00 00 00 01 00",
            "01 09 00 13 06 00 03 00 00 00 01 00",
        ),
        (
            "12 06 00 03 00 00 00 01 00 22 02 00 E8 03",
            "01 0E 00 12 06 00 03 00 00 00 01 00 22 02 00 E8 03",
        ),
    ] {
        let (frame, wrapped) = (hex(frame), hex(wrapped));
        assert_eq!(wrap(&frame, wrapped.len() - 1), Err(Refusal::ShortOutput));
        assert_eq!(wrap(&frame, wrapped.len()), Ok(wrapped.clone()));
        assert_eq!(wrap(&frame, 128), Ok(wrapped));
    }
    let longest = [hex("01 40 00"), vec![0x01; 64]].concat();
    assert_eq!(wrap(&[0x01; 64], 67), Ok(longest));
    assert_eq!(wrap(&[0x01; 64], 66), Err(Refusal::ShortOutput));
    for room in [0, 2, 3, 67, 68, 128] {
        assert_eq!(wrap(&[], room), Err(Refusal::TooMuchData));
        assert_eq!(wrap(&[0x01; 65], room), Err(Refusal::TooMuchData));
    }
}

/// All that comes, in calls that are repeated until the bytes are taken.
fn received(receiver: &mut Receiver, mut bytes: &[u8]) -> Vec<Came> {
    let mut all = Vec::new();
    while !bytes.is_empty() {
        let taken = receiver.take(bytes);
        assert!((1..=bytes.len()).contains(&taken.count));
        assert!(taken.came.is_some() || taken.count == bytes.len());
        bytes = &bytes[taken.count..];
        all.extend(taken.came);
    }
    all
}

fn took(count: usize, came: Option<Came>) -> Taken {
    Taken { count, came }
}

fn refused() -> Option<Came> {
    Some(Came::Refused(Fault {
        offset: 0,
        wrong: Wrong::Length,
    }))
}

fn frame(text: &str) -> Option<Came> {
    Some(Came::Frame(hex(text)))
}

#[test]
fn a_call_ends_with_a_frame_or_a_refusal() {
    let mut receiver = Receiver::new();
    assert_eq!(receiver.take(&[]), took(0, None));
    assert_eq!(receiver.take(&hex("00 FF 01 02")), took(4, None));
    assert_eq!(receiver.dropped(), 2);
    assert_eq!(receiver.take(&hex("00 AA")), took(2, None));
    assert_eq!(receiver.take(&[]), took(0, None));
    assert_eq!(receiver.take(&hex("BB 01 01 00 CC")), took(1, frame("AA BB")));
    assert_eq!(receiver.take(&hex("01 01 00 CC 01")), took(4, frame("CC")));
    assert_eq!(receiver.take(&hex("01 00 00 07 01 01 00 DD")), took(3, refused()));
    assert_eq!(receiver.take(&hex("07 01 01 00 DD")), took(5, frame("DD")));
    assert_eq!(receiver.dropped(), 3);
}

#[test]
fn a_bad_length_is_refused_and_skipped() {
    for length in [0u16, 65, 66, 255, 256, 257, 320, 0x4000, 65535] {
        let mut receiver = Receiver::new();
        let [low, high] = length.to_le_bytes();
        assert_eq!(receiver.take(&[0x01, low]), took(2, None));
        assert_eq!(receiver.take(&[high, 0x01, 0x01]), took(1, refused()), "{length}");
        // What is skipped looks like frames; what follows it is one.
        let skipped: Vec<u8> = hex("01 01 00")
            .into_iter()
            .cycle()
            .take(usize::from(length))
            .collect();
        let bytes = [skipped, hex("01 02 00 AA BB")].concat();
        assert_eq!(
            receiver.take(&bytes),
            took(bytes.len(), frame("AA BB")),
            "{length}"
        );
        assert_eq!(receiver.dropped(), 0);
    }
    for length in [1, 2, 63, 64] {
        let contents = vec![0x01; usize::from(length)];
        let bytes = [vec![0x01, length, 0x00], contents.clone()].concat();
        let came = Some(Came::Frame(contents));
        assert_eq!(Receiver::new().take(&bytes), took(bytes.len(), came));
    }
}

#[test]
fn however_the_bytes_are_cut() {
    let longest = vec![0x01; 64];
    let bytes = [
        hex("00 01 07 00 10 04 00 03 00 00 00 A5 02"),
        [hex("01 40 00"), longest.clone()].concat(),
        hex("01 00 00 01 01 00 01"),
        [hex("01 41 00"), vec![0x01; 65]].concat(),
        hex("01 03 00 01 01 00 FF 01 02 00 55"),
    ]
    .concat();
    let expected: Vec<Came> = [
        frame("10 04 00 03 00 00 00"),
        Some(Came::Frame(longest)),
        refused(),
        frame("01"),
        refused(),
        frame("01 01 00"),
    ]
    .into_iter()
    .flatten()
    .collect();
    let mut whole = Receiver::new();
    assert_eq!(received(&mut whole, &bytes), expected);
    assert_eq!(whole.dropped(), 4);

    for length in 1..=bytes.len() {
        let mut receiver = Receiver::new();
        let pieces = bytes.chunks(length);
        let came: Vec<Came> = pieces.flat_map(|piece| received(&mut receiver, piece)).collect();
        assert_eq!(
            (came, &receiver),
            (expected.clone(), &whole),
            "pieces of {length}"
        );
    }
    for cut in 0..=bytes.len() {
        let mut receiver = Receiver::new();
        let (first, second) = bytes.split_at(cut);
        let mut came = received(&mut receiver, first);
        came.extend(received(&mut receiver, second));
        assert_eq!((came, &receiver), (expected.clone(), &whole), "cut at {cut}");
    }
    assert_eq!(received(&mut whole, &hex("66")), [Came::Frame(hex("55 66"))]);
}

#[test]
fn the_count_of_dropped_bytes_stops() {
    let mut receiver = Receiver::with_dropped(4_294_967_293);
    for (byte, count) in [
        (0x00, 4_294_967_294),
        (0xFF, 4_294_967_295),
        (0x02, 4_294_967_295),
        (0xA5, 4_294_967_295),
    ] {
        assert_eq!(receiver.take(&[byte]), took(1, None));
        assert_eq!(receiver.dropped(), count);
    }
    assert_eq!(receiver.take(&hex("07 01 01 00 AA")), took(5, frame("AA")));
    assert_eq!(receiver.dropped(), 4_294_967_295);
    let mut receiver = Receiver::with_dropped(4_294_967_290);
    assert_eq!(receiver.take(&[0x00; 300]), took(300, None));
    assert_eq!(receiver.dropped(), 4_294_967_295);
}
