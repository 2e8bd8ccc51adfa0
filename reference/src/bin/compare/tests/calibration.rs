//! What the random scripts meet of calibration: on the bus, in orders, and in settings blocks.

use reference::controller::Controller;
use reference::packet::{LONGEST_PACKET, Way, write_packet};

use super::*;

/// A command that a controller got, with what it held before, and the response.
struct Got {
    command: u8,
    data: Vec<u8>,
    before: Settings,
    response: u8,
}

impl Got {
    /// Where the controller stood.
    fn state(&self) -> &'static str {
        match (self.before.master, self.before.calibration) {
            (false, _) => "master off",
            (true, true) => "calibration mode",
            (true, false) => "normal mode",
        }
    }

    /// What the command is about, if it is calibration.
    fn register(&self) -> Option<&'static str> {
        Some(match self.command / 2 {
            0x64 => "mode",
            0x65 => "red",
            0x66 => "green",
            0x67 => "blue",
            0x68 => "limit",
            0x69 => "gain",
            _ => return None,
        })
    }

    fn is_read(&self) -> bool {
        Way::of_command(self.command) == Way::Read
    }

    fn is_level(&self) -> bool {
        matches!(self.command / 2, 0x65..=0x68)
    }

    fn data_in_words(&self) -> &'static str {
        match (self.is_read(), self.command / 2, &self.data[..]) {
            (true, _, []) => "read",
            (true, ..) => "read with data",
            (_, 0x64, [0]) => "0",
            (_, 0x64, [1]) => "1",
            (_, 0x64, [_]) => "above 1",
            (_, 0x69, [0..=3]) => "0 to 3",
            (_, 0x69, [4]) => "4",
            (_, 0x69, [_]) => "above 4",
            (_, 0x65..=0x68, [0xA5 | 0x5A, _] | [_, 0xA5 | 0x5A]) => "escaped level",
            (_, 0x65..=0x68, [_, _]) => "level",
            _ => "other length",
        }
    }

    fn levels(&self) -> [u16; 4] {
        levels(&self.before)
    }
}

fn levels(held: &Settings) -> [u16; 4] {
    [held.red, held.green, held.blue, held.current_limit]
}

/// Levels of which none is 0 and no two are equal, so that it shows which of them is read or written.
fn all_different(levels: [u16; 4]) -> bool {
    let set = BTreeSet::from(levels);
    set.len() == 4 && !set.contains(&0)
}

/// Whether all that is trimmed is other than 0.
fn is_trimmed(held: &Settings) -> bool {
    all_different(levels(held)) && held.gain > 0
}

/// What the controller on the bench got in a line; it is brought on by the whole line.
fn got_on_bus(bench: &mut Controller, line: &[u8]) -> Vec<Got> {
    let (words, _) = arguments(line);
    let sent: Vec<u8> = words
        .iter()
        .flat_map(|word| u8::from_str_radix(word, 16))
        .collect();
    let mut got = Vec::new();
    let mut rest = 0;
    for (packet, behind) in packets(&sent) {
        for byte in &sent[rest..behind - 1] {
            bench.exchange(*byte);
        }
        let before = *bench.settings();
        bench.exchange(sent[behind - 1]);
        let sum_aside = packet.len() - 1;
        got.push(Got {
            command: packet[0],
            data: packet[2..sum_aside].to_vec(),
            before,
            response: bench.clone().exchange(0x00),
        });
        rest = behind;
    }
    for byte in &sent[rest..] {
        bench.exchange(*byte);
    }
    got
}

/// What a controller that holds these settings gets by orders.
fn got_by_orders(held: &Settings, orders: Vec<Order>) -> Vec<Got> {
    let mut controller = Controller::idle(*held);
    let mut got = Vec::new();
    for order in orders {
        let before = *controller.settings();
        if let Order::Command { command, data } = &order {
            let way = Way::of_command(*command);
            let packet = write_packet(way, command / 2, data, LONGEST_PACKET).expect("a short order");
            let mut asked = controller.clone();
            for byte in packet {
                asked.exchange(byte);
            }
            got.push(Got {
                command: *command,
                data: data.clone(),
                before,
                response: asked.exchange(0x00),
            });
        }
        order.run(&mut controller);
    }
    got
}

/// The orders that a line issues.
fn issued(line: &[u8], answer: &Answer) -> Vec<Order> {
    let frames = match (first_word(line), answer.bare()) {
        ("command" | "raise" | "lower", Answer::Frame(frame)) => vec![frame.clone()],
        ("issue-all", Answer::Frames(frames)) => frames.clone(),
        _ => Vec::new(),
    };
    let orders = frames.iter().filter_map(|frame| match Frame::from_bytes(frame) {
        Some(Frame::Order { order, .. }) => Some(order),
        _ => None,
    });
    orders.collect()
}

/// The orders that the box takes by a line, repeated ones aside.
fn taken(before: Option<Open>, judged: Vec<(Option<Frame>, Answer)>) -> Vec<Order> {
    let mut open = before;
    let mut orders = Vec::new();
    for (frame, answer) in judged {
        match (frame, answer) {
            (Some(Frame::Open { session }), Answer::Frame(_))
                if open.is_none_or(|open| open.session != session) =>
            {
                open = Some(Open { session, taken: 0 });
            }
            (Some(Frame::Order { number, order, .. }), Answer::Frame(_)) => {
                let next = open.as_mut().filter(|open| open.taken + 1 == number);
                if let Some(open) = next {
                    open.taken = number;
                    orders.push(order);
                }
            }
            _ => {}
        }
    }
    orders
}

/// How often something was met.
#[derive(Default)]
struct Counts(BTreeMap<String, usize>);

impl Counts {
    fn add(&mut self, what: String) {
        *self.0.entry(what).or_default() += 1;
    }

    fn at_least(&self, least: usize, what: &str) {
        let count = self.0.get(what).copied().unwrap_or(0);
        assert!(count >= least, "{what}: {count}");
    }
}

/// One controller as it is watched: the bench's, the box's.
#[derive(Default)]
struct Watch {
    /// Master went off in calibration mode, and the mode was not written since.
    off_in_mode: bool,
}

impl Watch {
    fn note(&mut self, counts: &mut Counts, place: &str, got: &Got) {
        let good = got.response == 0x01;
        if let (0x02, [0], true) = (got.command, &got.data[..], good) {
            self.off_in_mode |= got.before.calibration;
        }
        let Some(register) = got.register() else {
            return;
        };
        if got.command == 0xC8 && good {
            self.off_in_mode = false;
        }
        let (state, data, response) = (got.state(), got.data_in_words(), got.response);
        counts.add(format!("{place}, {state}: {register} {data}: {response:02X}"));
        if good && got.is_level() && all_different(got.levels()) {
            let what = if got.is_read() { "read" } else { "written" };
            counts.add(format!(
                "{place}, {state}: {register} {what} among different levels"
            ));
        }
        if self.off_in_mode && good && got.command != 0xC8 && (got.command == 0xC9 || !got.is_read()) {
            let what = if got.is_read() { "mode read" } else { "trimmed" };
            counts.add(format!("{place}: {what} after master was off and on"));
        }
    }
}

/// Over all scripts of a run of the usual length: what each controller got, the office's copies among them.
fn all_got() -> Counts {
    let mut counts = Counts::default();
    for (_, script) in scripts(CALLS, SEED) {
        let mut simulation = Simulation::new();
        let mut bench = Controller::fresh();
        let mut watches: BTreeMap<&str, Watch> = BTreeMap::new();
        for line in script.lines {
            let copy = simulation.office().settings().copied();
            let held = *simulation.cab().controller().settings();
            let open = simulation.cab().open();
            let Some(answer) = simulation.line(&line) else {
                continue;
            };
            let mut note = |place: &'static str, got: Vec<Got>| {
                for got in got {
                    watches.entry(place).or_default().note(&mut counts, place, &got);
                }
            };
            match (first_word(&line), &answer) {
                ("restart", Answer::Ok) => drop(watches.remove("box")),
                ("bus", Answer::Bus(_)) => note("bus", got_on_bus(&mut bench, &line)),
                _ => {
                    if let Some(copy) = copy {
                        note("office", got_by_orders(&copy, issued(&line, &answer)));
                    }
                    let judged = frames_for_box(&simulation, &line, &answer);
                    note("box", got_by_orders(&held, taken(open, judged)));
                }
            }
        }
    }
    counts
}

const LEVELS: &[&str] = &["red", "green", "blue", "limit"];
const GAIN: &[&str] = &["gain"];
const MODE: &[&str] = &["mode"];

/// How often at least a controller in this state got each of these, about each of the registers.
type Row = (
    usize,
    &'static str,
    &'static [&'static str],
    &'static [&'static str],
);

/// On the bus, where alone it shows what a read answers.
const ON_BUS: &[Row] = &[
    (500, "calibration mode", LEVELS, &["level: 01", "read: 01"]),
    (500, "calibration mode", LEVELS, &["read among different levels"]),
    (
        500,
        "calibration mode",
        LEVELS,
        &["written among different levels"],
    ),
    (
        100,
        "calibration mode",
        LEVELS,
        &["escaped level: 01", "other length: 05"],
    ),
    (10, "calibration mode", LEVELS, &["read with data: 05"]),
    (100, "normal mode", LEVELS, &["level: 04", "read: 01"]),
    (100, "normal mode", LEVELS, &["read among different levels"]),
    (
        20,
        "normal mode",
        LEVELS,
        &["escaped level: 04", "other length: 04"],
    ),
    (10, "normal mode", LEVELS, &["read with data: 05"]),
    (100, "master off", LEVELS, &["level: 04", "read: 04"]),
    (
        20,
        "master off",
        LEVELS,
        &["escaped level: 04", "other length: 04"],
    ),
    (
        100,
        "calibration mode",
        GAIN,
        &["0 to 3: 01", "4: 07", "above 4: 07"],
    ),
    (50, "calibration mode", GAIN, &["other length: 05", "read: 01"]),
    (50, "normal mode", GAIN, &["0 to 3: 04", "4: 04", "above 4: 04"]),
    (20, "normal mode", GAIN, &["other length: 04", "read: 01"]),
    (
        20,
        "master off",
        GAIN,
        &["0 to 3: 04", "4: 04", "above 4: 04", "read: 04"],
    ),
    (100, "calibration mode", MODE, &["0: 01", "1: 01", "above 1: 07"]),
    (20, "calibration mode", MODE, &["other length: 05", "read: 01"]),
    (100, "normal mode", MODE, &["0: 01", "1: 01", "above 1: 07"]),
    (20, "normal mode", MODE, &["other length: 05", "read: 01"]),
    (
        50,
        "master off",
        MODE,
        &["0: 04", "1: 04", "above 1: 04", "read: 04"],
    ),
];

/// In orders, at the office and at the box.
const IN_ORDERS: &[Row] = &[
    (100, "calibration mode", LEVELS, &["level: 01"]),
    (
        50,
        "calibration mode",
        LEVELS,
        &["written among different levels"],
    ),
    (20, "calibration mode", LEVELS, &["escaped level: 01"]),
    (3, "calibration mode", LEVELS, &["other length: 05", "read: 01"]),
    (50, "normal mode", LEVELS, &["level: 04"]),
    (10, "normal mode", LEVELS, &["escaped level: 04"]),
    (3, "normal mode", LEVELS, &["other length: 04", "read: 01"]),
    (20, "master off", LEVELS, &["level: 04"]),
    (20, "calibration mode", GAIN, &["0 to 3: 01", "4: 07"]),
    (
        4,
        "calibration mode",
        GAIN,
        &["above 4: 07", "other length: 05", "read: 01"],
    ),
    (20, "normal mode", GAIN, &["0 to 3: 04"]),
    (
        4,
        "normal mode",
        GAIN,
        &["4: 04", "above 4: 04", "other length: 04", "read: 01"],
    ),
    (10, "master off", GAIN, &["0 to 3: 04"]),
    (4, "master off", GAIN, &["4: 04"]),
    (20, "calibration mode", MODE, &["0: 01", "1: 01"]),
    (
        4,
        "calibration mode",
        MODE,
        &["above 1: 07", "other length: 05", "read: 01"],
    ),
    (20, "normal mode", MODE, &["0: 01", "1: 01"]),
    (
        4,
        "normal mode",
        MODE,
        &["above 1: 07", "other length: 05", "read: 01"],
    ),
    (4, "master off", MODE, &["0: 04", "1: 04"]),
];

#[test]
fn calibration_is_met_in_every_state() {
    let counts = all_got();
    println!("{:#?}", counts.0);
    for (place, rows) in [("bus", ON_BUS), ("office", IN_ORDERS), ("box", IN_ORDERS)] {
        for (least, state, registers, met) in rows {
            for register in *registers {
                for met in *met {
                    counts.at_least(*least, &format!("{place}, {state}: {register} {met}"));
                }
            }
        }
        counts.at_least(50, &format!("{place}: trimmed after master was off and on"));
    }
    counts.at_least(200, "bus: mode read after master was off and on");
}

/// How far a session of the box has been trimmed.
#[derive(Default)]
struct Trimming {
    session: u32,
    in_mode: bool,
    written: BTreeSet<u8>,
    left: bool,
    told: bool,
}

impl Trimming {
    fn note(&mut self, got: &Got) {
        match (got.command, &got.data[..], got.response) {
            (0xC8, [1], 0x01) => self.in_mode = true,
            (0xC8, [0], 0x01) => self.left = self.in_mode && self.written.len() == 5,
            (0xCA | 0xCC | 0xCE | 0xD0 | 0xD2, _, 0x01) => drop(self.written.insert(got.command)),
            _ => {}
        }
    }
}

#[test]
fn sessions_that_trim_are_met() {
    for (allowed, least) in [(true, 40), (false, 10)] {
        let mut counts = Counts::default();
        for (_, script) in scripts(CALLS, SEED).filter(|(_, script)| script.allowed == allowed) {
            let mut simulation = Simulation::new();
            let mut trimming = Trimming::default();
            for line in script.lines {
                let held = *simulation.cab().controller().settings();
                let open = simulation.cab().open();
                let Some(answer) = simulation.line(&line) else {
                    continue;
                };
                let judged = frames_for_box(&simulation, &line, &answer);
                for got in got_by_orders(&held, taken(open, judged)) {
                    trimming.note(&got);
                }
                let Some(open) = simulation.cab().open() else {
                    continue;
                };
                if open.session != trimming.session {
                    let session = open.session;
                    trimming = Trimming {
                        session,
                        ..Trimming::default()
                    };
                }
                // Its office knows all of it, and holds the same.
                let own = simulation.offices().find(|office| {
                    let session = office.progress().map(|now| now.session);
                    session == Some(open.session) && office.word().to_string() == "settled"
                });
                let same = own.and_then(Office::settings) == Some(simulation.cab().controller().settings());
                if trimming.left && same && !trimming.told {
                    trimming.told = true;
                    counts.add("into the mode, all five, and out of it, then settled".to_string());
                }
            }
        }
        println!("allowed {allowed}: {:?}", counts.0);
        counts.at_least(least, "into the mode, all five, and out of it, then settled");
    }
}

#[test]
fn trimmed_settings_are_met_in_welcomes_and_copies() {
    for allowed in [true, false] {
        let mut counts = Counts::default();
        for (_, script) in scripts(CALLS, SEED).filter(|(_, script)| script.allowed == allowed) {
            let mut simulation = Simulation::new();
            for line in script.lines {
                let opening = matches!(simulation.office(), Office::Opening { .. });
                let Some(answer) = simulation.line(&line) else {
                    continue;
                };
                let mode = |held: &Settings| {
                    if held.calibration {
                        "calibration mode"
                    } else {
                        "normal mode"
                    }
                };
                // Whose settings are held from then on.
                let opened = opening && simulation.office().settings().is_some();
                if let Some(copy) = simulation.office().settings().filter(|copy| is_trimmed(copy)) {
                    if opened {
                        counts.add(format!("opened with a WELCOME, {}", mode(copy)));
                    }
                    if ["show", "describe"].contains(&first_word(&line)) {
                        counts.add(format!("the office's copy shown, {}", mode(copy)));
                    }
                }
                let held = simulation.cab().controller().settings();
                let shown = ["show", "describe"].contains(&first_word(&line));
                if shown && is_trimmed(held) {
                    counts.add(format!("the box's shown, {}", mode(held)));
                }
                // Written by the box itself.
                if let Answer::Frame(frame) = answer.bare()
                    && let Some(Frame::Welcome { settings, .. }) = Frame::from_bytes(frame)
                    && is_trimmed(&settings)
                {
                    counts.add(format!("WELCOME written, {}", mode(&settings)));
                }
            }
        }
        println!("allowed {allowed}: {:#?}", counts.0);
        for mode in ["calibration mode", "normal mode"] {
            for (least, what) in [
                (if allowed { 50 } else { 5 }, "WELCOME written"),
                (50, "opened with a WELCOME"),
                (200, "the office's copy shown"),
                (50, "the box's shown"),
            ] {
                counts.at_least(least, &format!("{what}, {mode}"));
            }
        }
    }
}

#[test]
fn levels_of_nearly_every_value_are_met_in_blocks() {
    let mut values = vec![BTreeSet::new(); BLOCK];
    for (end, frame, _) in all_frames_in() {
        if end == End::Office && matches!(Frame::from_bytes(&frame), Some(Frame::Welcome { .. })) {
            for (values, value) in values.iter_mut().zip(&frame[LONGEST_FRAME - BLOCK..]) {
                values.insert(*value);
            }
        }
    }
    assert_eq!(values[23], BTreeSet::from([0, 1]));
    assert_eq!(values[32], BTreeSet::from([0, 1, 2, 3]));
    for (place, values) in values.iter().enumerate().take(32).skip(24) {
        assert!(values.len() > 240, "byte {place}: {}", values.len());
    }
}

#[test]
fn blocks_in_another_order_are_met() {
    let block: Vec<u8> = (0..BLOCK as u8).collect();
    let mut rng = Rng::new(SEED, 0);
    let mut met = BTreeSet::new();
    for _ in 0..2000 {
        let mut other = block.clone();
        damage::other_order(&mut rng, &mut other);
        let mut sorted = other.clone();
        sorted.sort();
        assert_eq!(sorted, block, "nothing is lost");
        met.insert(other);
    }
    // The parts of the six and of the status, each two neighbours exchanged; then the status before the six.
    let parts: [&[u8]; 8] = [
        &block[..23],
        &[23],
        &[24, 25],
        &[26, 27],
        &[28, 29],
        &[30, 31],
        &[32],
        &[33, 34, 35, 36],
    ];
    for first in 1..7 {
        let mut exchanged = parts;
        exchanged.swap(first, first + 1);
        assert!(met.contains(&exchanged.concat()), "{first}");
    }
    let mut status_first = parts;
    status_first[1..].rotate_right(1);
    assert!(met.contains(&status_first.concat()));
    // Mode and gain.
    let mut exchanged = parts;
    exchanged.swap(1, 6);
    assert!(met.contains(&exchanged.concat()));
}
