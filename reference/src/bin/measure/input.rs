//! What the programs are fed: five kinds of bus traffic, and the scripts of a session.

use std::fmt::Write as _;
use std::fs::{self, File};
use std::io::{self, Seek, Write};
use std::{env, iter, process};

use reference::link::LONGEST_FRAME;
use reference::packet::{ESCAPE, LONGEST_PACKET, START, Way, write_packet};
use reference::rng::Rng;

use crate::Failure;

pub const ORDERS: usize = 60_000;
/// The orders of a batch, and the frames of a run.
pub const PAGE: usize = 8;

const BACKLIGHT: u8 = 0x00;
const STATUS: u8 = 0x33;
const PIXELS: u8 = 0x53;
const NOT_BUILT: u8 = 0x7F;

/// Input for any number of runs. Its file is removed while open, so that none is left behind however
/// the program ends.
pub struct Input {
    file: File,
    length: usize,
}

impl Input {
    pub fn of(bytes: &[u8]) -> Result<Input, Failure> {
        let path = env::temp_dir().join(format!("measure-{}", process::id()));
        let written = || {
            let mut file = File::options()
                .read(true)
                .write(true)
                .create_new(true)
                .open(&path)?;
            fs::remove_file(&path)?;
            file.write_all(bytes)?;
            Ok(file)
        };
        match written() {
            Ok(file) => Ok(Input {
                file,
                length: bytes.len(),
            }),
            Err(error) => Err(Failure::Run { path, error }),
        }
    }

    pub fn length(&self) -> f64 {
        self.length as f64
    }

    /// At its beginning. One run at a time: all share the place in the file.
    pub fn rewound(&self) -> io::Result<File> {
        let mut file = self.file.try_clone()?;
        file.rewind()?;
        Ok(file)
    }
}

/// Makes a packet with the dummies for its reply.
type Maker = fn(&mut Rng) -> Vec<u8>;

const TRAFFIC: [(&str, Maker); 5] = [
    ("short packets", backlight_write),
    ("mixed commands", |rng| match rng.below(4) {
        0 => backlight_write(rng),
        1 => without_escapes(|| request(Way::Write, PIXELS, &ordinary(rng, 8), 1)),
        2 => request(Way::Read, PIXELS, &[], 11),
        _ => request(Way::Read, STATUS, &[], 7),
    }),
    ("255 data bytes", |rng| {
        without_escapes(|| request(Way::Write, NOT_BUILT, &ordinary(rng, 255), 1))
    }),
    ("half escapes, short", |rng| {
        request(Way::Write, PIXELS, &special(rng, 8), 1)
    }),
    ("half escapes, long", |rng| {
        request(Way::Write, NOT_BUILT, &special(rng, 255), 1)
    }),
];

/// So many bytes of each kind at least; the last packet is not cut.
pub fn traffic(least: usize) -> Result<Vec<(&'static str, Input)>, Failure> {
    let input = |(kind, make): (_, Maker)| {
        let mut rng = Rng::new(1, 0);
        let mut bytes = Vec::with_capacity(least + LONGEST_PACKET + 1);
        while bytes.len() < least {
            bytes.extend(make(&mut rng));
        }
        Ok((kind, Input::of(&bytes)?))
    };
    TRAFFIC.into_iter().map(input).collect()
}

fn backlight_write(rng: &mut Rng) -> Vec<u8> {
    without_escapes(|| request(Way::Write, BACKLIGHT, &ordinary(rng, 2), 1))
}

/// A packet, and the dummies for a reply of that length.
fn request(way: Way, id: u8, data: &[u8], reply: usize) -> Vec<u8> {
    let packet = write_packet(way, id, data, LONGEST_PACKET);
    let mut bytes = packet.expect("a seven-bit ID and at most 255 data bytes");
    bytes.resize(bytes.len() + reply, 0x00);
    bytes
}

/// Tries again where the checksum needs an escape.
fn without_escapes(mut request: impl FnMut() -> Vec<u8>) -> Vec<u8> {
    loop {
        let bytes = request();
        if !bytes.contains(&ESCAPE) {
            return bytes;
        }
    }
}

fn ordinary(rng: &mut Rng, count: usize) -> Vec<u8> {
    let bytes = iter::repeat_with(|| rng.number() as u8);
    bytes
        .filter(|byte| !matches!(*byte, START | ESCAPE))
        .take(count)
        .collect()
}

fn special(rng: &mut Rng, count: usize) -> Vec<u8> {
    (0..count).map(|_| rng.pick(&[START, ESCAPE])).collect()
}

/// A session whose orders are each delivered and acknowledged before the next.
pub fn session() -> Result<Input, Failure> {
    let mut script = OPENED.to_string();
    for number in 1..=ORDERS {
        let order = order(number);
        let frame = number + 1;
        writeln!(script, "{order}\nto-box {frame}\nto-office {frame}").expect("room in a string");
    }
    Input::of(script.as_bytes())
}

/// The same orders by pages: each issued by one call, delivered by one, and acknowledged by its last ACK.
pub fn session_by_pages() -> Result<Input, Failure> {
    let mut script = format!("{OPENED}room {}\n", PAGE * LONGEST_FRAME);
    for before in (0..ORDERS).step_by(PAGE) {
        let numbers = before + 1..=before + PAGE;
        let orders: Vec<&str> = numbers.clone().map(order).collect();
        let frames: Vec<String> = numbers.map(|number| (number + 1).to_string()).collect();
        let (orders, frames) = (orders.join(" / "), frames.join(" "));
        let last = before + PAGE + 1;
        writeln!(
            script,
            "issue-all {orders}\nto-box-all {frames}\nto-office {last}"
        )
        .expect("room in a string");
    }
    Input::of(script.as_bytes())
}

const OPENED: &str = "open 1\nto-box 1\nto-office 1\n";

fn order(number: usize) -> &'static str {
    if number % 2 == 1 {
        "raise 1003"
    } else {
        "lower 1000"
    }
}
