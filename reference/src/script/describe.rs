//! What both ends hold, in words.

use crate::cab::Cab;
use crate::office::Office;
use crate::settings::{Flag, Settings};

pub fn cab(cab: &Cab) -> String {
    let settings = settings(cab.controller().settings());
    match cab.open() {
        Some(open) => {
            let orders = if open.taken == 1 { "order" } else { "orders" };
            format!(
                "box session {}, {} {orders} taken: {settings}",
                open.session, open.taken
            )
        }
        None => format!("box with no session open, highest {}: {settings}", cab.highest()),
    }
}

pub fn office(office: &Office) -> String {
    let Some(progress) = office.progress() else {
        return "office never opened".to_string();
    };
    let session = progress.session;
    if matches!(office, Office::Opening { .. }) {
        return format!("office session {session}, opening");
    }
    let mut line = format!(
        "office session {session}, {}, {} of {} orders confirmed",
        office.word(),
        progress.confirmed,
        progress.issued
    );
    if let Some(held) = office.settings() {
        line += &format!(": {}", settings(held));
    }
    line
}

fn settings(held: &Settings) -> String {
    let master = if held.master { "on" } else { "off" };
    let parked = if held.parked { "parked" } else { "not parked" };
    let mode = if held.calibration {
        "calibration mode"
    } else {
        "normal mode"
    };
    let [horizontal, vertical] = held.bezel;
    let [start_x, start_y, end_x, end_y] = held.pixels;
    [
        format!("level {}", held.backlight),
        format!("master {master}"),
        parked.to_string(),
        format!("splash mode {}", u8::from(held.splash)),
        format!("drive strength {}", held.strength),
        format!("heater {} kHz at {} %", held.heater.khz, held.heater.duty),
        format!("bezel {horizontal} and {vertical}"),
        format!("test pixels ({start_x}, {start_y}) to ({end_x}, {end_y})"),
        mode.to_string(),
        format!("red level {}", held.red),
        format!("green level {}", held.green),
        format!("blue level {}", held.blue),
        format!("current limit {}", held.current_limit),
        format!("sensor gain {}", held.gain),
        format!("status {}", status(held.status)),
    ]
    .join(", ")
}

fn status(mut bits: [u8; 4]) -> String {
    let mut names = Vec::new();
    for (flag, name) in [
        (Flag::Incomplete, "incomplete"),
        (Flag::NotAvailable, "not available"),
        (Flag::InvalidCommand, "invalid command"),
        (Flag::OutOfRange, "out of range"),
        (Flag::EscapeSeen, "escape seen"),
        (Flag::Length, "length"),
        (Flag::BytesIgnored, "bytes ignored"),
        (Flag::Checksum, "checksum"),
    ] {
        let (byte, bit) = flag.place();
        let mask = 1 << bit;
        if bits[byte] & mask != 0 {
            bits[byte] &= !mask;
            names.push(name);
        }
    }
    // A WELCOME may bring bits that no controller sets.
    if bits != [0; 4] {
        names.push("other bits");
    }
    if names.is_empty() {
        names.push("none");
    }
    names.join(", ")
}
