//! Calls at both ends, over a link that loses, repeats and reorders frames.

use reference::link::{End, LONGEST_FRAME};
use reference::office::Office;
use reference::rng::Rng;
use reference::script::{Answer, Log};
use reference::traffic;

use super::{Generator, Kind, Pace};
use crate::frames::calibration;
use crate::lines;

impl Generator {
    pub(super) fn link(&mut self) {
        if self.simulation.room() < LONGEST_FRAME && self.rng.chance(15) {
            let room = self
                .rng
                .pick(&[LONGEST_FRAME, LONGEST_FRAME, LONGEST_FRAME + 1, 64, 512]);
            self.emit(format!("room {room}"));
            return;
        }
        if self.offices > 1 && self.rng.chance(17) {
            self.several_offices();
            return;
        }
        if matches!(self.pace, Pace::Smooth) && self.rng.chance(20) {
            self.help();
            return;
        }
        let (open, reopen) = match self.simulation.office() {
            Office::NeverOpened | Office::Over(_) if self.at_work().is_some() => (40, 10),
            Office::NeverOpened | Office::Over(_) => (250, 10),
            Office::Opening { .. } => (15, 120),
            Office::Open(_) => (8, 8),
        };
        let batches = match self.simulation.office() {
            Office::Open(_) => 28,
            _ => 10,
        };
        let [to_box, to_office, issue, resend] = match self.pace {
            Pace::Smooth => [340, 330, 250, 30],
            Pace::Burst => [150, 120, 650, 40],
            Pace::Storm => [380, 330, 100, 150],
            Pace::Deaf => [0, 300, 200, 200],
        };
        match self
            .rng
            .weighted(&[to_box, to_office, issue, resend, open, reopen, 5, 14, 11])
        {
            0 if self.rng.chance(18) => self.run(),
            0 => {
                let index = next_frame(&mut self.rng, self.simulation.from_offices(), &mut self.box_had);
                self.carry(End::Box, index);
            }
            1 => {
                let index = self.next_for_office();
                self.carry(End::Office, index);
            }
            2 if self.rng.chance(batches) => self.batch(),
            2 => self.issue(),
            3 => self.resend(),
            4 => self.open(),
            5 => {
                self.emit("reopen");
            }
            6 => self.restart(),
            7 => self.room(),
            _ => self.trim(),
        }
    }

    fn room(&mut self) {
        let least = LONGEST_FRAME;
        let untrimmed = least - calibration().len();
        let room = match self.rng.weighted(&[30, 35, 20, 15]) {
            0 => self.rng.pick(&[least, least, least + 1, 60, 64, 65]),
            // For an OPEN, an ACK, an ORDER, for a WELCOME without calibration, but not for all frames.
            1 => self
                .rng
                .pick(&[0, 1, 7, 9, 14, 29, untrimmed, least - 1, least - 1]),
            2 => self.rng.pick(&[256, 256 + least, 511, 512, 512, 513, 514]),
            _ => self.rng.below(530),
        };
        self.emit(format!("room {room}"));
    }

    /// Brings the session a step on, as an office that keeps trying would.
    fn help(&mut self) {
        match (self.simulation.office(), self.simulation.office().progress()) {
            (Office::NeverOpened | Office::Over(_), _) if self.at_work().is_some() && self.rng.chance(70) => {
                return self.switch();
            }
            (Office::Opening { .. }, _) => {
                self.emit("reopen");
            }
            (Office::Open(_), Some(now)) if now.confirmed < now.issued => {
                self.emit(format!("resend {}", now.confirmed + 1));
            }
            _ => return self.open_or_issue(),
        }
        for _ in 0..self.rng.between(1, 9) {
            let before = self.simulation.from_offices().written();
            self.carry_whole(End::Box, before);
            self.carry_whole(End::Office, self.simulation.from_cab().written());
            match (self.simulation.office(), self.simulation.office().progress()) {
                (Office::Open(_), Some(now)) if now.confirmed < now.issued => {
                    self.emit(format!("resend {}", now.confirmed + 1));
                }
                _ => break,
            }
        }
    }

    fn open_or_issue(&mut self) {
        match self.simulation.office() {
            Office::Open(_) if self.rng.chance(40) => self.page(),
            Office::Open(_) => self.issue(),
            _ => self.open(),
        }
    }

    fn open(&mut self) {
        let (office, highest, next) = self.sessions();
        let near_end = self.calls > self.wanted / 10 * 9;
        let allowed = self.kind == Kind::Allowed;
        let session = match self.rng.weighted(&[70, 14, 4, 3, 9]) {
            0 => next.saturating_add(self.rng.pick(&[0, 0, 0, 1, 2, 5])),
            1 => self.rng.below(next as usize) as u32,
            2 => 0,
            3 if near_end => u32::MAX - self.rng.below(3) as u32,
            4 if !allowed && self.offices > 1 && self.rng.chance(60) => self.other_session(),
            4 if !allowed => self.rng.pick(&[office, highest, office.saturating_sub(1), 1]),
            _ => next,
        };
        self.open_session(session);
    }

    pub(super) fn open_session(&mut self, session: u32) {
        if self.kind == Kind::Allowed && self.opened.contains(&session) {
            return;
        }
        if let Some(Answer::Frame(_)) = self.emit(format!("open {session}")) {
            self.opened.insert(session);
        }
    }

    pub(super) fn restart(&mut self) {
        self.rest_for_box.clear();
        let (office, highest, next) = self.sessions();
        if self.kind == Kind::Allowed || self.rng.chance(50) {
            self.emit("restart");
            return;
        }
        let told = match self.rng.below(8) {
            0 => 0,
            1 => office,
            2 => office.saturating_sub(1),
            3 => highest.saturating_sub(1),
            4 => next,
            5 => self.rng.below(20) as u32,
            6 => self.rng.pick(&[u32::MAX, u32::MAX - 1]),
            _ => highest,
        };
        self.emit(format!("restart {told}"));
        if told > u32::MAX - 2 && self.rng.chance(80) {
            self.emit("restart 0");
        }
    }

    pub(super) fn issue(&mut self) {
        let line = self.order();
        self.emit(line);
    }

    /// The line that issues an order, or an item of a batch.
    pub(super) fn order(&mut self) -> Vec<u8> {
        let settings = self.simulation.office().settings().copied();
        let master_off = settings.is_some_and(|settings| !settings.master);
        if self.rng.chance(if master_off { 30 } else { 2 }) {
            let switch = if master_off { "01" } else { "00" };
            return format!("command 02 {switch}").into_bytes();
        }
        if self.rng.chance(12) {
            // Offsets other than 0 first: then it shows if a refused write takes a part.
            let data = match settings {
                Some(settings) if !settings.bezel.contains(&0) => traffic::bad_signs(&mut self.rng),
                _ => vec![0x05, 0x00, 0x00, 0x07, 0x00, 0x01],
            };
            return lines::hex(&mut self.rng, "command", &[&[0x50], &data[..]].concat());
        }
        if self.rng.chance(if master_off { 40 } else { 15 }) {
            let in_mode = settings.is_some_and(|settings| settings.calibration);
            let (command, data) = traffic::trimming(&mut self.rng, in_mode);
            return lines::hex(&mut self.rng, "command", &[&[command], &data[..]].concat());
        }
        if self.rng.chance(55) {
            let most = self.rng.pick(&[17, 17, 18, 40, 255, 300]);
            let (command, data) = traffic::command(&mut self.rng, most);
            return lines::hex(&mut self.rng, "command", &[&[command], &data[..]].concat());
        }
        let level = settings.map_or(0, |settings| settings.backlight);
        let target = u16::from_le_bytes([self.rng.byte(), self.rng.byte()]);
        let (word, step) = match self.rng.below(10) {
            0..=4 if target >= level => ("raise", target - level),
            0..=4 => ("lower", level - target),
            5 | 6 => ("raise", self.rng.number() as u16),
            7 | 8 => ("lower", self.rng.number() as u16),
            _ => {
                let step = self.rng.pick(&[0, 1, 255, 256, 32768, 65534, 65535]);
                (self.rng.pick(&["raise", "lower"]), step)
            }
        };
        format!("{word} {step}").into_bytes()
    }

    pub(super) fn resend(&mut self) {
        let now = self.simulation.office().progress();
        let (confirmed, issued) = now.map_or((0, 0), |now| (now.confirmed, now.issued));
        let number = match self.rng.below(12) {
            0 => confirmed,
            1 => issued.saturating_add(1),
            2 => self.rng.pick(&[0, 1, 8, 9, 65535]),
            3 => confirmed.saturating_sub(self.rng.below(9) as u16),
            _ if issued > confirmed => {
                let open = usize::from(issued - confirmed);
                confirmed + self.rng.between(1, open) as u16
            }
            _ => issued,
        };
        self.emit(format!("resend {number}"));
    }
}

/// The number of the next frame to deliver: mostly in order, some lost, repeated, late.
pub(super) fn next_frame(rng: &mut Rng, log: &Log, had: &mut u64) -> u64 {
    let written = log.written();
    match rng.weighted(&[60, 8, 22, 8, 2]) {
        0 if *had < written => {
            *had += 1;
            *had
        }
        0 | 1 => {
            *had = written;
            written
        }
        2 => written.saturating_sub(rng.below(12) as u64),
        3 if written > 0 => 1 + rng.number() % written,
        _ => written + 1,
    }
}
