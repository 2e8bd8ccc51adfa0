//! The longest session.

use reference::link::LONGEST_FRAME;
use reference::rng::Rng;

use super::{Generator, Kind, Script};

/// One session of 65535 orders, with the ends of the kept frames looked at on the way.
pub fn longest_session(rng: Rng) -> Script {
    let mut generator = Generator::new(rng, Kind::Allowed, usize::MAX);
    for line in ["open 9", "to-box 1", "to-office 1"] {
        generator.emit(line);
    }
    let issued = |generator: &Generator| generator.simulation.office().progress().map(|now| now.issued);
    for number in 1..=65535 {
        while issued(&generator) != Some(number) {
            generator.issue();
        }
        // The last eight stay unanswered.
        if number == 65527 || (number % 8 == 0 && number < 65527) {
            generator.deliver_all();
        }
        // With one more the window is full and the numbers are out at once.
        if number > 65527 {
            generator.page_beyond(65536 - number as usize);
        }
        if number % 4096 == 100 {
            generator.emit("show");
            generator.emit("describe");
            generator.look_at_kept();
        }
    }
    for line in ["show", "describe", "raise 1"] {
        generator.emit(line);
    }
    generator.emit(format!("room {}", LONGEST_FRAME - 1));
    generator.emit("raise 1");
    generator.emit(format!("room {LONGEST_FRAME}"));
    for line in ["command 00", "resend 65527"] {
        generator.emit(line);
    }
    generator.emit(format!("command 00{}", " 00".repeat(17)));
    for number in 65528..=65535 {
        generator.emit(format!("resend {number}"));
    }
    generator.deliver_all();
    let last = generator.simulation.from_offices().written();
    for line in ["show", "describe", "raise 1", "resend 65535", "reopen"] {
        generator.emit(line);
    }
    generator.emit(format!("to-box {last}"));
    generator.emit(format!("to-box {}", last - 9));
    generator.look_at_kept();
    generator.emit("show");
    generator.finish(true)
}

/// The same by pages of 8; the last orders are answered before the numbers run out. Beside it another
/// office sends the OPEN of a lower session again and again, whose frames are kept among the others.
pub fn longest_by_pages(rng: Rng) -> Script {
    let mut generator = Generator::new(rng, Kind::Allowed, usize::MAX);
    for line in ["open 9", "to-box 1", "to-office 1", "room 512"] {
        generator.emit(line);
    }
    for line in ["use 2", "open 8", "use 1"] {
        generator.emit(line);
    }
    for page in 1..=8190 {
        let items: Vec<String> = (0..8).map(|_| generator.short_order()).collect();
        generator.emit(format!("issue-all {}", items.join(" / ")));
        generator.deliver_page();
        if page % 64 == 7 {
            for line in ["use 2", "reopen", "use 1"] {
                generator.emit(line);
            }
        }
        if page % 512 == 13 {
            generator.emit("show");
            generator.look_at_kept();
        }
    }
    // 65520 are issued. Pages of every length, answered or not, up to the last number and beyond it.
    for count in [4, 7, 3, 1] {
        for count in [9, 8, 7, 6, 5, 4, 3, 2, 1] {
            generator.page_beyond(count);
        }
        generator.emit(format!("issue-all {}", vec!["raise 1"; count].join(" / ")));
        if count != 3 {
            generator.deliver_page();
        }
    }
    for count in [1, 2, 8, 9, 0] {
        generator.page_beyond(count);
    }
    generator.emit("show");
    generator.finish(true)
}

impl Generator {
    fn short_order(&mut self) -> String {
        match self.rng.below(6) {
            0 | 1 => format!("raise {}", self.rng.below(1000)),
            2 | 3 => format!("lower {}", self.rng.below(1000)),
            4 => format!("command 4C {:02X}", self.rng.below(4)),
            _ => {
                let (mode, gain) = (self.rng.below(2), self.rng.below(4));
                self.rng
                    .pick(&[
                        &format!("command C8 {mode:02X}")[..],
                        &format!("command D2 {gain:02X}"),
                        "command CC A5 5A",
                        "command CE 5A A5",
                    ])
                    .to_string()
            }
        }
    }

    /// A page that goes beyond the last number or beyond the window, plain, with an order that is too long,
    /// or with too short an output; nothing where it would be issued.
    fn page_beyond(&mut self, count: usize) {
        let Some(now) = self.simulation.office().progress() else {
            return;
        };
        let left = usize::from(u16::MAX - now.issued).min(8 - usize::from(now.issued - now.confirmed));
        if count <= left {
            return;
        }
        let mut items = vec!["raise 1".to_string(); count];
        self.emit(format!("issue-all {}", items.join(" / ")));
        let length = 14 * left + LONGEST_FRAME;
        for length in [length - 1, length, 516] {
            self.emit(format!("issue-all {} into {length}", items.join(" / ")));
        }
        for place in [left.saturating_sub(1), left, count - 1] {
            items[place] = format!("command 00{}", " 00".repeat(17));
            self.emit(format!("issue-all {} into 516", items.join(" / ")));
            items[place] = "raise 1".to_string();
        }
    }

    /// All unanswered orders in one run.
    fn deliver_page(&mut self) {
        let last = self.simulation.from_offices().written();
        let first = last + 1 - self.unanswered() as u64;
        let indexes: Vec<String> = (first..=last).map(|index| index.to_string()).collect();
        self.emit(format!("to-box-all {}", indexes.join(" ")));
        let last = self.simulation.from_cab().written();
        self.emit(format!("to-office {last}"));
    }

    fn deliver_all(&mut self) {
        let now = self.simulation.office().progress();
        let unanswered = now.map_or(0, |now| u64::from(now.issued - now.confirmed));
        let last = self.simulation.from_offices().written();
        for index in last - unanswered + 1..=last {
            self.emit(format!("to-box {index}"));
        }
        let last = self.simulation.from_cab().written();
        self.emit(format!("to-office {last}"));
    }

    /// Frames just kept and just no longer kept, at both ends.
    fn look_at_kept(&mut self) {
        let office = self.simulation.from_offices().written();
        let cab = self.simulation.from_cab().written();
        for back in [4094, 4095, 4096, 4097] {
            self.emit(format!("to-office {}", cab.saturating_sub(back)));
            self.emit(format!("to-box {}", office.saturating_sub(back)));
        }
    }
}
