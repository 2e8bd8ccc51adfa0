//! The bench controller, the packet writer and the reply reader.

use reference::traffic;

use super::Generator;
use crate::lines;

impl Generator {
    pub(super) fn bench(&mut self) {
        let mut bytes = traffic::bus(&mut self.rng);
        if self.rng.chance(20) {
            let rest = bytes.split_off(self.rng.below(bytes.len() + 1));
            let line = lines::hex(&mut self.rng, "bus", &bytes);
            self.emit(line);
            bytes = rest;
        }
        let line = lines::hex(&mut self.rng, "bus", &bytes);
        self.emit(line);
    }

    pub(super) fn tools(&mut self) {
        let way = self.rng.pick(&["write", "read"]);
        let line = if self.rng.chance(50) {
            let id = match self.rng.below(4) {
                0 => self.rng.pick(&[0x7F, 0x80, 0xFF, 0x2D, 0x52, 0x00]),
                _ => self.rng.byte() & 0x7F,
            };
            let length = match self.rng.below(3) {
                0 => self.rng.pick(&[90, 165, 254, 255, 255, 256, 257, 300]),
                _ => self.rng.below(20),
            };
            let special = self.rng.chance(25);
            let mut bytes = vec![id];
            for _ in 0..length {
                bytes.push(if special {
                    self.rng.pick(&[0xA5, 0x5A])
                } else {
                    self.rng.byte()
                });
            }
            lines::hex(&mut self.rng, &format!("packet {way}"), &bytes)
        } else {
            let bytes = traffic::reply(&mut self.rng);
            lines::hex(&mut self.rng, &format!("reply {way}"), &bytes)
        };
        self.emit(line);
    }
}
