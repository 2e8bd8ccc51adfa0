//! The stand-in controller, one exchange at a time.

use std::collections::VecDeque;

use crate::packet::{DUMMY, ESCAPE, LONGEST_PACKET, START, Way, sum, write_packet};
use crate::settings::{Flag, Register, Settings};

#[derive(Clone, Debug)]
pub struct Controller {
    settings: Settings,
    /// Inside a packet: its unescaped bytes so far, from the command byte on.
    packet: Option<Vec<u8>>,
    escape: bool,
    /// Unsent reply bytes.
    reply: VecDeque<u8>,
}

enum Fault {
    Checksum,
    InvalidCommand,
    NotAvailable,
    Length,
    OutOfRange,
}

impl Fault {
    fn response_and_flag(self) -> (u8, Flag) {
        match self {
            Fault::Checksum => (0x02, Flag::Checksum),
            Fault::InvalidCommand => (0x03, Flag::InvalidCommand),
            Fault::NotAvailable => (0x04, Flag::NotAvailable),
            Fault::Length => (0x05, Flag::Length),
            Fault::OutOfRange => (0x07, Flag::OutOfRange),
        }
    }
}

impl Controller {
    pub fn fresh() -> Controller {
        Controller::idle(Settings::fresh())
    }

    pub fn idle(settings: Settings) -> Controller {
        Controller {
            settings,
            packet: None,
            escape: false,
            reply: VecDeque::new(),
        }
    }

    pub fn settings(&self) -> &Settings {
        &self.settings
    }

    pub fn exchange(&mut self, input: u8) -> u8 {
        let replying = !self.reply.is_empty();
        let output = self.reply.pop_front().unwrap_or(DUMMY);
        if input == START {
            if self.packet.is_some() {
                self.settings.flag(Flag::Incomplete);
            }
            self.packet = Some(Vec::new());
            self.escape = false;
            self.reply.clear();
        } else if replying {
            // a dummy
        } else if self.packet.is_some() {
            self.packet_byte(input);
        } else if input != 0x00 {
            self.settings.flag(Flag::BytesIgnored);
        }
        output
    }

    fn packet_byte(&mut self, input: u8) {
        let byte = match (self.escape, input) {
            (false, ESCAPE) => {
                self.escape = true;
                self.settings.flag(Flag::EscapeSeen);
                return;
            }
            (true, 0x00) => START,
            _ => input,
        };
        self.escape = false;

        let Some(packet) = &mut self.packet else {
            return;
        };
        packet.push(byte);
        let complete = packet.len() > 2 && packet.len() == usize::from(packet[1]) + 3;
        if complete && let Some(packet) = self.packet.take() {
            self.reply = self.answer(&packet).into();
        }
    }

    fn answer(&mut self, packet: &[u8]) -> Vec<u8> {
        self.execute(packet).unwrap_or_else(|fault| {
            let (response, flag) = fault.response_and_flag();
            self.settings.flag(flag);
            vec![response]
        })
    }

    /// Checks and runs a whole packet: command byte, length, data, checksum.
    fn execute(&mut self, packet: &[u8]) -> Result<Vec<u8>, Fault> {
        let (summed, checksum) = packet.split_at(packet.len() - 1);
        let (command, data) = (summed[0], &summed[2..]);
        let way = Way::of_command(command);

        if checksum[0] != sum(summed) {
            return Err(Fault::Checksum);
        }
        let register = Register::of_id(command / 2)
            .filter(|register| register.has(way))
            .ok_or(Fault::InvalidCommand)?;
        if !self.settings.available(register, way) {
            return Err(Fault::NotAvailable);
        }
        let expected = match way {
            Way::Write => register.size(),
            Way::Read => 0,
        };
        if data.len() != expected {
            return Err(Fault::Length);
        }
        match way {
            Way::Write if self.settings.write(register, data) => Ok(vec![0x01]),
            Way::Write => Err(Fault::OutOfRange),
            Way::Read => {
                let held = self.settings.read(register);
                if register == Register::Status {
                    self.settings.status = [0; 4];
                }
                let mut reply = vec![0x01, held.len() as u8];
                reply.extend(held);
                reply.push(sum(&reply));
                Ok(reply)
            }
        }
    }

    /// Runs one command as the writer's packet, then 0x00 until the reply is out.
    /// `data` is at most 255 bytes.
    pub fn run(&mut self, command: u8, data: &[u8]) {
        let way = Way::of_command(command);
        let packet = write_packet(way, command / 2, data, LONGEST_PACKET)
            .expect("a seven-bit ID and at most 255 data bytes");
        for byte in packet {
            self.exchange(byte);
        }
        while !self.reply.is_empty() {
            self.exchange(0x00);
        }
    }
}
