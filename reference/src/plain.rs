//! The stand-in controller written for speed in the forms that document 01 names for it, as the
//! baseline of `measure`: one loop over a run of bytes, state changed in place, no allocation. It takes
//! nothing from `controller` or `settings`.

use std::mem;

use crate::packet::{DUMMY, ESCAPE, START, sum};

/// The response, its length, 8 data bytes and the sum.
const LONGEST_REPLY: usize = 11;

/// A status byte and the bit in it.
type Flag = (usize, u8);

const INVALID_COMMAND: Flag = (0, 0x01);
const NOT_AVAILABLE: Flag = (0, 0x04);
const INCOMPLETE: Flag = (0, 0x08);
const OUT_OF_RANGE: Flag = (1, 0x20);
const CHECKSUM: Flag = (3, 0x10);
const BYTES_IGNORED: Flag = (3, 0x20);
const LENGTH: Flag = (3, 0x40);
const ESCAPE_SEEN: Flag = (3, 0x80);

#[derive(Clone, Copy, Debug, PartialEq, Eq)]
enum Phase {
    Idle,
    Command,
    Length,
    Data { left: u8 },
    Checksum,
}

/// What most bytes change. The loop works on a copy, which stays in registers.
#[derive(Clone, Copy, Debug)]
struct Reader {
    phase: Phase,
    escape: bool,
    sum: u8,
    /// Of the data.
    length: u8,
}

/// Waits only while the reader is idle: a start drops it, and a checksum writes the next.
#[derive(Clone, Debug)]
struct Reply {
    bytes: [u8; LONGEST_REPLY],
    length: u8,
    sent: u8,
}

#[derive(Clone, Debug)]
struct Settings {
    backlight: u16,
    master: u8,
    park: u8,
    splash: u8,
    strength: u8,
    heater_khz: u16,
    heater_duty: u8,
    /// Horizontal, vertical.
    bezel: [i32; 2],
    /// Start x, start y, end x, end y.
    pixels: [u16; 4],
    calibration: u8,
    red: u16,
    green: u16,
    blue: u16,
    current_limit: u16,
    gain: u8,
    status: [u8; 4],
}

#[derive(Clone, Debug)]
pub struct Controller {
    reader: Reader,
    command: u8,
    data: [u8; 255],
    reply: Reply,
    settings: Settings,
}

impl Controller {
    pub fn fresh() -> Self {
        Controller {
            reader: Reader {
                phase: Phase::Idle,
                escape: false,
                sum: 0,
                length: 0,
            },
            command: 0,
            data: [0; 255],
            reply: Reply {
                bytes: [0; LONGEST_REPLY],
                length: 0,
                sent: 0,
            },
            settings: Settings {
                backlight: 0,
                master: 1,
                park: 0,
                splash: 0,
                strength: 0,
                heater_khz: 0,
                heater_duty: 0,
                bezel: [0; 2],
                pixels: [0; 4],
                calibration: 0,
                red: 0,
                green: 0,
                blue: 0,
                current_limit: 0,
                gain: 0,
                status: [0; 4],
            },
        }
    }

    /// A run of exchanges: for each byte in, the byte out to the same place of the output.
    ///
    /// # Panics
    ///
    /// If input and output differ in length; no byte was exchanged then.
    pub fn exchange_all(&mut self, input: &[u8], output: &mut [u8]) {
        assert_eq!(input.len(), output.len(), "a byte out for each byte in");
        let mut reader = self.reader;
        for (byte, out) in input.iter().zip(output) {
            *out = self.exchange(&mut reader, *byte);
        }
        self.reader = reader;
    }

    #[inline(always)]
    fn exchange(&mut self, reader: &mut Reader, byte: u8) -> u8 {
        let unsent = match reader.phase {
            Phase::Idle => self.unsent(),
            _ => None,
        };
        if byte == START {
            if reader.phase != Phase::Idle {
                self.flag(INCOMPLETE);
            }
            reader.phase = Phase::Command;
            reader.escape = false;
        } else if reader.phase == Phase::Idle {
            if unsent.is_some() {
                self.reply.sent += 1;
            } else if byte != 0x00 {
                self.flag(BYTES_IGNORED);
            }
        } else if reader.escape {
            reader.escape = false;
            self.packet_byte(reader, if byte == 0x00 { START } else { byte });
        } else if byte == ESCAPE {
            reader.escape = true;
            self.flag(ESCAPE_SEEN);
        } else {
            self.packet_byte(reader, byte);
        }
        unsent.unwrap_or(DUMMY)
    }

    /// The next byte of the reply, if one waits.
    #[inline(always)]
    fn unsent(&self) -> Option<u8> {
        let Reply { bytes, length, sent } = &self.reply;
        (sent < length).then(|| bytes[usize::from(*sent)])
    }

    /// Takes an unescaped byte of the open packet.
    #[inline(always)]
    fn packet_byte(&mut self, reader: &mut Reader, byte: u8) {
        match reader.phase {
            Phase::Idle => {}
            Phase::Command => {
                self.command = byte;
                reader.sum = byte;
                reader.phase = Phase::Length;
            }
            Phase::Length => {
                reader.length = byte;
                reader.sum = reader.sum.wrapping_add(byte);
                reader.phase = data_or_checksum(byte);
            }
            Phase::Data { left } => {
                self.data[usize::from(reader.length - left)] = byte;
                reader.sum = reader.sum.wrapping_add(byte);
                reader.phase = data_or_checksum(left - 1);
            }
            Phase::Checksum => {
                reader.phase = Phase::Idle;
                if byte == reader.sum {
                    self.perform(reader.length);
                } else {
                    self.fail(0x02, CHECKSUM);
                }
            }
        }
    }

    /// Runs the packet of that data length, whose sum was right. Kept out of the loop, where it would take registers.
    #[inline(never)]
    #[expect(
        clippy::manual_range_patterns,
        reason = "IDs one by one are found by one jump, a range by a comparison more"
    )]
    fn perform(&mut self, length: u8) {
        let id = self.command / 2;
        let read = self.command % 2 == 1;
        let size = match id {
            0x01 | 0x02 | 0x25 | 0x26 | 0x64 => 1,
            0x00 => 2,
            0x27 => 3,
            0x33 if read => 4,
            0x28 => 6,
            0x53 => 8,
            // As with master off.
            0x65 | 0x66 | 0x67 | 0x68 | 0x69 if !read && self.settings.calibration == 0 => {
                return self.fail(0x04, NOT_AVAILABLE);
            }
            0x65 | 0x66 | 0x67 | 0x68 => 2,
            0x69 => 1,
            _ => return self.fail(0x03, INVALID_COMMAND),
        };
        if self.settings.master == 0 && id != 0x01 {
            return self.fail(0x04, NOT_AVAILABLE);
        }
        if length != if read { 0 } else { size } {
            return self.fail(0x05, LENGTH);
        }
        if read {
            self.read(id);
        } else if self.settings.write(id, &self.data) {
            self.respond(0x01);
        } else {
            self.fail(0x07, OUT_OF_RANGE);
        }
    }

    fn read(&mut self, id: u8) {
        let held = &mut self.settings;
        match id {
            0x00 => self.reply.tell(held.backlight.to_le_bytes()),
            0x01 => self.reply.tell([held.master]),
            0x02 => self.reply.tell([2 * held.park]),
            0x25 => self.reply.tell([held.splash]),
            0x26 => self.reply.tell([held.strength]),
            0x27 => {
                let [low, high] = held.heater_khz.to_le_bytes();
                self.reply.tell([low, high, held.heater_duty]);
            }
            0x28 => {
                let [[a, b, c], [d, e, f]] = held.bezel.map(offset_bytes);
                self.reply.tell([a, b, c, d, e, f]);
            }
            0x33 => self.reply.tell(mem::take(&mut held.status)),
            0x64 => self.reply.tell([held.calibration]),
            0x65 => self.reply.tell(held.red.to_le_bytes()),
            0x66 => self.reply.tell(held.green.to_le_bytes()),
            0x67 => self.reply.tell(held.blue.to_le_bytes()),
            0x68 => self.reply.tell(held.current_limit.to_le_bytes()),
            0x69 => self.reply.tell([held.gain]),
            _ => {
                let [[a, b], [c, d], [e, f], [g, h]] = held.pixels.map(u16::to_le_bytes);
                self.reply.tell([a, b, c, d, e, f, g, h]);
            }
        }
    }

    #[inline(always)]
    fn flag(&mut self, (byte, bit): Flag) {
        self.settings.status[byte] |= bit;
    }

    fn fail(&mut self, response: u8, flag: Flag) {
        self.flag(flag);
        self.respond(response);
    }

    fn respond(&mut self, response: u8) {
        self.reply.bytes[0] = response;
        self.reply.length = 1;
        self.reply.sent = 0;
    }
}

impl Reply {
    /// The reply of a good read.
    fn tell<const N: usize>(&mut self, data: [u8; N]) {
        self.bytes[0] = 0x01;
        self.bytes[1] = N as u8;
        self.bytes[2..2 + N].copy_from_slice(&data);
        self.bytes[2 + N] = sum(&self.bytes[..2 + N]);
        self.length = N as u8 + 3;
        self.sent = 0;
    }
}

impl Settings {
    /// Takes the data of a write of the right length; false, with nothing changed, if not accepted.
    fn write(&mut self, id: u8, data: &[u8; 255]) -> bool {
        let &[a, b, c, d, e, f, g, h, ..] = data;
        match id {
            0x00 => self.backlight = word(a, b),
            0x01 if a <= 1 => self.master = a,
            0x02 if a <= 1 => self.park = a,
            0x25 if a <= 1 => self.splash = a,
            0x26 if a <= 2 => self.strength = a,
            0x27 if c <= 100 => {
                self.heater_khz = word(a, b);
                self.heater_duty = c;
            }
            0x28 if c <= 1 && f <= 1 => self.bezel = [offset(a, b, c), offset(d, e, f)],
            0x53 => self.pixels = [word(a, b), word(c, d), word(e, f), word(g, h)],
            0x64 if a <= 1 => self.calibration = a,
            0x65 => self.red = word(a, b),
            0x66 => self.green = word(a, b),
            0x67 => self.blue = word(a, b),
            0x68 => self.current_limit = word(a, b),
            0x69 if a <= 3 => self.gain = a,
            _ => return false,
        }
        true
    }
}

fn data_or_checksum(left: u8) -> Phase {
    match left {
        0 => Phase::Checksum,
        left => Phase::Data { left },
    }
}

fn word(low: u8, high: u8) -> u16 {
    u16::from_le_bytes([low, high])
}

fn offset(low: u8, high: u8, sign: u8) -> i32 {
    let amount = i32::from(word(low, high));
    if sign == 0 { -amount } else { amount }
}

fn offset_bytes(offset: i32) -> [u8; 3] {
    let [low, high, ..] = offset.unsigned_abs().to_le_bytes();
    [low, high, u8::from(offset >= 0)]
}
