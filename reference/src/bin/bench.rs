//! The bench controller between standard input and standard output: a byte out for each byte in.

#![forbid(unsafe_code)]

use std::io;

use reference::bench;
use reference::controller::Controller;

fn main() -> io::Result<()> {
    let mut controller = Controller::fresh();
    bench::run(|input, output| {
        for (byte, out) in input.iter().zip(output) {
            *out = controller.exchange(*byte);
        }
    })
}
