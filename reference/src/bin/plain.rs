//! `bench` over the controller written for speed in document 01's forms.

#![forbid(unsafe_code)]

use std::io;

use reference::bench;
use reference::plain::Controller;

fn main() -> io::Result<()> {
    let mut controller = Controller::fresh();
    bench::run(|input, output| controller.exchange_all(input, output))
}
