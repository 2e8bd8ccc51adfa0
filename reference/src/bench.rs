//! The loop of the bench programs, between standard input and standard output.

use std::fs::File;
use std::io::{self, Read, Write};
use std::os::fd::AsFd;

/// Reads 4,096 bytes at a time and answers each read at once, a byte out for each byte in, until
/// the input ends.
pub fn run(mut answer: impl FnMut(&[u8], &mut [u8])) -> io::Result<()> {
    // As files, so that no line or buffer of the standard library stands between.
    let mut input = File::from(io::stdin().as_fd().try_clone_to_owned()?);
    let mut output = File::from(io::stdout().as_fd().try_clone_to_owned()?);
    let (mut bytes_in, mut bytes_out) = ([0; 4096], [0; 4096]);
    loop {
        let length = input.read(&mut bytes_in)?;
        if length == 0 {
            return Ok(());
        }
        answer(&bytes_in[..length], &mut bytes_out[..length]);
        output.write_all(&bytes_out[..length])?;
    }
}
