//! The sheet over the Rust book: reads a journal from standard input, gives its commands to a zeroed book, and writes the
//! line of each answer to standard output. What the proved program is compared with and measured against.
#[allow(dead_code, reason = "the driver uses the rest")]
mod book;
#[cfg_attr(by_hand, allow(dead_code, reason = "lines_by_hand writes the lines"))]
mod lines;
#[cfg(by_hand)]
mod lines_by_hand;

use book::BOOK;
use lines::feed;
use std::io::{self, BufWriter, Read, Write};

#[cfg(not(by_hand))]
use lines::write_line;
#[cfg(by_hand)]
use lines_by_hand::write_line;

const PART: usize = 65_536;

/// Room for the lines of a whole part: a command has ten bytes at least.
const LINES: usize = 10 * PART;

fn main() -> io::Result<()> {
    let mut input = io::stdin().lock();
    let mut output = BufWriter::with_capacity(LINES, io::stdout().lock());
    let mut book = [0; BOOK];
    let mut part = [0; PART];
    let mut held = 0;
    loop {
        let got = input.read(&mut part[held..])?;
        let end = held + got;
        let mut rest = &part[..end];
        let has_ended = feed(&mut book, &mut rest, got == 0, |entry, answer| write_line(&mut output, entry, answer))?;
        output.flush()?;
        if has_ended || got == 0 {
            return Ok(());
        }
        held = rest.len();
        part.copy_within(end - held..end, 0);
    }
}
