//! A journal's entries with the book's answers, and the line of text of each answer.
use super::book::{ASK_WIDTH, Answer, OFFER_WIDTH, OPEN_WIDTH, WITHDRAW_WIDTH, command};
use std::fmt;
use std::io::{self, Write};

/// The width of a command, by its byte; an unknown byte is an entry by itself.
fn width(byte: u8) -> usize {
    match byte {
        0x01 => OPEN_WIDTH,
        0x02 => OFFER_WIDTH,
        0x03 | 0x04 => ASK_WIDTH,
        0x06 => WITHDRAW_WIDTH,
        _ => 1,
    }
}

/// Takes the first entry off a part of a journal. Only the last part has a short tail.
fn split<'a>(part: &mut &'a [u8], is_last: bool) -> Option<&'a [u8]> {
    let width = width(*part.first()?);
    let (entry, rest) = match part.split_at_checked(width) {
        Some(halves) => halves,
        None if is_last => (*part, [].as_slice()),
        None => return None,
    };
    *part = rest;
    Some(entry)
}

/// 01: the sheet ends "after a 32 or a short tail's 33".
fn ends(answer: Answer) -> bool {
    matches!(answer, Answer::Refused(32 | 33))
}

/// Takes the entries off a part of a journal, gives each to the book, and hands it on with its answer. Says whether the
/// journal has ended by an answer; else what is left of the part waits for the rest of its command.
pub fn feed<'a>(
    book: &mut [u8],
    part: &mut &'a [u8],
    is_last: bool,
    mut line: impl FnMut(&'a [u8], Answer) -> io::Result<()>,
) -> io::Result<bool> {
    while let Some(entry) = split(part, is_last) {
        let answer = command(book, entry);
        // Before the line is written: so it takes fewer instructions.
        let is_end = ends(answer);
        line(entry, answer)?;
        if is_end {
            return Ok(true);
        }
    }
    Ok(false)
}

/// A slot or a link, or none.
struct Place(Option<u8>);

impl fmt::Display for Place {
    fn fmt(&self, f: &mut fmt::Formatter<'_>) -> fmt::Result {
        match self.0 {
            Some(i) => i.fmt(f),
            None => f.write_str("-"),
        }
    }
}

/// Writes the line of the answer to an entry, whose second byte is the series.
pub fn write_line(to: &mut impl Write, entry: &[u8], answer: Answer) -> io::Result<()> {
    let series = entry.get(1).copied().unwrap_or(0);
    match answer {
        Answer::Opened => writeln!(to, "opened {series}"),
        Answer::Used(used) => {
            let fallback = u8::from(used.fallback);
            writeln!(to, "used {series} {} {} {fallback}", Place(used.slot), Place(used.next_print))
        }
        Answer::Wait { until } => writeln!(to, "wait {series} {until}"),
        Answer::Settle { method, price, samples } => {
            writeln!(to, "settle {series} {} {} {samples}", method as u8, price.get())
        }
        Answer::Void => writeln!(to, "void {series}"),
        Answer::Done => writeln!(to, "done"),
        Answer::Refused(number) => writeln!(to, "refused {number}"),
    }
}
