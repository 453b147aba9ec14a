//! The line of each answer with its digits written by hand, which takes fewer instructions than `writeln!`: for the
//! measurements only.
use super::book::Answer;
use std::io::{self, Write};

/// No line is longer.
const LINE_MAX: usize = 96;

/// A line, written from its end to its front.
struct Line {
    bytes: [u8; LINE_MAX],
    start: usize,
}

impl Line {
    fn byte(&mut self, byte: u8) {
        self.start -= 1;
        self.bytes[self.start] = byte;
    }

    fn word(&mut self, word: &[u8]) {
        let end = self.start;
        self.start -= word.len();
        self.bytes[self.start..end].copy_from_slice(word);
    }

    fn number(&mut self, mut n: u64) {
        while n >= 10 {
            self.byte(b'0' + (n % 10) as u8);
            n /= 10;
        }
        self.byte(b'0' + n as u8);
    }

    fn field(&mut self, n: impl Into<u64>) {
        self.number(n.into());
        self.byte(b' ');
    }

    fn signed_field(&mut self, n: i64) {
        self.number(n.unsigned_abs());
        if n < 0 {
            self.byte(b'-');
        }
        self.byte(b' ');
    }

    fn place(&mut self, place: Option<u8>) {
        match place {
            Some(i) => self.field(i),
            None => self.word(b" -"),
        }
    }
}

/// Writes the line of the answer to an entry, whose second byte is the series.
pub fn write_line(to: &mut impl Write, entry: &[u8], answer: Answer) -> io::Result<()> {
    let series = entry.get(1).copied().unwrap_or(0);
    let mut line = Line { bytes: [0; LINE_MAX], start: LINE_MAX };
    line.byte(b'\n');
    match answer {
        Answer::Opened => {
            line.field(series);
            line.word(b"opened");
        }
        Answer::Used(used) => {
            line.field(used.fallback);
            line.place(used.next_print);
            line.place(used.slot);
            line.field(series);
            line.word(b"used");
        }
        Answer::Wait { until } => {
            line.signed_field(until);
            line.field(series);
            line.word(b"wait");
        }
        Answer::Settle { method, price, samples } => {
            line.field(samples);
            line.field(price.get());
            line.field(method as u8);
            line.field(series);
            line.word(b"settle");
        }
        Answer::Void => {
            line.field(series);
            line.word(b"void");
        }
        Answer::Done => line.word(b"done"),
        Answer::Refused(number) => {
            line.field(number);
            line.word(b"refused");
        }
    }
    to.write_all(&line.bytes[line.start..])
}
