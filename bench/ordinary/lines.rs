//! Reads the lines of a script, within the limits on their length and number.

use std::io::{self, BufRead, Read};

use crate::words::Refusal;

const LONGEST_LINE: usize = 1024;
const MOST_LINES: usize = 1_000_000;

/// The words of a line, or why it can't be read.
pub(crate) type Line<'a> = Result<Vec<&'a str>, Refusal>;

/// Reads the lines of a script, one after the other.
pub(crate) struct LineReader<R> {
    input: R,
    bytes: Vec<u8>,
    counted: usize,
}

impl<R: BufRead> LineReader<R> {
    pub(crate) fn new(input: R) -> LineReader<R> {
        LineReader {
            input,
            bytes: Vec::new(),
            counted: 0,
        }
    }

    /// The next line that isn't empty, if there is one. Too many lines are a fault.
    pub(crate) fn next_line(&mut self) -> io::Result<Option<Line<'_>>> {
        while self.read_line()? {
            if self.bytes.len() > LONGEST_LINE || self.bytes.iter().any(|&byte| byte != b' ') {
                return Ok(Some(self.line()));
            }
        }
        Ok(None)
    }

    fn line(&self) -> Line<'_> {
        if self.bytes.len() > LONGEST_LINE {
            return Err(Refusal::LineTooLong);
        }
        match std::str::from_utf8(&self.bytes) {
            Ok(text) if text.is_ascii() => {
                Ok(text.split(' ').filter(|word| !word.is_empty()).collect())
            }
            _ => Err(Refusal::NotAscii),
        }
    }

    /// Reads a line without its end, if there is one. A line that is too long counts more than once.
    fn read_line(&mut self) -> io::Result<bool> {
        self.bytes.clear();
        let most = (MOST_LINES - self.counted + 2) * LONGEST_LINE;
        let mut input = self.input.by_ref().take(most as u64);
        if input.read_until(b'\n', &mut self.bytes)? == 0 {
            return Ok(false);
        }
        for end in [b"\n", b"\r"] {
            if !self.bytes.ends_with(end) {
                break;
            }
            self.bytes.pop();
        }
        self.counted += 1 + self.bytes.len().saturating_sub(LONGEST_LINE) / LONGEST_LINE;
        if self.counted > MOST_LINES {
            return Err(io::Error::other("too many lines"));
        }
        Ok(true)
    }
}
