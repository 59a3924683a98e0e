//! The bench's lines, written in large pieces. All that this does by hand is for speed
//! alone: a line is `format!("{place} {code} {number} {source} {quality} {level} {stamp}")`.

use std::io::{self, Write};

use crate::answer::Answer;

/// The bytes that are gathered before they are written.
const WRITE_BYTES: usize = 64 * 1024;
/// Room for a line: two numbers of 20 digits, one of 7 with its sign, four of
/// 3, and what stands between them, make 67 bytes.
const LINE_BYTES: usize = 72;

/// Lines gathered for the output.
pub(crate) struct Lines<W> {
    output: W,
    bytes: Box<[u8; WRITE_BYTES]>,
    filled: usize,
}

impl<W: Write> Lines<W> {
    /// Lines, none gathered yet.
    pub(crate) fn new(output: W) -> Lines<W> {
        Lines { output, bytes: Box::new([0; WRITE_BYTES]), filled: 0 }
    }

    /// Adds the line of one event.
    #[inline]
    pub(crate) fn line(&mut self, place: u64, code: u8, answer: &Answer) -> io::Result<()> {
        if self.filled > WRITE_BYTES - LINE_BYTES {
            self.write_out()?;
        }
        self.number(place);
        self.small(code);
        self.small(answer.number);
        if *answer == Answer::only(answer.number) {
            self.text(b" 0 0 0 0\n");
            return Ok(());
        }
        self.small(answer.source);
        self.small(answer.quality);
        self.text(if answer.level < 0 { b" -" } else { b" " });
        self.number(answer.level.unsigned_abs().into());
        self.text(b" ");
        self.number(answer.stamp);
        self.text(b"\n");
        Ok(())
    }

    /// Adds the last line, for left-over bytes.
    pub(crate) fn cut(&mut self, left: usize) -> io::Result<()> {
        self.write_out()?;
        self.text(b"cut ");
        self.number(left as u64);
        self.text(b"\n");
        Ok(())
    }

    /// Writes what was gathered and flushes the output.
    pub(crate) fn finish(mut self) -> io::Result<()> {
        self.write_out()?;
        self.output.flush()
    }

    #[cold]
    fn write_out(&mut self) -> io::Result<()> {
        self.output.write_all(&self.bytes[..self.filled])?;
        self.filled = 0;
        Ok(())
    }

    /// Adds text.
    #[inline]
    fn text(&mut self, text: &[u8]) {
        let first = self.filled;
        self.filled += text.len();
        self.bytes[first..self.filled].copy_from_slice(text);
    }

    /// Adds a space and a number that mostly has one digit.
    #[inline]
    fn small(&mut self, number: u8) {
        if number < 10 {
            self.text(&[b' ', b'0' + number]);
        } else {
            self.text(b" ");
            self.number(number.into());
        }
    }

    /// Adds a number in decimal digits, the last digit first.
    #[inline]
    fn number(&mut self, mut number: u64) {
        let length = number.checked_ilog10().unwrap_or(0) as usize + 1;
        let digits = &mut self.bytes[self.filled..self.filled + length];
        for digit in digits.iter_mut().rev() {
            *digit = b'0' + (number % 10) as u8;
            number /= 10;
        }
        self.filled += length;
    }
}
