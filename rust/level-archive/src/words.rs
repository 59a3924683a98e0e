//! A text word by word, each with its place, and the numbers in it.

use alloc::format;
use alloc::string::String;
use core::fmt;

use crate::event_text::ParseEventError;

/// A word and the place of its first character, from 1. At the end of the text the
/// word is empty.
#[derive(Clone, Copy)]
pub(crate) struct Word<'a> {
    pub(crate) text: &'a str,
    column: usize,
}

/// What is left of a text.
#[derive(Clone, Copy)]
pub(crate) struct Words<'a> {
    rest: &'a str,
    column: usize,
}

/// A field's number, as wide as its bytes. What the archive would refuse is lawful
/// text; what the bytes can't hold is not.
pub(crate) trait Field: TryFrom<i128> {
    /// What fits.
    const ROOM: &'static str;
}

impl Field for u8 {
    const ROOM: &'static str = "one byte, 0 to 255";
}

impl Field for u64 {
    const ROOM: &'static str = "eight bytes, 0 to 18446744073709551615";
}

impl Field for i32 {
    const ROOM: &'static str = "four bytes, -2147483648 to 2147483647";
}

impl<'a> Words<'a> {
    pub(crate) fn of(text: &'a str) -> Words<'a> {
        Words { rest: text.trim_end(), column: 1 }
    }

    pub(crate) fn word(&mut self) -> Word<'a> {
        let blank = self.rest.len() - self.rest.trim_start().len();
        self.skip(blank);
        let column = self.column;
        let text = self.skip(self.rest.find(char::is_whitespace).unwrap_or(self.rest.len()));
        Word { text, column }
    }

    /// Whether the next word is this name; the word stays.
    pub(crate) fn next_is(&self, name: &str) -> bool {
        let mut ahead = *self;
        ahead.word().is(name)
    }

    /// The next word must be this name.
    pub(crate) fn expect(&mut self, name: &str) -> Result<(), ParseEventError> {
        let word = self.word();
        if word.is(name) { Ok(()) } else { Err(word.instead_of(name)) }
    }

    /// A name and its number, such as `session 0`.
    pub(crate) fn field<N: Field>(&mut self, name: &str) -> Result<N, ParseEventError> {
        self.expect(name)?;
        self.word().number(name)
    }

    /// A node: site and partition with a comma between, such as `0,1`.
    pub(crate) fn node(&mut self) -> Result<(u8, u8), ParseEventError> {
        let word = self.word();
        let Some((site, partition)) = word.text.split_once(',') else {
            return Err(word.instead_of("a node (site,partition, such as 0,1)"));
        };
        let behind = word.column + site.chars().count() + 1;
        let site = Word { text: site, ..word }.number("site")?;
        Ok((site, Word { text: partition, column: behind }.number("partition")?))
    }

    /// There must be no word left.
    pub(crate) fn end(&mut self) -> Result<(), ParseEventError> {
        let word = self.word();
        if word.is("") { Ok(()) } else { Err(word.instead_of("the end of the line")) }
    }

    fn skip(&mut self, bytes: usize) -> &'a str {
        let (skipped, rest) = self.rest.split_at(bytes);
        self.column += skipped.chars().count();
        self.rest = rest;
        skipped
    }
}

impl Word<'_> {
    fn is(self, name: &str) -> bool {
        self.text.eq_ignore_ascii_case(name)
    }

    pub(crate) fn error(self, message: String) -> ParseEventError {
        ParseEventError { column: self.column, message }
    }

    /// The complaint that something else was expected here.
    pub(crate) fn instead_of(self, expected: &str) -> ParseEventError {
        self.error(format!("expected {expected}, found {self}"))
    }

    /// Its number; messages call it by `name`.
    pub(crate) fn number<N: Field>(self, name: &str) -> Result<N, ParseEventError> {
        if self.text.is_empty() {
            return Err(self.error(format!("{name} has no number")));
        }
        let value =
            value(self.text).ok_or_else(|| self.error(format!("{name} {self} is not a number")))?;
        N::try_from(value)
            .map_err(|_| self.error(format!("{name} {self} does not fit in {}", N::ROOM)))
    }
}

impl fmt::Display for Word<'_> {
    /// Not too long, nothing unprintable.
    fn fmt(&self, f: &mut fmt::Formatter<'_>) -> fmt::Result {
        const MOST: usize = 40;
        match self.text.char_indices().nth(MOST) {
            Some((end, _)) => write!(f, "{}...", self.text[..end].escape_debug()),
            None if self.text.is_empty() => f.write_str("the end of the line"),
            None => write!(f, "{}", self.text.escape_debug()),
        }
    }
}

/// The value of decimal digits, with or without a minus sign. Beyond 38 digits it
/// is some number that fits in no field.
fn value(text: &str) -> Option<i128> {
    let (sign, digits) = match text.strip_prefix(['-', '−']) {
        Some(digits) => (-1, digits),
        None => (1, text),
    };
    if digits.is_empty() || !digits.bytes().all(|byte| byte.is_ascii_digit()) {
        return None;
    }
    Some(sign * digits.parse::<i128>().unwrap_or(i128::MAX))
}
