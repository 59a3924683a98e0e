//! Events from text, a line each. `#` begins a comment, blank lines are nothing.

use std::io::BufRead;

use level_archive::ParseEventError;

use super::{Item, Piece};
use crate::failure::Failure;

/// Events from text.
pub struct TextEvents<R> {
    name: String,
    reader: R,
    line: usize,
    begun: bool,
}

impl<R: BufRead> TextEvents<R> {
    /// From a reader; messages call it by `name`.
    pub fn of(name: String, reader: R) -> TextEvents<R> {
        TextEvents { name, reader, line: 0, begun: false }
    }

    /// The next line's bytes; none at the end.
    fn bytes(&mut self) -> Result<Option<Vec<u8>>, Failure> {
        let mut bytes = Vec::new();
        let read = self.reader.read_until(b'\n', &mut bytes);
        match read.map_err(|error| Failure::io(&self.name, &error))? {
            0 => Ok(None),
            _ => Ok(Some(bytes)),
        }
    }

    /// What a line says, `None` if nothing.
    fn item(&mut self, bytes: &[u8]) -> Result<Option<Item>, ParseEventError> {
        let line = characters(bytes, self.line == 1)?;
        let text = line.split_once('#').map_or(line, |(text, _)| text);
        let words: Vec<&str> = text.split_whitespace().collect();
        let item = match words[..] {
            [] => return Ok(None),
            [first, ..] if first.eq_ignore_ascii_case("sites") => self.archive(&words)?,
            _ => Item::Event(Piece::of_event(text.parse()?)),
        };
        self.begun = true;
        Ok(Some(item))
    }

    /// The line `sites 2 partitions 3`, before any event.
    fn archive(&self, words: &[&str]) -> Result<Item, ParseEventError> {
        let wrong = |message: &str| ParseEventError { column: 1, message: message.to_string() };
        if self.begun {
            return Err(wrong("sites and partitions stand once, before the first event"));
        }
        let numbers = match words {
            [_, sites, name, partitions] if name.eq_ignore_ascii_case("partitions") => {
                sites.parse().ok().zip(partitions.parse().ok())
            }
            _ => None,
        };
        let (sites, partitions) =
            numbers.ok_or_else(|| wrong("expected two numbers, as in sites 2 partitions 3"))?;
        Ok(Item::Archive { sites, partitions, place: self.place(1) })
    }

    fn place(&self, column: usize) -> String {
        format!("{}:{}:{column}", self.name, self.line)
    }
}

impl<R: BufRead> Iterator for TextEvents<R> {
    type Item = Result<Item, Failure>;

    fn next(&mut self) -> Option<Result<Item, Failure>> {
        loop {
            let bytes = match self.bytes() {
                Ok(bytes) => bytes?,
                Err(failure) => return Some(Err(failure)),
            };
            self.line += 1;
            match self.item(&bytes) {
                Ok(None) => {}
                Ok(Some(item)) => return Some(Ok(item)),
                Err(ParseEventError { column, message }) => {
                    return Some(Err(Failure::Input(format!("{}: {message}", self.place(column)))));
                }
            }
        }
    }
}

/// A line's characters; the mark that some editors write at a file's beginning is
/// none of them.
fn characters(bytes: &[u8], first: bool) -> Result<&str, ParseEventError> {
    let bytes = match bytes.strip_prefix("\u{feff}".as_bytes()) {
        Some(rest) if first => rest,
        _ => bytes,
    };
    std::str::from_utf8(bytes).map_err(|error| {
        let (good, bad) = bytes.split_at(error.valid_up_to());
        let column = String::from_utf8_lossy(good).chars().count() + 1;
        let byte = bad.first().copied().unwrap_or_default();
        ParseEventError { column, message: format!("the byte {byte:02x} is not text (UTF-8)") }
    })
}

#[cfg(test)]
mod tests {
    use level_archive::{Event, Quality};

    use super::*;

    fn items(text: &[u8]) -> Vec<Result<Item, Failure>> {
        TextEvents::of("t".to_string(), text).collect()
    }

    fn wrong(message: &str) -> Result<Item, Failure> {
        Err(Failure::Input(message.to_string()))
    }

    #[test]
    fn a_wrong_line_does_not_end_the_text() {
        let found = items("\u{feff}# −\r\nBEAT 0,0\r\n\nGET\nBEAT 0,1".as_bytes());
        assert_eq!(found.len(), 3);
        assert_eq!(found[1], wrong("t:4:4: expected session, found the end of the line"));
    }

    #[test]
    fn the_archive_stands_once_and_first() {
        let late = "sites and partitions stand once, before the first event";
        assert_eq!(items(b"BEAT 0,0\nsites 1 partitions 1")[1], wrong(&format!("t:2:1: {late}")));
        let twice = items(b"# x\nsites 1 partitions 1\nsites 1 partitions 1");
        assert_eq!(twice[1], wrong(&format!("t:3:1: {late}")));
    }

    #[test]
    fn lines_in_any_case_with_comments() {
        let found = items(
            "\t \n # PUT\nSites 2 PARTITIONS 3 # x\nput session 0 KEY 5 level −3#".as_bytes(),
        );
        let place = "t:3:1".to_string();
        assert_eq!(found[0], Ok(Item::Archive { sites: 2, partitions: 3, place }));
        let put = Event::put(0, 5, Quality::Measured, -3);
        assert_eq!(found[1..], [Ok(Item::Event(Piece::of_event(put)))]);
        for line in ["sites", "sites 2", "sites 2 partitions x", "sites 1 partitions 1 1"] {
            let expected = "t:1:1: expected two numbers, as in sites 2 partitions 3";
            assert_eq!(items(line.as_bytes()), [wrong(expected)]);
        }
    }

    #[test]
    fn bytes_that_are_no_text_have_a_place() {
        assert_eq!(
            items(b"BEAT 0,0\n\xe2\x88\x92\xff")[1],
            wrong("t:2:2: the byte ff is not text (UTF-8)")
        );
    }
}
