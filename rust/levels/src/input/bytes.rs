//! Events from bytes, 32 each; the last piece may be shorter.

use std::io::Read;

use level_archive::EVENT_BYTES;

use super::{Item, Piece};
use crate::failure::Failure;

/// Events from bytes.
pub struct ByteEvents<R> {
    name: String,
    reader: R,
}

impl<R: Read> ByteEvents<R> {
    /// From a reader; messages call it by `name`.
    pub fn of(name: String, reader: R) -> ByteEvents<R> {
        ByteEvents { name, reader }
    }
}

impl<R: Read> Iterator for ByteEvents<R> {
    type Item = Result<Item, Failure>;

    fn next(&mut self) -> Option<Result<Item, Failure>> {
        let mut bytes = Vec::with_capacity(EVENT_BYTES);
        match self.reader.by_ref().take(EVENT_BYTES as u64).read_to_end(&mut bytes) {
            Ok(0) => None,
            Ok(_) => Some(Ok(Item::Event(Piece::of_bytes(&bytes)))),
            Err(error) => Some(Err(Failure::io(&self.name, &error))),
        }
    }
}

#[cfg(test)]
mod tests {
    use super::*;

    #[test]
    fn a_last_piece_may_be_shorter() {
        let bytes = [7; 70];
        let lengths: Vec<usize> = ByteEvents::of("b".to_string(), &bytes[..])
            .map(|item| match item {
                Ok(Item::Event(piece)) => piece.bytes().len(),
                _ => 0,
            })
            .collect();
        assert_eq!(lengths, [32, 32, 6]);
    }
}
