//! The bench's reader: whole events from an input.

use std::io::{self, ErrorKind, Read};

use crate::limits::EVENT_BYTES;

/// The bytes that the reader holds at most.
const READ_BYTES: usize = 64 * 1024;

/// Event bytes and the place in them, together.
pub(crate) struct Reader<R> {
    input: R,
    bytes: Box<[u8]>,
    place: usize,
    filled: usize,
}

impl<R: Read> Reader<R> {
    /// A reader that holds nothing yet.
    pub(crate) fn new(input: R) -> Reader<R> {
        Reader { input, bytes: vec![0; READ_BYTES].into(), place: 0, filled: 0 }
    }

    /// How many bytes are held and not given out.
    pub(crate) fn left(&self) -> usize {
        self.filled - self.place
    }

    /// The next whole event, or nothing when the input has no more.
    #[inline]
    pub(crate) fn next_event(&mut self) -> io::Result<Option<&[u8]>> {
        if self.left() < EVENT_BYTES && !self.refill()? {
            return Ok(None);
        }
        let first = self.place;
        self.place += EVENT_BYTES;
        Ok(Some(&self.bytes[first..first + EVENT_BYTES]))
    }

    /// Reads until a whole event is held; false when the input ends before.
    #[cold]
    fn refill(&mut self) -> io::Result<bool> {
        self.bytes.copy_within(self.place..self.filled, 0);
        self.filled -= self.place;
        self.place = 0;
        while self.filled < EVENT_BYTES {
            match self.input.read(&mut self.bytes[self.filled..]) {
                Ok(0) => return Ok(false),
                Ok(length) => self.filled += length,
                Err(error) if error.kind() == ErrorKind::Interrupted => (),
                Err(error) => return Err(error),
            }
        }
        Ok(true)
    }
}
