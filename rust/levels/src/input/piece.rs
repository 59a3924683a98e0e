//! One event of the input.

use std::fmt;

use level_archive::{EVENT_BYTES, Event, EventError};

/// One event of the input: its bytes, and the event that they say, if they do.
#[derive(Clone, Copy, Debug, PartialEq, Eq)]
pub struct Piece {
    room: [u8; EVENT_BYTES],
    length: usize,
    event: Result<Event, EventError>,
}

impl Piece {
    /// Of a written event.
    pub fn of_event(event: Event) -> Piece {
        Piece { room: event.to_bytes(), length: EVENT_BYTES, event: Ok(event) }
    }

    /// Of up to 32 bytes.
    pub fn of_bytes(bytes: &[u8]) -> Piece {
        let bytes = bytes.get(..EVENT_BYTES).unwrap_or(bytes);
        let mut room = [0; EVENT_BYTES];
        room[..bytes.len()].copy_from_slice(bytes);
        Piece { room, length: bytes.len(), event: Event::try_from(bytes) }
    }

    /// Its bytes: 32, or fewer at the end of cut input.
    pub fn bytes(&self) -> &[u8] {
        &self.room[..self.length]
    }

    /// Its bytes in hexadecimal digits, with a space before each.
    pub fn hex(&self) -> String {
        self.bytes().iter().map(|byte| format!(" {byte:02x}")).collect()
    }

    /// The event, or why the bytes can't be written as text.
    pub fn event(&self) -> Result<Event, EventError> {
        self.event
    }
}

impl fmt::Display for Piece {
    /// The event's text, or its bytes.
    fn fmt(&self, f: &mut fmt::Formatter<'_>) -> fmt::Result {
        match self.event {
            Ok(event) => event.fmt(f),
            Err(_) => write!(f, "event{}", self.hex()),
        }
    }
}
