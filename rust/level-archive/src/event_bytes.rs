//! An event's 32 bytes (R30): 0 code, 1 site,
//! 2 partition, 3 session, 4 key, 5 quality, 6 from, 7 count, 8–15 time,
//! 16–19 level, 20–27 page keys, 28–31 zero.

use core::error::Error;
use core::fmt;

use crate::EVENT_BYTES;
use crate::event::Event;
use crate::page_keys::PageKeys;
use crate::part::Part;

/// All fields of an event; those that its code doesn't use are zero.
#[derive(Default)]
struct Fields {
    code: u8,
    site: u8,
    partition: u8,
    session: u8,
    key: u8,
    quality: u8,
    from: u8,
    time: u64,
    level: i32,
    keys: PageKeys,
}

impl Fields {
    fn of(event: Event) -> Fields {
        let none = Fields { code: event.code(), ..Fields::default() };
        match event {
            Event::Open { session, site } => Fields { session, site, ..none },
            Event::Close { session } | Event::End { session } => Fields { session, ..none },
            Event::Clock { site, partition, time } => Fields { site, partition, time, ..none },
            Event::Get { session, key } | Event::Read { session, key } => {
                Fields { session, key, ..none }
            }
            Event::Put { session, key, quality, level } => {
                Fields { session, key, quality, level, ..none }
            }
            Event::Begin { session, partition, keys } => {
                Fields { session, partition, keys, ..none }
            }
            Event::Beat { site, partition } => Fields { site, partition, ..none },
            Event::Deliver { from, site, partition } => Fields { from, site, partition, ..none },
        }
    }

    /// As they stand. Only a page has a count and keys.
    fn in_bytes(bytes: Part) -> Result<Fields, EventError> {
        let code = bytes.byte(0);
        let count = if code == 6 { bytes.byte(7) } else { 0 };
        let keys = bytes.part(20, 8).0.get(..count.into());
        let keys = keys.and_then(|keys| PageKeys::new(keys).ok());
        Ok(Fields {
            code,
            site: bytes.byte(1),
            partition: bytes.byte(2),
            session: bytes.byte(3),
            key: bytes.byte(4),
            quality: bytes.byte(5),
            from: bytes.byte(6),
            time: bytes.number(8),
            level: bytes.level(16),
            keys: keys.ok_or(EventError::CountTooLarge(count))?,
        })
    }

    /// The event of the code, if there is one; what it doesn't use is dropped.
    fn event(self) -> Option<Event> {
        let Fields { code, site, partition, session, key, quality, from, time, level, keys } = self;
        Some(match code {
            1 => Event::Open { session, site },
            2 => Event::Close { session },
            3 => Event::Clock { site, partition, time },
            4 => Event::Get { session, key },
            5 => Event::Put { session, key, quality, level },
            6 => Event::Begin { session, partition, keys },
            7 => Event::Read { session, key },
            8 => Event::End { session },
            9 => Event::Beat { site, partition },
            10 => Event::Deliver { from, site, partition },
            _ => return None,
        })
    }
}

impl Event {
    /// Its code, 1 to 10.
    pub fn code(self) -> u8 {
        match self {
            Event::Open { .. } => 1,
            Event::Close { .. } => 2,
            Event::Clock { .. } => 3,
            Event::Get { .. } => 4,
            Event::Put { .. } => 5,
            Event::Begin { .. } => 6,
            Event::Read { .. } => 7,
            Event::End { .. } => 8,
            Event::Beat { .. } => 9,
            Event::Deliver { .. } => 10,
        }
    }

    /// Its 32 bytes.
    ///
    /// ```
    /// use level_archive::Event;
    ///
    /// let bytes = Event::clock(1, 2, 258).to_bytes();
    /// assert_eq!(bytes[..11], [3, 1, 2, 0, 0, 0, 0, 0, 2, 1, 0]); // numbers are little-endian
    /// ```
    pub fn to_bytes(self) -> [u8; EVENT_BYTES] {
        let Fields { code, site, partition, session, key, quality, from, time, level, keys } =
            Fields::of(self);
        let mut bytes = [0; EVENT_BYTES];
        let head = [code, site, partition, session, key, quality, from, keys.count()];
        bytes[..8].copy_from_slice(&head);
        bytes[8..16].copy_from_slice(&time.to_le_bytes());
        bytes[16..20].copy_from_slice(&level.to_le_bytes());
        bytes[20..28].copy_from_slice(&keys.bytes());
        bytes
    }
}

impl TryFrom<&[u8]> for Event {
    type Error = EventError;

    /// The event whose [`to_bytes`](Event::to_bytes) these are. This is for
    /// showing bytes in words: the archive takes any bytes as they are.
    ///
    /// ```
    /// use level_archive::{Event, EventError};
    ///
    /// let mut bytes = Event::end(4).to_bytes();
    /// assert_eq!(Event::try_from(&bytes[..]), Ok(Event::end(4)));
    /// bytes[31] = 1;
    /// assert_eq!(Event::try_from(&bytes[..]), Err(EventError::UnusedNotZero));
    /// ```
    fn try_from(bytes: &[u8]) -> Result<Event, EventError> {
        if bytes.len() != EVENT_BYTES {
            return Err(EventError::WrongLength);
        }
        let fields = Fields::in_bytes(Part(bytes))?;
        let code = fields.code;
        let event = fields.event().ok_or(EventError::UnknownCode(code))?;
        if event.to_bytes() == *bytes { Ok(event) } else { Err(EventError::UnusedNotZero) }
    }
}

/// Why bytes are not those of an [`Event`].
#[derive(Clone, Copy, Debug, PartialEq, Eq, Hash)]
#[non_exhaustive]
pub enum EventError {
    /// Not 32 bytes.
    WrongLength,
    /// A code that isn't 1 to 10.
    UnknownCode(u8),
    /// A field that the code doesn't use, or a page key beyond the count, isn't zero.
    UnusedNotZero,
    /// A page of more than 8 keys.
    CountTooLarge(u8),
}

impl fmt::Display for EventError {
    fn fmt(&self, f: &mut fmt::Formatter<'_>) -> fmt::Result {
        match self {
            EventError::WrongLength => f.pad("an event is 32 bytes"),
            EventError::UnknownCode(code) => write!(f, "no event has the code {code}"),
            EventError::UnusedNotZero => f.pad("a field that the event does not use is not zero"),
            EventError::CountTooLarge(count) => write!(f, "a page has at most 8 keys, not {count}"),
        }
    }
}

impl Error for EventError {}
