//! Events, typed. `event_bytes` has their bytes, `event_text` their text, `told` what an
//! answer tells them.

use crate::page_keys::{PageKeys, TooManyKeys};
use crate::quality::Quality;

/// One event. Numbers are as wide as the field's bytes, so an event out of range
/// can be written; the archive refuses it with 11.
///
/// ```
/// use level_archive::{Event, Quality};
///
/// let event = Event::put(0, 5, Quality::Corrected, -30);
/// assert_eq!(event.to_string(), "PUT session 0 key 5 quality 1 level -30");
/// assert_eq!("PUT session 0 key 5 quality 1 level -30".parse(), Ok(event));
/// assert_eq!(Event::try_from(&event.to_bytes()[..]), Ok(event));
/// ```
#[derive(Clone, Copy, Debug, PartialEq, Eq, Hash)]
#[non_exhaustive]
pub enum Event {
    /// 1: a session begins at a site.
    Open {
        /// 0 to 15.
        session: u8,
        /// Below the number of sites.
        site: u8,
    },
    /// 2: a session ends, page or no page.
    Close {
        /// 0 to 15.
        session: u8,
    },
    /// 3: a node's clock is set, never back.
    Clock {
        /// Below the number of sites.
        site: u8,
        /// Below the number of partitions.
        partition: u8,
        /// Up to 281,474,976,710,655.
        time: u64,
    },
    /// 4: the newest record of a key is shown.
    Get {
        /// 0 to 15.
        session: u8,
        /// 0 to 63.
        key: u8,
    },
    /// 5: a level is recorded, and sent to the other sites.
    Put {
        /// 0 to 15.
        session: u8,
        /// 0 to 63.
        key: u8,
        /// 0 to 2: see [`Quality`].
        quality: u8,
        /// mm from datum, −50,000 to 1,000,000.
        level: i32,
    },
    /// 6: a page is opened, to be read as of one moment.
    Begin {
        /// 0 to 15.
        session: u8,
        /// The coordinator's; below the number of partitions.
        partition: u8,
        /// 1 to 8 different keys.
        keys: PageKeys,
    },
    /// 7: a key of the page is shown.
    Read {
        /// 0 to 15.
        session: u8,
        /// 0 to 63.
        key: u8,
    },
    /// 8: the page, read, is closed.
    End {
        /// 0 to 15.
        session: u8,
    },
    /// 9: a node tells the other sites its clock.
    Beat {
        /// Below the number of sites.
        site: u8,
        /// Below the number of partitions.
        partition: u8,
    },
    /// 10: the front message of a channel reaches its node.
    Deliver {
        /// The sending site.
        from: u8,
        /// The receiving site, another.
        site: u8,
        /// Below the number of partitions.
        partition: u8,
    },
}

impl Event {
    /// OPEN: a session begins at a site.
    pub const fn open(session: u8, site: u8) -> Event {
        Event::Open { session, site }
    }

    /// CLOSE: a session ends.
    pub const fn close(session: u8) -> Event {
        Event::Close { session }
    }

    /// CLOCK: a node's clock is set.
    pub const fn clock(site: u8, partition: u8, time: u64) -> Event {
        Event::Clock { site, partition, time }
    }

    /// GET: the newest record of a key is shown.
    pub const fn get(session: u8, key: u8) -> Event {
        Event::Get { session, key }
    }

    /// PUT: a level, in mm from datum, is recorded.
    pub const fn put(session: u8, key: u8, quality: Quality, level: i32) -> Event {
        Event::Put { session, key, quality: quality.number(), level }
    }

    /// BEGIN: a page is opened; 1 to 8 keys.
    ///
    /// ```
    /// use level_archive::{Event, TooManyKeys};
    ///
    /// let page = Event::begin(1, 0, &[4, 5, 6])?;
    /// assert_eq!(page.to_string(), "BEGIN session 1 partition 0 keys 4 5 6");
    /// assert_eq!(Event::begin(1, 0, &[0; 9]), Err(TooManyKeys));
    /// # Ok::<(), TooManyKeys>(())
    /// ```
    pub const fn begin(session: u8, partition: u8, keys: &[u8]) -> Result<Event, TooManyKeys> {
        match PageKeys::new(keys) {
            Ok(keys) => Ok(Event::Begin { session, partition, keys }),
            Err(error) => Err(error),
        }
    }

    /// READ: a key of the page is shown.
    pub const fn read(session: u8, key: u8) -> Event {
        Event::Read { session, key }
    }

    /// END: the page, read, is closed.
    pub const fn end(session: u8) -> Event {
        Event::End { session }
    }

    /// BEAT: a node tells the other sites its clock.
    pub const fn beat(site: u8, partition: u8) -> Event {
        Event::Beat { site, partition }
    }

    /// DELIVER: the front message of the channel between two sites arrives.
    pub const fn deliver(from: u8, to: u8, partition: u8) -> Event {
        Event::Deliver { from, site: to, partition }
    }

    /// The session that it names, if it names one.
    pub const fn session(self) -> Option<u8> {
        match self {
            Event::Open { session, .. }
            | Event::Close { session }
            | Event::Get { session, .. }
            | Event::Put { session, .. }
            | Event::Begin { session, .. }
            | Event::Read { session, .. }
            | Event::End { session } => Some(session),
            Event::Clock { .. } | Event::Beat { .. } | Event::Deliver { .. } => None,
        }
    }
}
