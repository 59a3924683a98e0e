//! Events: 32 bytes, decoded and checked for the numbers 10 and 11.

use crate::answer::Answer;
use crate::limits::*;

/// The ten codes.
pub mod code {
    /// Opens a session at a site.
    pub const OPEN: u8 = 1;
    /// Ends a session.
    pub const CLOSE: u8 = 2;
    /// Sets a node's clock.
    pub const CLOCK: u8 = 3;
    /// Reads one key.
    pub const GET: u8 = 4;
    /// Writes one key.
    pub const PUT: u8 = 5;
    /// Opens a page.
    pub const BEGIN: u8 = 6;
    /// Reads one key of a page.
    pub const READ: u8 = 7;
    /// Closes a page that was read.
    pub const END: u8 = 8;
    /// Sends heartbeats.
    pub const BEAT: u8 = 9;
    /// Takes one message from a channel.
    pub const DELIVER: u8 = 10;
}

/// A field: its first byte and its number of bytes.
type Field = (usize, usize);

const SITE: Field = (1, 1);
const PARTITION: Field = (2, 1);
const SESSION: Field = (3, 1);
const KEY: Field = (4, 1);
const QUALITY: Field = (5, 1);
const FROM: Field = (6, 1);
const COUNT: Field = (7, 1);
const TIME: Field = (8, 8);
const LEVEL: Field = (16, 4);
const PAGE: Field = (20, 8);

/// For each code from 1 the fields that R31 names, and from them the
/// bits that must be zero. They are four words for speed alone: byte by byte says
/// the same.
const UNUSED: [[u64; 4]; 10] = [
    unused(&[SESSION, SITE]),                   // 1 OPEN
    unused(&[SESSION]),                         // 2 CLOSE
    unused(&[SITE, PARTITION, TIME]),           // 3 CLOCK
    unused(&[SESSION, KEY]),                    // 4 GET
    unused(&[SESSION, KEY, QUALITY, LEVEL]),    // 5 PUT
    unused(&[SESSION, PARTITION, COUNT, PAGE]), // 6 BEGIN
    unused(&[SESSION, KEY]),                    // 7 READ
    unused(&[SESSION]),                         // 8 END
    unused(&[SITE, PARTITION]),                 // 9 BEAT
    unused(&[FROM, SITE, PARTITION]),           // 10 DELIVER
];

/// All bits but those of the code and of the named fields.
const fn unused(fields: &[Field]) -> [u64; 4] {
    let mut words = [!0xff, !0, !0, !0];
    let mut at = 0;
    while at < fields.len() {
        let (first, length) = fields[at];
        let mut byte = first;
        while byte < first + length {
            words[byte / 8] &= !(0xff << (byte % 8 * 8));
            byte += 1;
        }
        at += 1;
    }
    words
}

/// A decoded event. Fields that its code doesn't use are zero.
#[derive(Clone, Copy, PartialEq, Eq, Debug)]
pub struct Event {
    /// The code, 1 to 10.
    pub code: u8,
    /// The site.
    pub site: usize,
    /// The partition; for BEGIN, the coordinator's.
    pub partition: usize,
    /// The session.
    pub session: usize,
    /// The key.
    pub key: u8,
    /// The quality.
    pub quality: u8,
    /// The sending site of a delivery.
    pub from: usize,
    /// How many page keys there are.
    pub count: usize,
    /// The time.
    pub time: u64,
    /// The level in mm from datum.
    pub level: i32,
    /// The page keys; those beyond the count are zero.
    pub page: [u8; PAGE_KEYS],
}

impl Event {
    /// Takes an event apart. Refuses with 10 or 11.
    #[inline]
    pub fn decode(bytes: &[u8; 32], sites: usize, partitions: usize) -> Result<Event, Answer> {
        let words = words(bytes);
        let code = bytes[0];
        if !(code::OPEN..=code::DELIVER).contains(&code) {
            return Err(Answer::only(10));
        }
        let unused = &UNUSED[code as usize - 1];
        let stray = (0..4).fold(0, |bits, word| bits | words[word] & unused[word]);
        let event = Event::take(bytes, &words);
        if stray != 0 || !event.is_in_range(sites, partitions) {
            return Err(Answer::only(11));
        }
        Ok(event)
    }

    /// The fields as they stand.
    #[inline]
    fn take(bytes: &[u8; 32], words: &[u64; 4]) -> Event {
        Event {
            code: bytes[0],
            site: bytes[1] as usize,
            partition: bytes[2] as usize,
            session: bytes[3] as usize,
            key: bytes[4],
            quality: bytes[5],
            from: bytes[6] as usize,
            count: bytes[7] as usize,
            time: words[1],
            level: words[2] as i32,
            page: (words[2] >> 32 | words[3] << 32).to_le_bytes(),
        }
    }

    /// Whether the used fields are in range. An unused field is zero by then,
    /// and zero is in range for all but the count.
    #[inline]
    fn is_in_range(&self, sites: usize, partitions: usize) -> bool {
        self.site < sites
            && self.partition < partitions
            && self.session < SESSIONS
            && (self.key as usize) < KEYS
            && self.quality <= LAST_QUALITY
            && self.from < sites
            && self.time <= LAST_TIME
            && (LOWEST_LEVEL..=HIGHEST_LEVEL).contains(&self.level)
            && (self.code != code::BEGIN || self.names_a_page())
            && (self.code != code::DELIVER || self.from != self.site)
    }

    /// Whether count and page keys are in range.
    #[inline]
    fn names_a_page(&self) -> bool {
        let lawful = |(place, key): (usize, &u8)| {
            if place < self.count { (*key as usize) < KEYS } else { *key == 0 }
        };
        (1..=PAGE_KEYS).contains(&self.count) && self.page.iter().enumerate().all(lawful)
    }
}

/// The event as four little-endian words.
#[inline]
fn words(bytes: &[u8; 32]) -> [u64; 4] {
    let mut words = [0; 4];
    for (word, part) in words.iter_mut().zip(bytes.chunks_exact(8)) {
        *word = u64::from_le_bytes(part.try_into().expect("a chunk has eight bytes"));
    }
    words
}
