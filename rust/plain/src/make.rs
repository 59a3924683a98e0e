//! Makes the bytes of events. Nothing is checked: a number that doesn't fit
//! its meaning gives the event that says so.

use crate::event::code;
use crate::limits::{EVENT_BYTES, PAGE_KEYS};

/// The bytes of an event.
pub type Bytes = [u8; EVENT_BYTES];

/// A code with the fields of bytes 1 to 7.
fn event(code: u8, fields: &[(usize, u8)]) -> Bytes {
    let mut bytes = [0; EVENT_BYTES];
    bytes[0] = code;
    for (at, value) in fields {
        bytes[*at] = *value;
    }
    bytes
}

/// OPEN of a session at a site.
pub fn open(session: u8, site: u8) -> Bytes {
    event(code::OPEN, &[(3, session), (1, site)])
}

/// CLOSE of a session.
pub fn close(session: u8) -> Bytes {
    event(code::CLOSE, &[(3, session)])
}

/// CLOCK of a node to a time.
pub fn clock(site: u8, partition: u8, time: u64) -> Bytes {
    let mut bytes = event(code::CLOCK, &[(1, site), (2, partition)]);
    bytes[8..16].copy_from_slice(&time.to_le_bytes());
    bytes
}

/// GET of a key.
pub fn get(session: u8, key: u8) -> Bytes {
    event(code::GET, &[(3, session), (4, key)])
}

/// PUT of a level and its quality.
pub fn put(session: u8, key: u8, quality: u8, level: i32) -> Bytes {
    let mut bytes = event(code::PUT, &[(3, session), (4, key), (5, quality)]);
    bytes[16..20].copy_from_slice(&level.to_le_bytes());
    bytes
}

/// BEGIN of a page of at most eight keys, its coordinator in a partition.
pub fn begin(session: u8, partition: u8, keys: &[u8]) -> Bytes {
    let keys = &keys[..keys.len().min(PAGE_KEYS)];
    let mut bytes = event(code::BEGIN, &[(3, session), (2, partition), (7, keys.len() as u8)]);
    bytes[20..20 + keys.len()].copy_from_slice(keys);
    bytes
}

/// READ of a key on the page.
pub fn read(session: u8, key: u8) -> Bytes {
    event(code::READ, &[(3, session), (4, key)])
}

/// END of the page.
pub fn end(session: u8) -> Bytes {
    event(code::END, &[(3, session)])
}

/// BEAT of a node.
pub fn beat(site: u8, partition: u8) -> Bytes {
    event(code::BEAT, &[(1, site), (2, partition)])
}

/// DELIVER of one message between two sites.
pub fn deliver(from: u8, site: u8, partition: u8) -> Bytes {
    event(code::DELIVER, &[(6, from), (1, site), (2, partition)])
}
