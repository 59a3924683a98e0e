//! Where each thing stands.

use std::ops::Range;

use crate::vector::Vector;

/// The length of a table.
pub const TABLE_BYTES: usize = 57_344;

/// The bytes of a table.
pub(super) type Table = [u8; TABLE_BYTES];
/// The bytes of a session.
pub(super) type SessionBytes = [u8; 128];
/// The bytes of a node.
pub(super) type NodeBytes = [u8; 1_856];
/// The bytes of a channel.
pub(super) type ChannelBytes = [u8; 464];
/// The bytes of a record or a message.
pub(super) type RecordBytes = [u8; 48];
/// The kept places of a node, one for each key: the slot of the key's newest record,
/// counted from 1, or 0 where the node holds none.
pub(super) type KeptBytes = [u8; 64];

/// The kind of a stored record and of an update.
pub(super) const UPDATE: u8 = 1;
/// The kind of a heartbeat.
pub(super) const HEARTBEAT: u8 = 2;

/// The bytes of a session.
pub fn session_part(session: usize) -> Range<usize> {
    let first = 128 + 128 * session;
    first..first + 128
}

/// The bytes of a site: its nodes and outgoing channels.
pub fn site_part(site: usize) -> Range<usize> {
    let first = 4_096 + 13_056 * site;
    first..first + 13_056
}

/// The bytes of a node, and those of its outgoing channels.
pub fn partition_part(site: usize, partition: usize) -> (Range<usize>, Range<usize>) {
    let first = site_part(site).start;
    let (node, channel) = (first + 1_856 * partition, first + 7_424 + 3 * 464 * partition);
    (node..node + 1_856, channel..channel + 3 * 464)
}

/// The kept places of a node, one byte for each key.
pub fn kept_part(site: usize, partition: usize) -> Range<usize> {
    let first = 56_320 + 64 * (4 * site + partition);
    first..first + 64
}

/// The session with a number.
#[inline]
pub(super) fn session(table: &Table, session: usize) -> &SessionBytes {
    part(table, session_part(session).start)
}

/// The node of a partition at a site.
#[inline]
pub(super) fn node(table: &Table, site: usize, partition: usize) -> &NodeBytes {
    part(table, partition_part(site, partition).0.start)
}

/// The channel of a partition from a site to a place among the other sites.
#[inline]
pub(super) fn channel(table: &Table, from: usize, partition: usize, place: usize) -> &ChannelBytes {
    part(table, partition_part(from, partition).1.start + 464 * place)
}

/// The kept places of the node of a partition at a site.
#[inline]
pub(super) fn kept(table: &Table, site: usize, partition: usize) -> &KeptBytes {
    part(table, kept_part(site, partition).start)
}

/// The place of a site among the sites other than `from`.
#[inline]
pub(super) fn place_of(to: usize, from: usize) -> usize {
    if to < from { to } else { to - 1 }
}

/// The record in a slot of a node.
#[inline]
pub(super) fn record(node: &NodeBytes, slot: usize) -> &RecordBytes {
    part(node, 64 + 56 * slot)
}

/// The message some places behind the front of a channel.
#[inline]
pub(super) fn message(channel: &ChannelBytes, behind: usize) -> &RecordBytes {
    part(channel, 16 + 56 * ((channel[0] as usize + behind) % 8))
}

/// The eight bytes at a place, as a number.
#[inline]
pub(super) fn word(bytes: &[u8], at: usize) -> u64 {
    u64::from_le_bytes(*part(bytes, at))
}

/// The four entries at a place.
#[inline]
pub(super) fn vector(bytes: &[u8], at: usize) -> Vector {
    std::array::from_fn(|site| word(bytes, at + 8 * site))
}

/// `N` bytes from a place on.
#[inline]
fn part<const N: usize>(bytes: &[u8], at: usize) -> &[u8; N] {
    bytes[at..at + N].try_into().expect("so many bytes were taken")
}
