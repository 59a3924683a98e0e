//! "A table is well formed when": the whole check, first to last byte. Sets of keys,
//! masks and words of eight bytes stand here for speed alone: what each tests is said
//! beside it. A node's kept places are tested behind the node, whose one walk over the
//! records finds the newest of each key.

use super::kept::{NO_RANKS, Newest, Ranks};
use super::layout::{self, ChannelBytes, NodeBytes, RecordBytes, SessionBytes, Table};
use crate::limits::*;
use crate::vector::Vector;

/// Whether the bytes are a table, and a well-formed one.
pub fn well_formed(bytes: &[u8]) -> bool {
    let Ok(table) = <&Table>::try_from(bytes) else {
        return false;
    };
    let (sites, partitions) = (table[0] as usize, table[1] as usize);
    let lawful = (1..=SITES).contains(&sites) && (1..=PARTITIONS).contains(&partitions);
    lawful && Setting::new(sites, partitions).accepts(table)
}

/// For each number of partitions from 1, the keys of each: bit k for key k. It saves
/// a division by the number of partitions.
const KEYS_OF: [[u64; PARTITIONS]; PARTITIONS] = [keys_of(1), keys_of(2), keys_of(3), keys_of(4)];

const fn keys_of(partitions: usize) -> [u64; PARTITIONS] {
    let mut sets = [0; PARTITIONS];
    let mut key = 0;
    while key < KEYS {
        sets[key % partitions] |= 1 << key;
        key += 1;
    }
    sets
}

/// What the numbers of sites and partitions make lawful.
struct Setting {
    sites: usize,
    partitions: usize,
    /// The keys of each partition, bit k for key k.
    keys: &'static [u64; PARTITIONS],
    /// The bits that an entry of each site must not have.
    stray: Vector,
}

impl Setting {
    fn new(sites: usize, partitions: usize) -> Setting {
        Setting {
            sites,
            partitions,
            keys: &KEYS_OF[partitions - 1],
            stray: std::array::from_fn(|site| if site < sites { !LAST_TIME } else { !0 }),
        }
    }

    fn accepts(&self, table: &Table) -> bool {
        let mut ranks = NO_RANKS;
        let mut partition =
            |number| self.partition(table, number / PARTITIONS, number % PARTITIONS, &mut ranks);
        (0..SESSIONS).all(|number| self.session(layout::session(table, number)))
            && (0..SITES * PARTITIONS).all(&mut partition)
    }

    /// A node with its kept places and its outgoing channels.
    fn partition(&self, table: &Table, site: usize, partition: usize, ranks: &mut Ranks) -> bool {
        let exists = site < self.sites && partition < self.partitions;
        let channel = |place| {
            let bytes = layout::channel(table, site, partition, place);
            self.channel(bytes, exists && place + 1 < self.sites, site, partition)
        };
        let mut newest = Newest::none(ranks);
        self.node(layout::node(table, site, partition), exists, partition, &mut newest)
            && newest.are(layout::kept(table, site, partition))
            && (0..SITES - 1).all(channel)
    }

    /// Flags, count and marks in range, its site there, a lawful page, and three
    /// lawful vectors.
    fn session(&self, bytes: &SessionBytes) -> bool {
        let [open, site, paged, count] = *bytes.first_chunk().expect("a session has 128 bytes");
        let marks = layout::word(bytes, 16); // eight, each 0 or 1
        open <= 1
            && paged <= 1
            && marks & !0x0101_0101_0101_0101 == 0
            && count as usize <= PAGE_KEYS
            && (open == 0 || (site as usize) < self.sites)
            && (paged == 0 || differ(&bytes[8..8 + count as usize]))
            && (32..128).step_by(32).all(|at| self.vector(bytes, at))
    }

    /// The node's own bytes. Its lawful records are seen by `newest` on the way.
    #[inline]
    fn node(&self, bytes: &NodeBytes, exists: bool, at: usize, newest: &mut Newest) -> bool {
        let count = bytes[40] as usize;
        let mut record = |slot| {
            let record = layout::record(bytes, slot);
            let lawful = self.record(record, at);
            if lawful {
                newest.see(record, slot);
            }
            lawful
        };
        count <= if exists { RECORDS } else { 0 }
            && layout::word(bytes, 0) <= LAST_TIME
            && self.vector(bytes, 8)
            && (0..count).all(&mut record)
    }

    fn channel(&self, bytes: &ChannelBytes, exists: bool, from: usize, partition: usize) -> bool {
        let count = bytes[1] as usize;
        count <= if exists { MESSAGES } else { 0 }
            && (0..count).all(|at| self.message(layout::message(bytes, at), from, partition))
    }

    fn record(&self, bytes: &RecordBytes, partition: usize) -> bool {
        bytes[3] == layout::UPDATE
            && (bytes[1] as usize) < self.sites
            && self.reading(bytes, partition)
    }

    fn message(&self, bytes: &RecordBytes, from: usize, partition: usize) -> bool {
        let own = bytes[1] as usize == from;
        match bytes[3] {
            layout::UPDATE => own && self.reading(bytes, partition),
            layout::HEARTBEAT => own && is_heartbeat(bytes),
            _ => false,
        }
    }

    /// Key, quality, level, stamp and vector of a record.
    fn reading(&self, bytes: &RecordBytes, partition: usize) -> bool {
        let level = (layout::word(bytes, 0) >> 32) as i32;
        let key = bytes[0] as usize;
        key < KEYS
            && self.keys[partition] >> key & 1 == 1
            && bytes[2] <= LAST_QUALITY
            && (LOWEST_LEVEL..=HIGHEST_LEVEL).contains(&level)
            && layout::word(bytes, 8) <= LAST_TIME
            && self.vector(bytes, 16)
    }

    /// Every entry within the time limit, and 0 for an absent site.
    #[inline]
    fn vector(&self, bytes: &[u8], at: usize) -> bool {
        let entries = layout::vector(bytes, at);
        entries.iter().zip(&self.stray).fold(0, |bits, (entry, stray)| bits | entry & stray) == 0
    }
}

/// Whether these are 1 to 8 different keys.
fn differ(keys: &[u8]) -> bool {
    let lawful = !keys.is_empty() && keys.iter().all(|key| (*key as usize) < KEYS);
    lawful && keys.iter().fold(0u64, |set, key| set | 1 << key).count_ones() as usize == keys.len()
}

/// Whether key, quality, level and vector are zero, and the stamp is lawful.
fn is_heartbeat(bytes: &RecordBytes) -> bool {
    let but_source_and_kind = layout::word(bytes, 0) & !0xff00_ff00;
    let carried = layout::vector(bytes, 16).iter().fold(0, |bits, entry| bits | entry);
    but_source_and_kind | carried == 0 && layout::word(bytes, 8) <= LAST_TIME
}
