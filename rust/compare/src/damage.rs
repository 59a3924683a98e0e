//! Damages tables: a few bytes, mostly of fields that matter.

use level_archive::TABLE_BYTES;
use plain::limits::*;
use plain::random::Random;
use plain::table::{kept_part, partition_part, session_part};

use crate::kept::{keep_newest, record_at};

/// Numbers of one byte on both sides of a limit.
const EDGES: [u8; 20] = [0, 1, 2, 3, 4, 5, 7, 8, 9, 15, 31, 32, 33, 62, 63, 64, 65, 127, 128, 255];

/// Times on both sides of the limit.
const TIMES: [u64; 6] = [0, 1, LAST_TIME, LAST_TIME + 1, 1 << 56, u64::MAX];

/// Levels on both sides of the limits.
const LEVELS: [i32; 7] =
    [0, LOWEST_LEVEL, LOWEST_LEVEL - 1, HIGHEST_LEVEL, HIGHEST_LEVEL + 1, i32::MIN, i32::MAX];

/// Damages a table in one to three places: kept places, one time in five, or others.
/// Of the others half get the kept places that their records then call for, so that
/// these don't always decide.
pub fn damage(random: &mut Random, table: &mut [u8]) {
    let mut knife = Knife { random, table };
    let places = *knife.random.one_of(&[1, 1, 1, 2, 3]);
    if knife.random.chance(200) {
        return (0..places).for_each(|_| knife.kept());
    }
    (0..places).for_each(|_| knife.cut());
    if knife.random.chance(500) {
        keep_newest(knife.table);
    }
}

/// What was changed: each place, its byte before and its byte after.
pub fn changes(before: &[u8], after: &[u8]) -> Vec<(usize, u8, u8)> {
    let changed = (0..before.len()).filter(|at| before[*at] != after[*at]);
    changed.map(|at| (at, before[at], after[at])).collect()
}

struct Knife<'a> {
    random: &'a mut Random,
    table: &'a mut [u8],
}

impl Knife<'_> {
    fn cut(&mut self) {
        match self.random.below(16) {
            0 | 1 => {
                let at = self.random.below(TABLE_BYTES);
                self.byte(at);
            }
            2 => {
                let at = self.random.below(2);
                self.byte(at);
            }
            3..=6 => self.session(),
            7..=11 => self.node(),
            _ => self.channel(),
        }
    }

    /// A field of a session: flags, site, count, a key, a mark or a vector.
    fn session(&mut self) {
        let first = session_part(self.random.below(SESSIONS)).start;
        let place = self.random.below(8);
        match self.random.below(8) {
            field @ 0..=3 => self.byte(first + field),
            4 => self.byte(first + 8 + place),
            5 => self.byte(first + 16 + place),
            _ => {
                let entry = self.random.below(12);
                self.time(first + 32 + 8 * entry);
            }
        }
    }

    /// Clock, vector or count of a node, or one of its records.
    fn node(&mut self) {
        let first = self.partition().0;
        match self.random.below(8) {
            0 => self.time(first),
            1 => {
                let entry = self.random.below(SITES);
                self.time(first + 8 + 8 * entry);
            }
            2 => self.byte(first + 40),
            _ => {
                let used = self.table[first + 40].clamp(1, RECORDS as u8);
                let slot = self.random.below(used as usize);
                self.record(first + 64 + 56 * slot);
            }
        }
    }

    /// Front or count of a channel, or one of its messages.
    fn channel(&mut self) {
        let place = self.random.below(SITES - 1);
        let first = self.partition().1 + 464 * place;
        match self.random.below(8) {
            0 => self.byte(first),
            1 => self.byte(first + 1),
            _ => {
                let used = self.table[first + 1].clamp(1, MESSAGES as u8);
                let behind = self.random.below(used as usize);
                let place = (self.table[first] as usize + behind) % MESSAGES;
                self.record(first + 16 + 56 * place);
            }
        }
    }

    /// The kept place of a key: none, one above the slots in use, one of them, one with
    /// a record of this key, or any byte.
    fn kept(&mut self) {
        let (site, partition) = self.mostly_there();
        let node = partition_part(site, partition).0.start;
        let held = self.table[node + 40].min(RECORDS as u8);
        let (slots, key) = (held.max(1) as usize, self.key(node, held));
        let of_key = |at: usize| self.table[record_at(node, at as u8 + 1)] == key;
        let same = self.random.one_where(slots, of_key).map_or(0, |at| at as u8 + 1);
        let any = self.random.below(slots) as u8 + 1;
        let at = kept_part(site, partition).start + key as usize;
        match self.random.below(6) {
            0 => self.byte(at),
            1 => self.table[at] = 0,
            2 => self.table[at] = held + 1,
            3 => self.table[at] = any,
            _ => self.table[at] = same,
        }
    }

    /// The key of one of the records held at a node, or any key.
    fn key(&mut self, node: usize, held: u8) -> u8 {
        let slot = self.random.below(held.max(1) as usize) as u8 + 1;
        let key = self.table[record_at(node, slot)] % KEYS as u8;
        if self.random.chance(750) { key } else { self.random.below(KEYS) as u8 }
    }

    /// Site and partition of a node, one time in four of any, absent ones too.
    fn mostly_there(&mut self) -> (usize, usize) {
        let there = self.random.chance(750);
        let most = |number: u8, most: usize| if there { number as usize } else { most };
        let (sites, partitions) = (most(self.table[0], SITES), most(self.table[1], PARTITIONS));
        let (sites, partitions) = (sites.clamp(1, SITES), partitions.clamp(1, PARTITIONS));
        (self.random.below(sites), self.random.below(partitions))
    }

    /// A field of a record or message, or all of it taken from elsewhere.
    fn record(&mut self, at: usize) {
        match self.random.below(12) {
            field @ 0..=3 => self.byte(at + field),
            4 => self.byte(at),
            5 | 6 => {
                let level = *self.random.one_of(&LEVELS);
                self.put(at + 4, &level.to_le_bytes());
            }
            7 => self.time(at + 8),
            8 => self.other(at),
            _ => {
                let entry = self.random.below(SITES);
                self.time(at + 16 + 8 * entry);
            }
        }
    }

    /// The record of another node, as a whole.
    fn other(&mut self, at: usize) {
        let from = self.partition().0 + 64 + 56 * self.random.below(RECORDS);
        self.table.copy_within(from..from + 48, at);
    }

    /// The first bytes of a node, absent ones too, and of its outgoing channels.
    fn partition(&mut self) -> (usize, usize) {
        let (site, partition) = (self.random.below(SITES), self.random.below(PARTITIONS));
        let (node, channels) = partition_part(site, partition);
        (node.start, channels.start)
    }

    /// One byte: an edge, a neighbour of what it is, a bit of it, or anything.
    fn byte(&mut self, at: usize) {
        let before = self.table[at];
        let any = self.random.bits() as u8;
        let bit = before ^ 1 << self.random.below(8);
        let edge = *self.random.one_of(&EDGES);
        let choices = [edge, edge, before.wrapping_add(1), before.wrapping_sub(1), bit, any];
        self.table[at] = *self.random.one_of(&choices);
    }

    /// A time: an edge, a neighbour of what it is, or one byte of it.
    fn time(&mut self, at: usize) {
        let part = self.table[at..at + 8].try_into().expect("eight bytes");
        let before = u64::from_le_bytes(part);
        let edge = *self.random.one_of(&TIMES);
        let choices = [edge, edge, before.wrapping_add(1), before.wrapping_sub(1)];
        match self.random.below(3) {
            0 => {
                let byte = self.random.below(8);
                self.byte(at + byte);
            }
            _ => {
                let time = *self.random.one_of(&choices);
                self.put(at, &time.to_le_bytes());
            }
        }
    }

    fn put(&mut self, at: usize, bytes: &[u8]) {
        self.table[at..at + bytes.len()].copy_from_slice(bytes);
    }
}
