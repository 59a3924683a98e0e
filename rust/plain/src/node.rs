//! Nodes: one partition at one site.

use crate::limits::{KEYS, RECORDS};
use crate::record::Record;
use crate::vector::{Vector, ZERO, covers};

/// A clock, a vector and records in the order in which they were stored.
#[derive(Clone, Copy, PartialEq, Eq, Debug)]
pub struct Node {
    /// The node's clock.
    pub clock: u64,
    /// The stamp up to which the node has heard each site.
    pub vector: Vector,
    length: usize,
    /// For speed alone: for each key the places of its records, bit n for place n, so
    /// that a search need not go through the records of other keys.
    places: [u32; KEYS],
    records: [Record; RECORDS],
}

impl Node {
    /// A node without records, its clock and vector 0.
    pub const EMPTY: Node = Node {
        clock: 0,
        vector: ZERO,
        length: 0,
        places: [0; KEYS],
        records: [Record::FREE; RECORDS],
    };

    /// The records, first stored first.
    #[inline]
    pub fn records(&self) -> &[Record] {
        &self.records[..self.length]
    }

    /// Whether the node holds 32 records.
    #[inline]
    pub fn is_full(&self) -> bool {
        self.length == RECORDS
    }

    /// Stores a record behind the others; the node must not be full.
    #[inline]
    pub(crate) fn store(&mut self, record: &Record) {
        self.places[record.key as usize] |= 1 << self.length;
        self.records[self.length] = *record;
        self.length += 1;
    }

    /// The newest record of a key.
    #[inline]
    pub fn newest(&self, key: u8) -> Option<&Record> {
        newest_of(self.of_key(key))
    }

    /// The newest record of a key that a page with vector `page` may show:
    /// its carried vector is at most the page's; its stamp isn't compared.
    #[inline]
    pub fn newest_for_page(&self, key: u8, page: &Vector) -> Option<&Record> {
        newest_of(self.of_key(key).filter(|record| covers(page, &record.vector)))
    }

    /// For each key where its newest record is stored, counted from 1; 0 where there
    /// is none.
    pub fn newest_places(&self) -> [u8; KEYS] {
        let mut places = [0; KEYS];
        for (place, record) in (1..).zip(self.records()) {
            let newest = &mut places[record.key as usize];
            if *newest == 0 || record.is_newer_than(&self.records[*newest as usize - 1]) {
                *newest = place;
            }
        }
        places
    }

    /// The records of a key, first stored first: those of `records` with this key.
    #[inline]
    fn of_key(&self, key: u8) -> impl Iterator<Item = &Record> {
        let mut places = self.places[key as usize];
        std::iter::from_fn(move || {
            let place = places.trailing_zeros() as usize;
            places &= places.wrapping_sub(1);
            self.records.get(place)
        })
    }
}

/// The newest of some records; of two alike, the one that comes first.
#[inline]
fn newest_of<'a>(records: impl Iterator<Item = &'a Record>) -> Option<&'a Record> {
    records.reduce(|best, record| if record.is_newer_than(best) { record } else { best })
}
