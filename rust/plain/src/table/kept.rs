//! The newest record of each key of a node, found in one walk over the records' bytes.

use super::layout::{self, KeptBytes, RecordBytes};
use crate::limits::KEYS;

/// More than a node has places, and a power of two: so no place needs a test.
const RANKS: usize = 64;

/// The rank of the record in each place of a node, counted from 1. Place 0 stands for
/// no record and has rank 0, which is below all others.
pub(super) type Ranks = [u64; RANKS];

/// Ranks before any record was seen.
pub(super) const NO_RANKS: Ranks = [0; RANKS];

/// For each key the place of its newest record among those seen of one node.
pub(super) struct Newest<'a> {
    places: KeptBytes,
    ranks: &'a mut Ranks,
}

impl Newest<'_> {
    /// Nothing seen. The ranks may be those of another node: but for that of place 0,
    /// each is written before it is read.
    #[inline]
    pub(super) fn none(ranks: &mut Ranks) -> Newest<'_> {
        Newest { places: [0; KEYS], ranks }
    }

    /// The lawful record in the next slot. It is newer than the one before it of its
    /// key if its rank, the stamp and then the source, is greater: of two alike the
    /// first stays. Ranks are below 2^63: so the sign of their difference says which is
    /// greater, and no branch depends on what the records hold.
    #[inline]
    pub(super) fn see(&mut self, record: &RecordBytes, slot: usize) {
        let rank = layout::word(record, 8) << 8 | (u64::from(record[1]) + 1);
        let newest = &mut self.places[record[0] as usize % KEYS];
        let before = self.ranks[*newest as usize % RANKS];
        let place = slot + 1;
        self.ranks[place % RANKS] = rank;
        let newer = (before.wrapping_sub(rank) as i64 >> 63) as u8; // all bits, or none
        *newest ^= (*newest ^ place as u8) & newer;
    }

    /// Whether these are the kept places of the node, eight compared at a time.
    #[inline]
    pub(super) fn are(&self, kept: &KeptBytes) -> bool {
        let differ = |at| layout::word(&self.places, at) ^ layout::word(kept, at);
        (0..KEYS).step_by(8).fold(0, |bits, at| bits | differ(at)) == 0
    }
}
