//! The kept places of a table set anew, for tables into which a test has written
//! records of its own.

use std::ops::Range;

use plain::limits::*;
use plain::table::{kept_part, partition_part};

/// Sets every kept place to the newest record held of its key, whatever else is wrong
/// with the table's bytes.
pub fn keep_newest(table: &mut [u8]) {
    for number in 0..SITES * PARTITIONS {
        let (site, partition) = (number / PARTITIONS, number % PARTITIONS);
        keep_at(table, partition_part(site, partition).0.start, kept_part(site, partition));
    }
}

/// One node's, from the first byte of the node and the range of its kept places.
fn keep_at(table: &mut [u8], node: usize, kept: Range<usize>) {
    table[kept.clone()].fill(0);
    for slot in 1..=table[node + 40].min(RECORDS as u8) {
        let key = table[record_at(node, slot)] as usize;
        if key < KEYS {
            let before = table[kept.start + key];
            if before == 0 || rank(table, node, slot) > rank(table, node, before) {
                table[kept.start + key] = slot;
            }
        }
    }
}

/// The first byte of the record in a slot, counted from 1.
pub fn record_at(node: usize, slot: u8) -> usize {
    node + 64 + 56 * (slot as usize - 1)
}

/// Stamp and source of the record in a slot, counted from 1.
fn rank(table: &[u8], node: usize, slot: u8) -> (u64, u8) {
    let at = record_at(node, slot);
    let stamp = table[at + 8..at + 16].try_into().expect("eight bytes");
    (u64::from_le_bytes(stamp), table[at + 1])
}
