//! Kept places: for each key of each node the slot of its newest record, counted from
//! 1, or 0. The tables are written here byte by byte, and the kept places by a search
//! for each key; the check takes them, and refuses every other byte.

use std::cmp::Reverse;

use plain::Record;
use plain::limits::LAST_TIME;
use plain::random::Random;
use plain::stream::{Stream, Style};
use plain::table::{self, TABLE_BYTES, kept_part, partition_part, well_formed};

/// The 48 bytes of a record.
fn bytes_of(record: &Record) -> Vec<u8> {
    let mut bytes = vec![record.key, record.source, record.quality, 1];
    bytes.extend(record.level.to_le_bytes());
    bytes.extend(record.stamp.to_le_bytes());
    bytes.extend(record.vector.iter().flat_map(|entry| entry.to_le_bytes()));
    bytes
}

/// The slot of a key's newest record, counted from 1; 0 where there is none.
fn newest(records: &[Record], key: u8) -> u8 {
    let of_key = (1..).zip(records).filter(|(_, record)| record.key == key);
    let newest = of_key.max_by_key(|(slot, record)| (record.stamp, record.source, Reverse(*slot)));
    newest.map_or(0, |(slot, _)| slot)
}

/// A table without sessions and messages, in which every clock and vector is 0.
fn empty(sites: usize, partitions: usize) -> Vec<u8> {
    let mut table = vec![0; TABLE_BYTES];
    table[..2].copy_from_slice(&[sites as u8, partitions as u8]);
    table
}

/// Writes a node's records and its kept places.
fn write(table: &mut [u8], site: usize, partition: usize, records: &[Record]) {
    let node = partition_part(site, partition).0.start;
    table[node + 40] = records.len() as u8;
    for (slot, record) in records.iter().enumerate() {
        let at = node + 64 + 56 * slot;
        table[at..at + 48].copy_from_slice(&bytes_of(record));
    }
    let kept = (0..64).map(|key| newest(records, key)).collect::<Vec<_>>();
    table[kept_part(site, partition)].copy_from_slice(&kept);
}

/// A record of one of some keys; sources and stamps are few, so that many are alike.
fn any_record(random: &mut Random, keys: &[u8], sites: usize) -> Record {
    Record {
        key: *random.one_of(keys),
        source: random.below(sites) as u8,
        quality: random.below(3) as u8,
        level: random.below(1000) as i32,
        stamp: *random.one_of(&[0, 0, 1, 1, 2, 255, 256, 1 << 40, LAST_TIME - 1, LAST_TIME]),
        vector: [0; 4],
    }
}

/// A table with records at each node, of all keys of its partition or of the first few.
fn any_table(random: &mut Random, sites: usize, partitions: usize) -> Vec<u8> {
    let mut table = empty(sites, partitions);
    for (site, partition) in (0..sites).flat_map(|m| (0..partitions).map(move |p| (m, p))) {
        let of_partition: Vec<u8> = (partition as u8..64).step_by(partitions).collect();
        let keys = &of_partition[..random.between(1, of_partition.len())];
        let count = random.between(0, 32);
        let records: Vec<_> = (0..count).map(|_| any_record(random, keys, sites)).collect();
        write(&mut table, site, partition, &records);
    }
    table
}

#[test]
fn where_the_bytes_stand() {
    assert_eq!(kept_part(0, 0), 56_320..56_384);
    assert_eq!(kept_part(1, 2), 56_704..56_768);
    assert_eq!(kept_part(3, 3), 57_280..57_344);
}

#[test]
fn a_table_by_hand() {
    let record =
        |key, source, stamp| Record { key, source, quality: 0, level: 7, stamp, vector: [0; 4] };
    let mut table = empty(2, 2);
    let node: usize = 4_096 + 13_056 + 1_856; // node 1,1
    let records = [record(5, 0, 9), record(7, 1, 3), record(5, 1, 9), record(5, 1, 9)];
    let older = [record(5, 1, 8), record(63, 0, 0)];
    for (slot, record) in records.iter().chain(&older).enumerate() {
        let at = node + 64 + 56 * slot;
        table[at..at + 48].copy_from_slice(&bytes_of(record));
    }
    table[node + 40] = 6;
    assert!(!well_formed(&table), "without kept places, as an older version leaves it");
    for (key, slot) in [(5, 3), (7, 2), (63, 6)] {
        table[56_320 + 64 * 5 + key] = slot;
    }
    assert!(well_formed(&table));
    let said = table::read(&table).expect("it is well formed");
    assert_eq!(said.node(1, 1).newest(5), Some(&records[2]));
    assert_eq!(said.node(1, 1).newest_places()[..8], [0, 0, 0, 0, 0, 3, 0, 2]);
    // The source is less, alike but later, the stamp is less, another key's, none, too great.
    for slot in [1, 4, 5, 2, 0, 7, 32, 33, 255] {
        let mut other = table.clone();
        other[56_320 + 64 * 5 + 5] = slot;
        assert!(!well_formed(&other), "slot {slot}");
    }
}

#[test]
fn the_places_of_generated_records() {
    let mut random = Random::new(1);
    for turn in 0..2000 {
        let (sites, partitions) = (turn % 4 + 1, turn / 4 % 4 + 1);
        let table = any_table(&mut random, sites, partitions);
        assert!(well_formed(&table), "turn {turn}");
        let said = table::read(&table).expect("it is well formed");
        assert_eq!(table::kept_difference(&table, &said), None);
        for (site, partition) in (0..sites).flat_map(|m| (0..partitions).map(move |p| (m, p))) {
            let node = said.node(site, partition);
            for key in 0..64 {
                let slot = newest(node.records(), key);
                let shown = slot.checked_sub(1).map(|at| &node.records()[at as usize]);
                assert_eq!(node.newest(key), shown, "the search of GET");
            }
        }
    }
}

#[test]
fn every_other_byte_is_refused() {
    let mut random = Random::new(2);
    for (sites, partitions) in [(1, 1), (2, 3), (3, 2), (4, 4), (4, 1)] {
        let table = any_table(&mut random, sites, partitions);
        let said = table::read(&table).expect("it is well formed");
        for at in 56_320..TABLE_BYTES {
            let mut other = table.clone();
            for slot in (0..=33).chain([64, 128, 255]).filter(|slot| *slot != table[at]) {
                other[at] = slot;
                assert!(!well_formed(&other), "{slot} at {at}");
            }
            let (number, key) = ((at - 56_320) / 64, at % 64);
            let place = format!("kept place of key {key} at node {},{}: ", number / 4, number % 4);
            let told = table::kept_difference(&other, &said).expect("the last one differs");
            assert_eq!(told, format!("{place}255 and {}", table[at]));
        }
    }
}

#[test]
fn the_places_of_streams() {
    for seed in 0..64 {
        let (sites, partitions) = ((seed % 4 + 1) as usize, (seed / 4 % 4 + 1) as usize);
        let style = Style { sites, partitions, ..Style::any(&mut Random::new(seed), 1500) };
        let mut stream = Stream::new(seed, style);
        for place in 0..1500 {
            stream.next_event();
            if place % 100 == 0 {
                let archive = stream.archive();
                let mut table = empty(sites, partitions);
                for number in 0..16 {
                    let records = archive.node(number / 4, number % 4).records();
                    write(&mut table, number / 4, number % 4, records);
                }
                assert!(well_formed(&table), "seed {seed}, event {place}");
                assert_eq!(table::kept_difference(&table, archive), None);
            }
        }
    }
}
