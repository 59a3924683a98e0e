//! When a table is well formed (R20 to R28, and that its kept places agree with the
//! search), clause by clause: of each, the last lawful and the first unlawful number,
//! to the core and to the independent check alike.

use compare::kept::keep_newest;
use level_archive::Archive;
use plain::limits::LAST_TIME;
use plain::make;
use plain::table::{kept_part, partition_part, session_part, well_formed};

/// A table of 3 sites and 3 partitions with something of everything: session 0 is
/// open at site 1 with a page of keys 3 and 4; node 0,0 holds a record; the
/// channel from it to site 1 holds an update and a heartbeat.
fn full() -> Archive {
    let mut archive = Archive::new(3, 3).expect("3 and 3");
    let events = [
        make::open(0, 1),
        make::begin(0, 0, &[3, 4]),
        make::open(1, 0),
        make::clock(0, 0, 5),
        make::put(1, 3, 0, 7),
        make::clock(0, 0, 6),
        make::beat(0, 0),
    ];
    assert!(events.iter().all(|event| archive.step_bytes(event).number() == 0));
    archive
}

/// Writes some bytes into a table.
fn change(table: &mut [u8], changes: &[(usize, &[u8])]) {
    for (at, bytes) in changes {
        table[*at..*at + bytes.len()].copy_from_slice(bytes);
    }
}

/// A table is well formed, or isn't, as both say; 24 changes no byte of it.
fn both_say(lawful: bool, name: &str, table: &[u8]) {
    assert_eq!(well_formed(table), lawful, "{name}, the independent check");
    let mut core = Archive::over(table.to_vec());
    let number = core.step_bytes(&[0; 32]).number();
    assert_eq!(number, if lawful { 10 } else { 24 }, "{name}, the core");
    assert!(core.as_bytes() == table, "{name}, the table was changed");
}

/// The table with some bytes changed, and with the kept places that go with them, is
/// well formed, or isn't.
fn expect(lawful: bool, name: &str, changes: &[(usize, &[u8])]) {
    let mut table = full().into_bytes();
    change(&mut table, changes);
    keep_newest(&mut table);
    both_say(lawful, name, &table);
}

/// One byte: the last lawful number and the first unlawful one.
fn edge(name: &str, at: usize, lawful: u8, unlawful: u8) {
    expect(true, name, &[(at, &[lawful])]);
    expect(false, name, &[(at, &[unlawful])]);
}

/// A time: within its limit, and past it.
fn time(name: &str, at: usize) {
    expect(true, name, &[(at, &LAST_TIME.to_le_bytes())]);
    expect(false, name, &[(at, &(LAST_TIME + 1).to_le_bytes())]);
    expect(false, name, &[(at + 7, &[128])]);
}

/// A vector: three entries of existing sites and one of an absent one.
fn vector(name: &str, at: usize) {
    (0..3).for_each(|site| time(name, at + 8 * site));
    (0..8).for_each(|byte| expect(false, name, &[(at + 24 + byte, &[1])]));
}

/// The first byte of a session, of a node, and of a node's first channel.
fn places(site: usize, partition: usize) -> (usize, usize) {
    let (node, channels) = partition_part(site, partition);
    (node.start, channels.start)
}

#[test]
fn numbers_of_sites_and_partitions() {
    edge("sites", 0, 4, 5);
    edge("partitions", 1, 3, 5);
    expect(false, "no site", &[(0, &[0])]);
    expect(false, "no partition", &[(1, &[0])]);
    expect(false, "the open session's site is gone", &[(0, &[1])]);
}

#[test]
fn sessions() {
    for number in [0, 1, 7, 15] {
        let first = session_part(number).start;
        edge("open", first, 1, 2);
        edge("page open", first + 2, u8::from(number == 0), 2);
        edge("how many page keys", first + 3, if number == 0 { 2 } else { 8 }, 9);
        (0..8).for_each(|place| edge("mark", first + 16 + place, 1, 2));
        (0..3).for_each(|which| vector("session's vectors", first + 32 + 32 * which));
    }
    edge("an open session's site", session_part(0).start + 1, 2, 3);
    edge("a closed session's open page", session_part(5).start + 2, 0, 1);
    expect(true, "a closed session's site", &[(session_part(5).start + 1, &[255])]);
}

#[test]
fn pages() {
    let first = session_part(0).start;
    edge("key", first + 8, 63, 64);
    edge("the same key twice", first + 9, 5, 3);
    edge("no key", first + 3, 1, 0);
    expect(true, "a key beyond the count", &[(first + 10, &[255])]);
    let eight = [8, 1, 2, 3, 4, 5, 6, 7];
    expect(true, "eight keys", &[(first + 3, &[8]), (first + 8, &eight)]);
    expect(false, "the last twice", &[(first + 3, &[8]), (first + 8, &eight), (first + 15, &[8])]);
    let closed = session_part(5).start;
    expect(true, "a closed page's keys", &[(closed + 3, &[8]), (closed + 8, &[255; 8])]);
    expect(true, "a page in a closed session", &[(closed + 2, &[1]), (closed + 3, &[1])]);
}

#[test]
fn nodes() {
    for (site, partition) in [(0, 0), (2, 2), (3, 0), (0, 3), (3, 3)] {
        let (node, _) = places(site, partition);
        time("clock", node);
        vector("node's vector", node + 8);
    }
    let (node, _) = places(0, 0);
    edge("as many records as there are", node + 40, 0, 33);
    // A record that would be lawful at a site that exists.
    let record = full().as_bytes()[node + 64..node + 112].to_vec();
    for (site, partition) in [(3, 0), (0, 3), (3, 3)] {
        let absent = places(site, partition).0;
        expect(true, "an absent node's slot", &[(absent + 64, &record)]);
        expect(false, "an absent node's record", &[(absent + 40, &[1]), (absent + 64, &record)]);
    }
    expect(true, "room", &[(node + 41, &[255; 23]), (node + 112, &[255; 8])]);
    expect(true, "a free slot", &[(node + 120, &[255; 48])]);
}

/// The fields that a record and an update have in common, at partition 0 of 3.
fn reading(at: usize) {
    edge("key", at, 63, 64);
    edge("key of another partition", at, 6, 7);
    edge("quality", at + 2, 2, 3);
    for (lawful, unlawful) in [(-50_000, -50_001), (1_000_000, 1_000_001), (0, i32::MIN)] {
        expect(true, "level", &[(at + 4, &i32::to_le_bytes(lawful))]);
        expect(false, "level", &[(at + 4, &i32::to_le_bytes(unlawful))]);
    }
    time("stamp", at + 8);
    vector("carried vector", at + 16);
}

#[test]
fn records() {
    let at = places(0, 0).0 + 64;
    reading(at);
    edge("an existing source", at + 1, 2, 3);
    edge("kind", at + 3, 1, 2);
    edge("kind", at + 3, 1, 0);
}

#[test]
fn updates() {
    let channel = places(0, 0).1;
    let at = channel + 16;
    reading(at);
    edge("the channel's source", at + 1, 0, 1);
    edge("kind", at + 3, 1, 0);
    edge("kind", at + 3, 1, 3);
    edge("messages", channel + 1, 2, 9);
    expect(true, "no message", &[(channel + 1, &[0])]);
    expect(false, "a place of the ring that is no message", &[(channel + 1, &[3])]);
    expect(true, "the front counts modulo 8", &[(channel, &[248])]);
    expect(false, "the front on an empty place", &[(channel, &[7])]);
    expect(true, "room", &[(channel + 2, &[255; 14]), (channel + 64, &[255; 8])]);
    expect(true, "a free place", &[(channel + 16 + 2 * 56, &[255; 48])]);
}

#[test]
fn heartbeats() {
    let at = places(0, 0).1 + 16 + 56;
    expect(true, "a heartbeat", &[]);
    edge("the channel's source", at + 1, 0, 1);
    edge("kind", at + 3, 2, 4);
    time("stamp", at + 8);
    for byte in [0, 2].into_iter().chain(4..8).chain(16..48) {
        edge("zero", at + byte, 0, 1);
    }
}

#[test]
fn channels_of_absent_sites_and_partitions() {
    let heartbeat = [0, 0, 0, 2];
    for (site, partition, place) in [(0, 0, 2), (0, 3, 0), (3, 0, 0), (2, 2, 2), (3, 3, 2)] {
        let channel = places(site, partition).1 + 464 * place;
        let mut message = heartbeat;
        message[1] = site as u8;
        expect(true, "an absent channel", &[(channel + 16, &message)]);
        expect(false, "an absent channel", &[(channel + 1, &[1]), (channel + 16, &message)]);
    }
    let there = places(2, 2).1 + 464;
    expect(true, "one that exists", &[(there + 1, &[1]), (there + 16, &[0, 2, 0, 2])]);
}

/// A record of node 0,0 of the table above: key, source, stamp.
fn record(key: u8, source: u8, stamp: u8) -> Vec<u8> {
    let node = places(0, 0).0;
    let mut record = full().as_bytes()[node + 64..node + 112].to_vec();
    (record[0], record[1], record[8]) = (key, source, stamp);
    record
}

/// The table above with five records at node 0,0, all of them held but the last. Of key
/// 3 the second is the newest: the first has a lower site, the third is like it. Key 6
/// has one with stamp 0.
fn with_records() -> Vec<u8> {
    let mut table = full().into_bytes().into_vec();
    let node = places(0, 0).0;
    let records =
        [record(3, 0, 5), record(3, 1, 5), record(3, 1, 5), record(6, 0, 0), record(3, 2, 9)];
    for (slot, record) in records.iter().enumerate() {
        change(&mut table, &[(node + 64 + 56 * slot, record)]);
    }
    change(&mut table, &[(node + 40, &[4])]);
    table
}

/// The kept places of node 0,0 in the table with records: key 3 in slot 2, key 6 in 4.
const KEPT: [u8; 8] = [0, 0, 0, 2, 0, 0, 4, 0];

/// The table with records and their kept places, some bytes changed.
fn expect_kept(lawful: bool, name: &str, changes: &[(usize, &[u8])]) {
    let mut table = with_records();
    change(&mut table, &[(kept_part(0, 0).start, &KEPT)]);
    change(&mut table, changes);
    both_say(lawful, name, &table);
}

#[test]
fn kept_places_of_keys_with_records() {
    let kept = kept_part(0, 0).start;
    expect_kept(true, "the newest of each key", &[]);
    for (name, slot) in [
        ("none, and there is a record", 0),
        ("an older record of the key", 1),
        ("the later stored of two alike", 3),
        ("a record of another key", 4),
        ("a free slot with a newer record of the key", 5),
        ("the last slot of a node, which is free", 32),
        ("one slot too many", 33),
        ("the greatest byte", 255),
    ] {
        expect_kept(false, name, &[(kept + 3, &[slot])]);
    }
    expect_kept(false, "none, and there is a record with stamp 0", &[(kept + 6, &[0])]);
    expect_kept(false, "all records are lost", &[(places(0, 0).0 + 40, &[0])]);
    expect_kept(false, "the last record is lost", &[(places(0, 0).0 + 40, &[3])]);
    let one_more: [(usize, &[u8]); 1] = [(places(0, 0).0 + 40, &[5])];
    expect_kept(false, "a newer record is held", &one_more);
    expect_kept(true, "and it is kept", &[one_more[0], (kept + 3, &[5])]);
}

#[test]
fn kept_places_of_two_alike_but_for_stamp_or_source() {
    let (node, kept) = (places(0, 0).0, kept_part(0, 0).start);
    let third = node + 64 + 2 * 56;
    for (at, greater) in [(third + 1, 2), (third + 8, 6), (third + 15 - 2, 1)] {
        expect_kept(false, "the third is newer", &[(at, &[greater])]);
        expect_kept(true, "the third is newer", &[(at, &[greater]), (kept + 3, &[3])]);
    }
    // A greater site doesn't make up for a smaller stamp.
    let older: [(usize, &[u8]); 2] = [(third + 1, &[2]), (third + 8, &[4])];
    expect_kept(true, "the third is older", &older);
    expect_kept(false, "the third is older", &[older[0], older[1], (kept + 3, &[3])]);
}

#[test]
fn kept_places_of_keys_without_records() {
    // Keys of the partition, keys of others, nodes without records, absent nodes.
    for number in 0..16 {
        let kept = kept_part(number / 4, number % 4).start;
        for key in (0..64).filter(|key| number > 0 || ![3, 6].contains(key)) {
            for slot in [1, 2, 4, 255] {
                let name = format!("slot {slot} for key {key} at node {number}");
                expect_kept(false, &name, &[(kept + key, &[slot])]);
            }
        }
    }
}

#[test]
fn kept_places_as_the_core_sets_them() {
    both_say(true, "as the events left it", full().as_bytes());
    let kept = kept_part(0, 0).start;
    assert_eq!(full().as_bytes()[kept..kept + 8], [0, 0, 0, 1, 0, 0, 0, 0]);
    let mut older = full().into_bytes();
    older[kept..].fill(0);
    both_say(false, "as a version without kept places leaves it", &older);
}

#[test]
fn setup_makes_any_bytes_empty() {
    let fresh = Archive::new(2, 3).expect("2 and 3");
    let bytes = vec![255; 57_344].into_boxed_slice();
    assert_eq!(Archive::setup(bytes, 2, 3).expect("2 and 3"), fresh);
    for (sites, partitions) in [(0, 1), (1, 0), (5, 1), (1, 5), (260, 1), (u32::MAX, 2)] {
        let bytes = vec![255; 57_344];
        let refused = Archive::setup(bytes.clone(), sites, partitions).expect_err("not 1 to 4");
        assert_eq!((refused.refusal().number(), refused.into_bytes()), (11, bytes));
    }
}
