//! The kept places, the last 1,024 bytes of a table: for each key of each node the slot
//! of its newest record, counted from 1, or 0. Which events change which of them, and
//! that a table with any other byte there is refused. The numbers are docs/LAYOUT.md's.

use crate::boundary::{refused, used_table};
use level_archive::{Archive, Event, Quality, TABLE_BYTES};

/// The first of the kept places; those of node p of site m begin 64 (4 m + p) behind it.
const FIRST: usize = 56_320;

/// What an event changed: the place of a byte, and the byte.
type Change = (usize, u8);

/// Takes an event, which must get a number, and gives the kept places that it changed.
fn changes(archive: &mut Archive, event: Event, number: u8) -> Vec<Change> {
    let before = archive.as_bytes().to_vec();
    assert_eq!(archive.step(&event).number(), number, "{event}");
    let after = archive.as_bytes();
    let changed = (FIRST..TABLE_BYTES).filter(|at| after[*at] != before[*at]);
    changed.map(|at| (at, after[at])).collect()
}

/// Takes events, each with its number and with the kept places that it changes.
fn expect(archive: &mut Archive, events: &[(Event, u8, &[Change])]) {
    for (event, number, expected) in events {
        assert_eq!(changes(archive, *event, *number), *expected, "{event}");
    }
}

fn put(session: u8, key: u8) -> Event {
    Event::put(session, key, Quality::Measured, 7)
}

/// 2 sites and 3 partitions; session 0 at site 0 and session 1 at site 1. Keys 1, 4 and
/// 7 live on partition 1: node 0,1 has its kept places from 56,384, node 1,1 from 56,640.
fn started() -> Archive {
    let mut archive = Archive::new(2, 3).expect("lawful numbers");
    expect(&mut archive, &[(Event::open(0, 0), 0, &[]), (Event::open(1, 1), 0, &[])]);
    archive
}

/// Both sites write key 4, and only site 0 writes key 7; all is delivered.
fn written() -> Archive {
    let mut archive = started();
    let events: [(Event, u8, &[Change]); 13] = [
        (Event::clock(0, 1, 7), 0, &[]),
        (put(0, 4), 0, &[(56_388, 1)]),
        (Event::clock(0, 1, 8), 0, &[]),
        (put(0, 7), 0, &[(56_391, 2)]),
        (Event::clock(0, 1, 9), 0, &[]),
        (put(0, 4), 0, &[(56_388, 3)]),
        (Event::clock(1, 1, 20), 0, &[]),
        (put(1, 4), 0, &[(56_644, 1)]),
        // Stamp 7 of site 0 is older than stamp 20, and so is stamp 9.
        (Event::deliver(0, 1, 1), 0, &[]),
        (Event::deliver(0, 1, 1), 0, &[(56_647, 3)]),
        (Event::deliver(0, 1, 1), 0, &[]),
        (Event::deliver(1, 0, 1), 0, &[(56_388, 4)]),
        (Event::deliver(1, 0, 1), 20, &[]),
    ];
    expect(&mut archive, &events);
    archive
}

#[test]
fn a_put_and_a_delivery_keep_the_newest() {
    let archive = written();
    let kept = &archive.as_bytes()[FIRST..];
    let set: Vec<Change> = (0..1_024).map(|at| (at, kept[at])).filter(|set| set.1 > 0).collect();
    assert_eq!(set, [(64 + 4, 4), (64 + 7, 2), (320 + 4, 1), (320 + 7, 3)]);
}

#[test]
fn at_equal_stamps_the_greater_site_is_kept() {
    let mut archive = written();
    let events: [(Event, u8, &[Change]); 6] = [
        (Event::clock(0, 1, 30), 0, &[]),
        (put(0, 1), 0, &[(56_385, 5)]),
        (Event::clock(1, 1, 30), 0, &[]),
        (put(1, 1), 0, &[(56_641, 5)]),
        (Event::deliver(0, 1, 1), 0, &[]),
        (Event::deliver(1, 0, 1), 0, &[(56_385, 6)]),
    ];
    expect(&mut archive, &events);
    for session in [0, 1] {
        let shown = archive.step(&Event::get(session, 1)).to_string();
        assert_eq!(shown, "7 mm, measured, site 1 at 30");
    }
}

#[test]
fn keys_live_on_their_partitions() {
    let mut archive = started();
    let events: [(Event, u8, &[Change]); 5] = [
        (Event::clock(0, 0, 5), 0, &[]),
        (put(0, 63), 0, &[(56_383, 1)]), // the last byte of node 0,0
        (Event::clock(1, 2, 5), 0, &[]),
        (put(1, 2), 0, &[(56_706, 1)]),
        (Event::deliver(0, 1, 0), 0, &[(56_639, 1)]), // the last byte of node 1,0
    ];
    expect(&mut archive, &events);
}

#[test]
fn other_events_and_refusals_leave_them() {
    let mut archive = written();
    let page = Event::begin(1, 0, &[4, 1]).expect("two keys");
    let events: [(Event, u8, &[Change]); 23] = [
        (Event::open(2, 1), 0, &[]),
        (Event::open(2, 1), 13, &[]),
        (Event::get(2, 4), 1, &[]),
        (Event::get(2, 1), 2, &[]),
        (put(0, 4), 3, &[]),
        (put(3, 4), 12, &[]),
        (Event::clock(1, 0, 50), 0, &[]),
        (Event::beat(1, 0), 0, &[]),
        (page, 0, &[]),
        (Event::read(1, 1), 3, &[]),
        (Event::read(1, 4), 3, &[]),
        (Event::clock(0, 1, 40), 0, &[]),
        (Event::beat(0, 1), 0, &[]),
        (Event::deliver(0, 1, 1), 0, &[]), // a heartbeat
        (Event::deliver(0, 1, 1), 20, &[]),
        (Event::clock(1, 1, 50), 0, &[]),
        (Event::beat(1, 1), 0, &[]),
        (Event::read(1, 1), 2, &[]),
        (Event::read(1, 4), 1, &[]),
        (Event::end(1), 0, &[]),
        (Event::close(2), 0, &[]),
        (Event::get(2, 4), 12, &[]),
        (Event::clock(0, 1, 4), 19, &[]),
    ];
    expect(&mut archive, &events);
}

#[test]
fn a_full_node_keeps_what_it_has() {
    let mut archive = Archive::new(1, 1).expect("lawful numbers");
    expect(&mut archive, &[(Event::open(0, 0), 0, &[])]);
    for slot in 1..=32 {
        let key = slot % 4 * 21;
        let kept = (FIRST + usize::from(key), slot);
        expect(
            &mut archive,
            &[(Event::clock(0, 0, slot.into()), 0, &[]), (put(0, key), 0, &[kept])],
        );
    }
    expect(&mut archive, &[(Event::clock(0, 0, 33), 0, &[]), (put(0, 0), 22, &[])]);
    let kept = &archive.as_bytes()[FIRST..];
    assert_eq!([0, 21, 42, 63].map(|key| kept[key]), [32, 29, 30, 31]);
}

#[test]
fn setup_makes_them_zero() {
    let archive = Archive::setup(vec![0xff; TABLE_BYTES], 4, 4).expect("lawful numbers");
    assert!(archive.as_bytes()[FIRST..] == [0; 1_024]);
}

#[test]
fn any_other_byte_is_refused() {
    for table in [used_table(), written().into_bytes().into_vec()] {
        for at in FIRST..TABLE_BYTES {
            let mut other = table.clone();
            for slot in [0, 1, 2, 3, 4, 5, 32, 33, 255].into_iter().filter(|s| *s != table[at]) {
                other[at] = slot;
                refused(&mut other, &Event::get(0, 4).to_bytes(), 24);
            }
        }
    }
}

#[test]
fn a_table_without_kept_places_is_refused_unless_it_is_empty() {
    let mut older = written().into_bytes();
    older[FIRST..].fill(0); // as versions before 0.3.0 left them
    refused(&mut older, &Event::get(0, 4).to_bytes(), 24);
    let mut empty = started().into_bytes();
    empty[FIRST..].fill(0);
    assert_eq!(Archive::over(empty).step(&Event::get(0, 4)).number(), 2);
}
