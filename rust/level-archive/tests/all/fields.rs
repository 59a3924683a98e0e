//! Damaged events: every field out of range, one at a time, every unused byte that
//! isn't zero, every unknown code: 10 or 11, and nothing changed.

use std::ops::Range;

use crate::boundary::{refused, used_table};
use level_archive::{EVENT_BYTES, Event, Quality, sys};

/// The fields (R30): where they stand in an event.
const SITE: Range<usize> = 1..2;
const PARTITION: Range<usize> = 2..3;
const SESSION: Range<usize> = 3..4;
const KEY: Range<usize> = 4..5;
const QUALITY: Range<usize> = 5..6;
const FROM: Range<usize> = 6..7;
const COUNT: Range<usize> = 7..8;
const TIME: Range<usize> = 8..16;
const LEVEL: Range<usize> = 16..20;

/// For each code an event with the largest numbers of 2 sites and 3 partitions, and
/// the fields that R31 names for it. BEGIN's page keys come with its count.
fn lawful() -> [(Event, Vec<Range<usize>>); 10] {
    let page = Event::begin(15, 2, &[63, 62, 61]).expect("three keys");
    [
        (Event::open(15, 1), vec![SESSION, SITE]),
        (Event::close(15), vec![SESSION]),
        (Event::clock(1, 2, (1 << 48) - 1), vec![SITE, PARTITION, TIME]),
        (Event::get(15, 63), vec![SESSION, KEY]),
        (Event::put(15, 63, Quality::Estimated, 1_000_000), vec![SESSION, KEY, QUALITY, LEVEL]),
        (page, vec![SESSION, PARTITION, COUNT, 20..23]),
        (Event::read(15, 63), vec![SESSION, KEY]),
        (Event::end(15), vec![SESSION]),
        (Event::beat(1, 2), vec![SITE, PARTITION]),
        (Event::deliver(0, 1, 2), vec![FROM, SITE, PARTITION]),
    ]
}

/// All numbers of a byte from `first` on.
fn from(first: u8) -> Vec<Vec<u8>> {
    (first..=255).map(|number| vec![number]).collect()
}

/// The bytes of a field that are out of range with 2 sites and 3 partitions.
fn out_of_range(field: &Range<usize>) -> Vec<Vec<u8>> {
    let level = |level: i32| level.to_le_bytes().to_vec();
    let time = |time: u64| time.to_le_bytes().to_vec();
    match field.start {
        1 | 6 => from(2),
        2 => from(3),
        3 => from(16),
        4 => from(64),
        5 => from(3),
        7 => from(9).into_iter().chain([vec![0]]).collect(),
        8 => (48..64)
            .map(|bit| time(1 << bit))
            .chain([time((1 << 48) + 1), time(u64::MAX)])
            .collect(),
        16 => [-50_001, 1_000_001, i32::MIN, i32::MAX].map(level).to_vec(),
        _ => panic!("no field begins at {}", field.start),
    }
}

#[test]
fn lawful_events_get_past_10_and_11() {
    for (event, _) in lawful() {
        let number = sys::step(&mut used_table(), &event.to_bytes()).number;
        assert!(number != 10 && number != 11, "{event}: {number}");
    }
}

#[test]
fn codes_that_no_event_has() {
    let mut table = used_table();
    for (event, _) in lawful() {
        for code in (0..=0).chain(11..=255) {
            let mut bytes = event.to_bytes();
            bytes[0] = code;
            refused(&mut table, &bytes, 10);
            bytes.fill(255); // 10 comes before 11
            bytes[0] = code;
            refused(&mut table, &bytes, 10);
        }
    }
}

#[test]
fn each_field_out_of_range() {
    let mut table = used_table();
    for (event, fields) in lawful() {
        for field in fields.iter().filter(|field| field.start < 20) {
            for number in out_of_range(field) {
                let mut bytes = event.to_bytes();
                bytes[field.clone()].copy_from_slice(&number);
                refused(&mut table, &bytes, 11);
            }
        }
    }
    refused(&mut table, &Event::deliver(1, 1, 0).to_bytes(), 11); // from and site differ
}

#[test]
fn each_page_key_out_of_range() {
    let mut table = used_table();
    for count in 1..=8 {
        let keys: Vec<u8> = (50..50 + count).collect();
        for place in 0..count {
            for key in 64..=255 {
                let mut bytes = Event::begin(15, 0, &keys).expect("at most 8 keys").to_bytes();
                bytes[20 + usize::from(place)] = key;
                refused(&mut table, &bytes, 11);
            }
        }
    }
}

#[test]
fn each_unused_byte_not_zero() {
    let mut table = used_table();
    for (event, fields) in lawful() {
        let used = |place: &usize| fields.iter().any(|field| field.contains(place));
        for place in (1..EVENT_BYTES).filter(|place| !used(place)) {
            for byte in [1, 2, 63, 128, 255] {
                let mut bytes = event.to_bytes();
                bytes[place] = byte;
                refused(&mut table, &bytes, 11);
            }
        }
    }
}
