//! Damaged input to the exported functions: the clear number, and nothing changed.
//! Here lengths, null pointers and setup's numbers; `fields` has the events' fields.

use std::ptr::{null, null_mut};

use level_archive::sys::raw::{level_archive_run, level_archive_setup, level_archive_step};
use level_archive::{
    ANSWER_BYTES, Answer, Archive, EVENT_BYTES, Event, Quality, Refusal, TABLE_BYTES, Values, sys,
};

/// Lengths that are not a table's.
const LENGTHS: [usize; 10] = [0, 1, 31, 32, 33, 57_343, 57_345, 57_376, 65_536, 114_688];

pub fn only(number: u8) -> Values {
    Values { number, ..Values::default() }
}

/// A table of 2 sites and 3 partitions that holds something of everything.
pub fn used_table() -> Vec<u8> {
    let mut archive = Archive::setup(vec![0xa5; TABLE_BYTES], 2, 3).expect("lawful numbers");
    let events = [
        Event::open(15, 1),
        Event::open(0, 0),
        Event::clock(0, 0, 7),
        Event::put(0, 63, Quality::Estimated, -50_000),
        Event::put(0, 63, Quality::Measured, 1), // waits
        Event::clock(0, 2, 8),
        Event::put(0, 2, Quality::Corrected, 1_000_000),
        Event::clock(0, 1, 9),
        Event::beat(0, 1),
        Event::deliver(0, 1, 0),
        Event::begin(15, 0, &[63, 2, 1]).expect("three keys"),
        Event::read(15, 63),
    ];
    let numbers: Vec<u8> = archive.run(&events).into_iter().map(Answer::number).collect();
    assert_eq!(numbers, [0, 0, 0, 0, 3, 0, 0, 0, 0, 0, 0, 1]);
    archive.into_bytes()
}

/// The number from a step and from a run, and no byte of the table changed.
pub fn refused(table: &mut [u8], event: &[u8], number: u8) {
    let before = table.to_vec();
    assert_eq!(sys::step(table, event), only(number), "{event:?}");
    if event.len() == EVENT_BYTES {
        let mut answer = [0xa5; ANSWER_BYTES];
        assert_eq!(sys::run(table, event, &mut answer), 1);
        assert_eq!(Answer::try_from(&answer[..]).map(Answer::values), Ok(only(number)));
    }
    assert!(table == before, "a refusal changed the table: {event:?}");
}

#[test]
fn tables_of_other_lengths() {
    let event = Event::open(1, 0).to_bytes();
    for length in LENGTHS {
        let mut table = used_table();
        table.resize(length, 0);
        refused(&mut table, &event, 23);
        refused(&mut table, &[], 23);
        let before = table.clone();
        for number in [0, 1, 4, 5] {
            assert_eq!(sys::setup(&mut table, number, 2), only(23), "23 comes before 11");
        }
        assert!(table == before);
    }
}

#[test]
fn events_of_other_lengths() {
    let mut table = used_table();
    for length in
        (0..100).chain(LENGTHS).chain([TABLE_BYTES]).filter(|length| *length != EVENT_BYTES)
    {
        let mut event = Event::open(1, 0).to_bytes().to_vec();
        event.resize(length, 0);
        refused(&mut table, &event, 23);
        event.fill(255); // 23 comes before 10
        refused(&mut table, &event, 23);
    }
    let mut ill = used_table();
    ill[0] = 5;
    refused(&mut ill, &[0; 31], 23); // and before 24
}

#[test]
fn runs_of_other_lengths() {
    let events: Vec<u8> = [Event::open(1, 0), Event::open(2, 1), Event::close(1)]
        .into_iter()
        .flat_map(Event::to_bytes)
        .collect();
    for length in 0..=events.len() {
        for room in [0, 1, 15, 16, 17, 31, 32, 33, 47, 48, 49, 1000] {
            let (mut table, mut one_by_one) = (used_table(), used_table());
            let mut answers = vec![0xa5; room];
            let answered = sys::run(&mut table, &events[..length], &mut answers);
            assert_eq!(answered, length.div_ceil(EVENT_BYTES).min(room / ANSWER_BYTES));
            let mut expected = vec![0xa5; room];
            for (event, answer) in
                events[..length].chunks(EVENT_BYTES).zip(expected.chunks_exact_mut(ANSWER_BYTES))
            {
                let values = sys::step(&mut one_by_one, event);
                answer.copy_from_slice(&Answer::try_from(values).expect("an answer").to_bytes());
            }
            assert!(answers == expected && table == one_by_one, "{length} bytes, room {room}");
        }
    }
}

#[test]
fn runs_on_other_tables() {
    let events = [[1; EVENT_BYTES], [0; EVENT_BYTES], [255; EVENT_BYTES]].concat();
    let mut ill = used_table();
    ill[1] = 0;
    for (mut table, number) in
        LENGTHS.map(|length| (vec![9; length], 23)).into_iter().chain([(ill, 24)])
    {
        let before = table.clone();
        let mut answers = [0xa5; 4 * ANSWER_BYTES];
        assert_eq!(sys::run(&mut table, &events[..70], &mut answers), 3);
        let given = answers
            .chunks(ANSWER_BYTES)
            .map(|bytes| Answer::try_from(bytes).map(Answer::values).ok());
        let expected = [Some(only(number)), Some(only(number)), Some(only(23)), None];
        assert_eq!(given.collect::<Vec<_>>(), expected);
        assert!(table == before && answers[48..] == [0xa5; 16]);
    }
}

#[test]
fn setup_numbers_out_of_range() {
    let mut table = used_table();
    let before = table.clone();
    for number in [0, 5, 6, 255, 256, 257, 260, 0x0101_0101, u32::MAX] {
        for other in [0, 1, 4, 5, 256, u32::MAX] {
            assert_eq!(sys::setup(&mut table, number, other), only(11));
            assert_eq!(sys::setup(&mut table, other, number), only(11));
        }
    }
    assert!(table == before);
}

#[test]
fn tables_with_other_site_and_partition_numbers() {
    for place in [0, 1] {
        for number in (0..=0).chain(5..=255) {
            let mut table = used_table();
            table[place] = number;
            refused(&mut table, &Event::open(1, 0).to_bytes(), 24);
            refused(&mut table, &[255; EVENT_BYTES], 24); // 24 comes before 10
        }
    }
}

#[test]
#[allow(unsafe_code)] // `sys` takes slices, and a slice is never null
fn null_pointers_of_length_0() {
    let mut table = used_table();
    let before = table.clone();
    let (at, length) = (table.as_mut_ptr(), table.len());
    let event = Event::open(1, 0).to_bytes();
    let mut answers = [0xa5; 32];
    let room = answers.as_mut_ptr();
    // SAFETY: each pointer is null with length 0, or a slice with its length.
    unsafe {
        assert_eq!(level_archive_setup(null_mut(), 0, 2, 2), only(23));
        assert_eq!(level_archive_setup(null_mut(), 0, 9, 9), only(23));
        assert_eq!(level_archive_step(null_mut(), 0, event.as_ptr(), 32), only(23));
        assert_eq!(level_archive_step(at, length, null(), 0), only(23));
        assert_eq!(level_archive_step(null_mut(), 0, null(), 0), only(23));
        assert_eq!(level_archive_run(at, length, null(), 0, room, 32), 0);
        assert_eq!(level_archive_run(at, length, event.as_ptr(), 32, null_mut(), 0), 0);
        assert_eq!(level_archive_run(null_mut(), 0, null(), 0, null_mut(), 0), 0);
        assert!(answers == [0xa5; 32]);
        assert_eq!(level_archive_run(null_mut(), 0, event.as_ptr(), 32, room, 32), 1);
    }
    assert_eq!(answers[..16], Answer::Refused(Refusal::WrongLength).to_bytes());
    assert!(answers[16..] == [0xa5; 16] && table == before);
}
