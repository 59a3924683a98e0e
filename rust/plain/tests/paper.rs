//! The lines of vectors/01/document-01.out, and the numbers given back in the
//! order of its table.

use plain::make;
use plain::{Answer, Archive};

const LINES: &str = "\
1 1 0 0 0 0 0
2 1 0 0 0 0 0
3 3 0 0 0 0 0
4 5 0 0 0 0 100
5 3 0 0 0 0 0
6 5 3 0 0 0 100
7 3 0 0 0 0 0
8 5 0 0 0 0 101
9 10 0 0 0 0 0
10 4 1 0 1 -30 101
11 4 3 0 0 0 101
12 10 0 0 0 0 0
13 4 3 0 0 0 101
14 3 0 0 0 0 0
15 9 0 0 0 0 0
16 10 0 0 0 0 0
17 4 1 0 0 1250 100
";

#[test]
fn the_seventeen_lines() {
    let events = [
        make::open(0, 0),
        make::open(1, 1),
        make::clock(0, 0, 100),
        make::put(0, 4, 0, 1250),
        make::clock(0, 1, 100),
        make::put(0, 5, 1, -30),
        make::clock(0, 1, 101),
        make::put(0, 5, 1, -30),
        make::deliver(0, 1, 1),
        make::get(1, 5),
        make::get(1, 4),
        make::deliver(0, 1, 0),
        make::get(1, 4),
        make::clock(0, 0, 101),
        make::beat(0, 0),
        make::deliver(0, 1, 0),
        make::get(1, 4),
    ];
    let mut output = Vec::new();
    plain::bench::run(events.as_flattened(), &mut output).expect("no error");
    assert_eq!(String::from_utf8(output).expect("text"), LINES);
}

#[test]
fn setup_takes_1_to_4() {
    for sites in 0..7 {
        for partitions in 0..7 {
            let lawful = (1..=4).contains(&sites) && (1..=4).contains(&partitions);
            let refused = Archive::new(sites, partitions).err();
            assert_eq!(refused, (!lawful).then_some(Answer::only(11)));
        }
    }
}

/// Does the steps, each with the number it must give.
fn numbers(archive: &mut Archive, steps: &[(make::Bytes, u8)]) {
    for (place, (event, number)) in steps.iter().enumerate() {
        assert_eq!(archive.step(event).number, *number, "step {place}: {event:?}");
    }
}

#[test]
fn any_length_but_32_is_23() {
    let mut archive = Archive::new(2, 2).expect("lawful");
    for length in (0..100).filter(|length| *length != 32) {
        assert_eq!(archive.step(&vec![0; length]), Answer::only(23));
    }
}

#[test]
fn codes_and_fields() {
    let mut archive = Archive::new(2, 2).expect("lawful");
    for code in (0..=255).filter(|code| !(1..=10).contains(code)) {
        assert_eq!(archive.step(&[code; 32]).number, 10);
    }
    let mut stray = make::beat(0, 0);
    stray[31] = 1;
    let mut behind = make::begin(0, 0, &[5, 6]);
    behind[22] = 7;
    let steps = [
        (stray, 11),
        (behind, 11),
        (make::open(16, 0), 11),
        (make::open(0, 2), 11),
        (make::beat(0, 2), 11),
        (make::get(0, 64), 11),
        (make::put(0, 0, 3, 0), 11),
        (make::put(0, 0, 0, -50_001), 11),
        (make::put(0, 0, 0, 1_000_001), 11),
        (make::put(0, 0, 0, -50_000), 12),
        (make::put(0, 0, 0, 1_000_000), 12),
        (make::clock(0, 0, 1 << 48), 11),
        (make::clock(0, 0, (1 << 48) - 1), 0),
        (make::begin(0, 0, &[]), 11),
        (make::begin(0, 0, &[64]), 11),
        (make::begin(0, 0, &[63]), 12),
        (make::deliver(1, 1, 0), 11),
        (make::deliver(2, 1, 0), 11),
        (make::deliver(1, 0, 1), 20),
    ];
    numbers(&mut archive, &steps);
}

#[test]
fn sessions_and_pages() {
    let mut archive = Archive::new(2, 2).expect("lawful");
    let steps = [
        (make::close(3), 12),
        (make::read(3, 1), 12),
        (make::end(3), 12),
        (make::open(3, 1), 0),
        (make::open(3, 0), 13),
        (make::read(3, 1), 15),
        (make::end(3), 15),
        (make::begin(3, 0, &[1, 2, 1]), 17),
        (make::begin(3, 0, &[1, 2]), 0),
        (make::begin(3, 0, &[1, 1]), 14),
        (make::get(3, 1), 14),
        (make::put(3, 1, 0, 0), 14),
        (make::read(3, 3), 16),
        (make::read(3, 2), 2),
        (make::read(3, 2), 16),
        (make::end(3), 18),
        (make::read(3, 1), 2),
        (make::end(3), 0),
        (make::begin(3, 0, &[0]), 0),
        (make::close(3), 0),
        (make::get(3, 1), 12),
        (make::open(3, 0), 0),
        (make::end(3), 15),
    ];
    numbers(&mut archive, &steps);
}

#[test]
fn full_channels_and_nodes() {
    let mut archive = Archive::new(2, 1).expect("lawful");
    numbers(&mut archive, &[(make::open(0, 0), 0), (make::put(0, 0, 0, 0), 3)]);
    for time in 1..=32 {
        numbers(&mut archive, &[(make::clock(0, 0, time), 0), (make::put(0, 0, 0, 0), 0)]);
        if time % 8 == 0 {
            let number = if time == 32 { 22 } else { 21 };
            let steps = [(make::put(0, 0, 0, 0), number), (make::beat(0, 0), 0)];
            numbers(&mut archive, &steps);
            let next = [(make::clock(0, 0, time), 0), (make::clock(0, 0, time - 1), 19)];
            numbers(&mut archive, &next);
            numbers(&mut archive, &[(make::deliver(0, 1, 0), 0); 8]);
            numbers(&mut archive, &[(make::deliver(0, 1, 0), 20)]);
        }
    }
    let steps = [
        (make::clock(0, 0, 33), 0),
        (make::beat(0, 0), 0),
        (make::deliver(0, 1, 0), 0),
        (make::open(1, 1), 0),
        (make::put(1, 0, 0, 0), 22),
    ];
    numbers(&mut archive, &steps);
}

#[test]
fn an_update_to_a_full_node_stays_in_its_channel() {
    let mut archive = Archive::new(2, 1).expect("lawful");
    numbers(&mut archive, &[(make::open(0, 0), 0), (make::open(1, 1), 0)]);
    numbers(&mut archive, &[(make::clock(1, 0, 1), 0), (make::put(1, 0, 0, 5), 0)]);
    for time in 1..=32 {
        let steps = [(make::clock(0, 0, time), 0), (make::put(0, 0, 0, 0), 0)];
        numbers(&mut archive, &steps);
        if time < 32 {
            numbers(&mut archive, &[(make::deliver(0, 1, 0), 0)]);
        }
    }
    let steps = [
        (make::deliver(0, 1, 0), 22),
        (make::deliver(1, 0, 0), 22),
        (make::clock(1, 0, 40), 0),
        (make::beat(1, 0), 0),
        (make::deliver(1, 0, 0), 22),
        (make::beat(1, 0), 0),
    ];
    numbers(&mut archive, &steps);
    for time in 41..47 {
        numbers(&mut archive, &[(make::clock(1, 0, time), 0), (make::beat(1, 0), 0)]);
    }
    numbers(&mut archive, &[(make::clock(1, 0, 50), 0), (make::beat(1, 0), 21)]);
}
