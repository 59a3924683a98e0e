//! The examples P1 to P11 of docs/RULES.md, and what a wait says.

use crate::make;
use crate::session::{Page, Session, raise_by};
use crate::vector::{Vector, ZERO};
use crate::{Answer, Archive, Record};

fn record(stamp: u64, source: u8, vector: Vector) -> Record {
    Record { key: 0, source, quality: 0, level: 7, stamp, vector }
}

fn archive() -> Archive {
    Archive::new(4, 1).expect("4 and 1 are lawful")
}

/// Session 0 open at `site` with `vector`, and the node of key 0 there.
fn at(site: usize, node: Vector, vector: Vector) -> Archive {
    let mut archive = archive();
    archive.sessions[0] = Session { vector, ..Session::opened(site) };
    archive.nodes[site][0].vector = node;
    archive
}

#[test]
fn p1_p2_newer() {
    assert!(record(100, 1, ZERO).is_newer_than(&record(100, 0, ZERO)));
    assert!(!record(100, 0, ZERO).is_newer_than(&record(100, 1, ZERO)));
    assert!(record(101, 0, ZERO).is_newer_than(&record(100, 3, ZERO)));
}

#[test]
fn p3_get_waits_for_others() {
    let get = |site| at(site, [5, 0, 7, 0], [4, 0, 8, 0]).step(&make::get(0, 0));
    assert_eq!(get(2), Answer::NOTHING);
    assert_eq!(get(0), Answer::wait((2, 8)));
}

#[test]
fn get_names_the_first_other_site_that_is_short() {
    let get = |site, node| at(site, node, [6, 7, 8, 9]).step(&make::get(0, 0));
    assert_eq!(get(0, [0, 6, 7, 8]), Answer::wait((1, 7)));
    assert_eq!(get(1, [0, 6, 7, 8]), Answer::wait((0, 6)));
    assert_eq!(get(3, [9, 9, 7, 0]), Answer::wait((2, 8)));
    assert_eq!(get(0, [0, 7, 8, 0]), Answer::wait((3, 9)));
    assert_eq!(get(2, [6, 7, 0, 9]), Answer::NOTHING);
}

#[test]
fn p4_read_waits_for_all() {
    for site in 0..4 {
        let mut archive = at(site, [5, 0, 7, 0], ZERO);
        archive.sessions[0].page = Some(Page::new([4, 0, 8, 0], 1));
        assert_eq!(archive.step(&make::read(0, 0)), Answer::wait((2, 8)));
    }
}

#[test]
fn read_names_the_first_site_that_is_short() {
    let read = |site, node| {
        let mut archive = at(site, node, [90, 90, 90, 90]);
        archive.sessions[0].page = Some(Page::new([6, 7, 8, 9], 1));
        archive.step(&make::read(0, 0))
    };
    for site in 0..4 {
        assert_eq!(read(site, [5, 6, 7, 8]), Answer::wait((0, 6)));
        assert_eq!(read(site, [6, 0, 8, 0]), Answer::wait((1, 7)));
        assert_eq!(read(site, [6, 7, 8, 8]), Answer::wait((3, 9)));
        assert_eq!(read(site, [6, 7, 8, 9]), Answer::NOTHING);
    }
}

#[test]
fn p5_p6_put_waits_for_the_clock() {
    let put = |clock, own, vector| {
        let mut archive = at(0, [own, 0, 0, 0], vector);
        archive.nodes[0][0].clock = clock;
        archive.step(&make::put(0, 0, 0, 7))
    };
    assert_eq!(put(100, 90, [0, 100, 0, 0]), Answer::wait((0, 100)));
    assert_eq!(put(101, 90, [0, 100, 0, 0]), Answer::put(0, 101));
    assert_eq!(put(101, 101, ZERO), Answer::wait((0, 101)));
}

#[test]
fn put_names_its_site_and_the_stamp_to_pass() {
    let put = |site, own, vector| {
        let mut node = ZERO;
        node[site] = own;
        at(site, node, vector).step(&make::put(0, 0, 0, 7))
    };
    for site in 0..4 {
        assert_eq!(put(site, 90, [80, 100, 70, 60]), Answer::wait((site, 100)));
        assert_eq!(put(site, 110, [80, 100, 70, 60]), Answer::wait((site, 110)));
        assert_eq!(put(site, 0, ZERO), Answer::wait((site, 0)));
    }
}

#[test]
fn p7_raising() {
    let mut vector = [3, 9, 0, 0];
    raise_by(&mut vector, &record(12, 1, [5, 2, 0, 0]));
    assert_eq!(vector, [5, 12, 0, 0]);
}

#[test]
fn p8_page_vector() {
    let mut archive = at(0, [12, 10, 0, 0], [9, 11, 0, 0]);
    assert_eq!(archive.step(&make::begin(0, 0, &[0])), Answer::DONE);
    assert_eq!(archive.sessions[0].page, Some(Page::new([12, 11, 0, 0], 1)));
}

/// What a READ shows of some records at a page vector.
fn shown(page: Vector, records: &[Record]) -> Answer {
    let mut archive = at(0, page, ZERO);
    archive.sessions[0].page = Some(Page::new(page, 1));
    for record in records {
        archive.nodes[0][0].store(record);
    }
    archive.step(&make::read(0, 0))
}

#[test]
fn p9_p10_candidates() {
    let (later, sooner) = (record(20, 0, [0, 15, 0, 0]), record(18, 1, ZERO));
    assert_eq!(shown([20, 10, 0, 0], &[later, sooner]), Answer::value(&sooner));
    assert_eq!(shown([20, 10, 0, 0], &[sooner, later]), Answer::value(&sooner));
    let ahead = record(11, 0, [10, 4, 0, 0]);
    assert_eq!(shown([10, 4, 0, 0], &[ahead]), Answer::value(&ahead));
}

#[test]
fn p11_partitions() {
    let of = |partitions| Archive::new(1, partitions).expect("lawful").partition_of(63);
    assert_eq!((of(4), of(3)), (3, 0));
}

#[test]
fn of_two_alike_the_first_stored_counts() {
    let first = record(5, 1, ZERO);
    let second = Record { level: 8, ..first };
    assert_eq!(shown(ZERO, &[first, second]), Answer::value(&first));
}
