//! The observer on logs made by hand: lawful ones and violating ones.

use plain::Answer;
use plain::causal::{Breach, Observer, Violation};
use plain::make::{self, Bytes};

const DONE: Answer = Answer::DONE;
const NOTHING: Answer = Answer::NOTHING;

/// A value of level 7 and quality 0.
fn value(stamp: u64, source: u8) -> Answer {
    Answer { number: 1, source, quality: 0, level: 7, stamp }
}

/// A PUT of level 7 that was done.
fn wrote(session: u8, key: u8, stamp: u64, source: u8) -> (Bytes, Answer) {
    (make::put(session, key, 0, 7), Answer::put(source, stamp))
}

fn open(session: u8) -> (Bytes, Answer) {
    (make::open(session, 0), DONE)
}

/// Feeds a log and gives the first violation.
fn watch(log: &[(Bytes, Answer)]) -> Option<Violation> {
    let mut observer = Observer::new();
    for (event, answer) in log {
        let _ = observer.see(event, answer);
    }
    observer.first()
}

/// The log breaches only at its last step, and like this.
fn breaches(log: &[(Bytes, Answer)], breach: Breach, key: u8) -> Violation {
    let violation = watch(log).expect("a violation");
    assert_eq!(watch(&log[..log.len() - 1]), None);
    assert_eq!((violation.breach, violation.key), (breach, key));
    assert_eq!(violation.place, log.len() as u64);
    violation
}

#[test]
fn own_write_unseen() {
    let log = [open(0), wrote(0, 5, 10, 0), (make::get(0, 5), NOTHING)];
    let violation = breaches(&log, Breach::OlderThanPast, 5);
    assert_eq!((violation.shown, violation.owed), (None, Some((10, 0))));
}

#[test]
fn older_than_own_write() {
    let log =
        [open(0), open(1), wrote(1, 5, 9, 3), wrote(0, 5, 10, 0), (make::get(0, 5), value(9, 3))];
    breaches(&log, Breach::OlderThanPast, 5);
}

#[test]
fn equal_stamp_of_a_lower_site() {
    let mut log = vec![open(0), open(1), wrote(0, 5, 10, 1), wrote(1, 5, 10, 0)];
    log.push((make::get(1, 5), value(10, 1)));
    assert_eq!(watch(&log), None);
    log.push((make::get(1, 5), value(10, 0)));
    breaches(&log, Breach::OlderThanPast, 5);
}

/// Session 0 writes key 1; 1 reads it and writes key 2; 2 reads that and
/// writes key 3; session 3 is open.
fn chain() -> Vec<(Bytes, Answer)> {
    vec![
        open(0),
        open(1),
        open(2),
        open(3),
        wrote(0, 1, 10, 0),
        (make::get(1, 1), value(10, 0)),
        wrote(1, 2, 11, 1),
        (make::get(2, 2), value(11, 1)),
        wrote(2, 3, 12, 2),
    ]
}

#[test]
fn chain_of_three_gauges() {
    let mut log = chain();
    log.push((make::get(3, 3), value(12, 2)));
    log.push((make::get(3, 1), NOTHING));
    breaches(&log, Breach::OlderThanPast, 1);
}

#[test]
fn a_past_ends_with_close() {
    let mut log = chain();
    log.push((make::get(3, 3), value(12, 2)));
    log.push((make::close(3), DONE));
    log.push(open(3));
    log.push((make::get(3, 1), NOTHING));
    assert_eq!(watch(&log), None);
}

#[test]
fn page_shows_the_later_first() {
    let mut log = chain();
    log.push((make::begin(3, 0, &[1, 3]), DONE));
    log.push((make::read(3, 3), value(12, 2)));
    log.push((make::read(3, 1), NOTHING));
    breaches(&log, Breach::OlderThanPage, 1);
}

#[test]
fn page_shows_the_earlier_first() {
    let mut log = chain();
    log.push((make::begin(3, 0, &[1, 3]), DONE));
    log.push((make::read(3, 1), NOTHING));
    log.push((make::read(3, 3), value(12, 2)));
    let violation = breaches(&log, Breach::OlderThanPage, 1);
    assert_eq!((violation.shown, violation.owed), (None, Some((10, 0))));
}

#[test]
fn page_older_than_the_readers_past() {
    let mut log = chain();
    log.push((make::get(3, 2), value(11, 1)));
    log.push((make::begin(3, 0, &[1]), DONE));
    log.push((make::read(3, 1), NOTHING));
    breaches(&log, Breach::OlderThanPast, 1);
}

#[test]
fn a_finished_page_counts() {
    let mut log = chain();
    log.push((make::begin(3, 0, &[3]), DONE));
    log.push((make::read(3, 3), value(12, 2)));
    log.push((make::end(3), DONE));
    log.push((make::get(3, 2), NOTHING));
    breaches(&log, Breach::OlderThanPast, 2);
}

#[test]
fn a_lawful_page_is_accepted() {
    let mut log = chain();
    log.push((make::begin(3, 0, &[1, 2, 3, 4]), DONE));
    for (key, answer) in [(4, NOTHING), (1, value(10, 0)), (3, value(12, 2)), (2, value(11, 1))] {
        log.push((make::read(3, key), answer));
    }
    log.push((make::end(3), DONE));
    log.push((make::get(3, 1), value(10, 0)));
    assert_eq!(watch(&log), None);
}

#[test]
fn a_record_that_nobody_wrote() {
    let mut log = chain();
    log.push((make::get(3, 1), value(11, 0)));
    breaches(&log, Breach::NeverWritten, 1);
    log.pop();
    log.push((make::get(3, 1), Answer { level: 8, ..value(10, 0) }));
    breaches(&log, Breach::NeverWritten, 1);
    log.pop();
    log.push((make::get(3, 1), value(11, 1)));
    breaches(&log, Breach::NeverWritten, 1);
}

#[test]
fn bytes_that_are_no_event() {
    let mut observer = Observer::new();
    assert_eq!(observer.see(&[4; 7], &Answer::only(23)), Ok(()));
    assert!(observer.see(&[4; 7], &NOTHING).is_err());
}
