//! Text to bytes and back.

use crate::support::{levels, read, repository, scratch, vectors};
use level_archive::Event;

#[test]
fn document_01_there_and_back() {
    let text = read("rust/levels/tests/document-01.txt");
    let bytes = read("vectors/01/document-01.events");
    assert_eq!(levels(&["encode"], &text).good(), bytes);

    let canonical = levels(&["decode"], &bytes).good();
    assert_eq!(levels(&["encode"], &canonical).good(), bytes);
    let lines = String::from_utf8(canonical).expect("text");
    assert_eq!(lines.lines().count(), 17);
    let without_comment = String::from_utf8(text).expect("text").replace('−', "-");
    assert_eq!(Some(lines.as_str()), without_comment.split_once('\n').map(|(_, rest)| rest));
}

#[test]
fn every_event_file_there_and_back() {
    for (bytes, _) in vectors() {
        let good: Vec<&[u8]> =
            bytes.chunks(32).filter(|piece| Event::try_from(*piece).is_ok()).collect();
        let good = good.concat();
        let text = levels(&["decode"], &good).good();
        assert_eq!(levels(&["encode"], &text).good(), good);

        let lenient = levels(&["decode", "--lenient"], &bytes).good();
        assert_eq!(lenient.iter().filter(|byte| **byte == b'\n').count(), bytes.len().div_ceil(32));
        assert_eq!(levels(&["encode"], &lenient).good(), good);
    }
}

#[test]
fn files_as_well_as_standard_input_and_output() {
    let events = repository("vectors/01/document-01.events");
    let events = events.to_str().expect("a name");
    let text = scratch("there.txt", b"");
    let back = scratch("back.events", b"old");
    assert!(levels(&["decode", events, &format!("-o{text}")], b"").good().is_empty());
    assert!(levels(&["encode", &text, "--output", &back], b"").good().is_empty());
    assert_eq!(std::fs::read(back).expect("written"), read("vectors/01/document-01.events"));
    assert_eq!(levels(&["encode", "-"], b"").good(), b"");
}

#[test]
fn the_archives_numbers_are_not_in_event_bytes() {
    let done = levels(&["encode"], b"sites 2 partitions 3\nBEAT 0,0\n");
    assert_eq!((done.code, done.bytes.len()), (Some(0), 32));
    assert!(done.errors.starts_with("standard input:1:1: note: "), "{}", done.errors);
    assert!(done.errors.contains("--sites 2 --partitions 3"), "{}", done.errors);
}
