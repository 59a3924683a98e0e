//! Every event file of vectors/01 gives exactly its .out file: all at once, with
//! little room for answers, and one by one; and the tables agree.

use std::fs;
use std::path::{Path, PathBuf};

use level_archive::{ANSWER_BYTES, Answer, Archive, EVENT_BYTES};

/// The event files, each with its output.
fn vectors() -> Vec<(PathBuf, Vec<u8>, String)> {
    let folder = Path::new(env!("CARGO_MANIFEST_DIR")).join("../../vectors/01");
    let files = fs::read_dir(folder).expect("the vectors are there");
    let paths = files.map(|file| file.expect("a file").path());
    let events = paths.filter(|path| path.extension().is_some_and(|end| end == "events"));
    let whole = |path: PathBuf| {
        let bytes = fs::read(&path).expect("the events");
        let output = fs::read_to_string(path.with_extension("out")).expect("an output");
        (path, bytes, output)
    };
    let vectors: Vec<_> = events.map(whole).collect();
    assert!(vectors.len() >= 8, "only {} vectors", vectors.len());
    vectors
}

/// The bench's lines: place, code and the five values; left-over bytes as `cut`.
fn lines(events: &[u8], answers: &[Answer]) -> String {
    let pieces = events.chunks(EVENT_BYTES).zip(answers).enumerate();
    let line = |(place, (piece, answer)): (usize, (&[u8], &Answer))| match piece.len() {
        EVENT_BYTES => format!("{} {} {}\n", place + 1, piece[0], answer.values()),
        left => format!("cut {left}\n"),
    };
    pieces.map(line).collect()
}

fn four_by_four() -> Archive {
    Archive::new(4, 4).expect("lawful numbers")
}

#[test]
fn all_at_once() {
    for (path, events, expected) in vectors() {
        let mut archive = four_by_four();
        let answers = archive.run_bytes(&events);
        assert!(lines(&events, &answers) == expected, "{} differs", path.display());
        let mut answer_bytes = vec![0; events.len().div_ceil(EVENT_BYTES) * ANSWER_BYTES];
        let mut again = four_by_four();
        assert_eq!(again.run_into(&events, &mut answer_bytes), answers.len());
        let written: Vec<u8> = answers.iter().flat_map(|answer| answer.to_bytes()).collect();
        assert!(answer_bytes == written && again == archive, "{} differs in bytes", path.display());
    }
}

#[test]
fn with_little_room_for_answers() {
    for (path, events, expected) in vectors() {
        let mut archive = four_by_four();
        let mut room = [0; 7 * ANSWER_BYTES + 5];
        let mut answers = Vec::new();
        let mut left = &events[..];
        while !left.is_empty() {
            let answered = archive.run_into(left, &mut room);
            assert_eq!(answered, left.len().div_ceil(EVENT_BYTES).min(7));
            let bytes = room.chunks(ANSWER_BYTES).take(answered);
            answers.extend(bytes.map(|bytes| Answer::try_from(bytes).expect("an answer")));
            left = left.get(answered * EVENT_BYTES..).unwrap_or_default();
        }
        assert!(lines(&events, &answers) == expected, "{} differs", path.display());
    }
}

#[test]
fn one_by_one_over_lent_bytes() {
    for (path, events, expected) in vectors() {
        let mut table = vec![0xa5; level_archive::TABLE_BYTES];
        let mut archive = Archive::setup(&mut table[..], 4, 4).expect("lawful numbers");
        let pieces = events.chunks(EVENT_BYTES);
        let answers: Vec<Answer> = pieces.map(|piece| archive.step_bytes(piece)).collect();
        assert!(lines(&events, &answers) == expected, "{} differs", path.display());
        let mut whole = four_by_four();
        assert_eq!(whole.run_bytes(&events), answers);
        assert!(whole.as_bytes() == archive.as_bytes(), "{}: the tables differ", path.display());
    }
}
