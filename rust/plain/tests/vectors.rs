//! Every event file of vectors/01 gives exactly its .out file: through the
//! library, read whole and in odd pieces, and through the bench program.

use std::fs::{self, File};
use std::io::{self, Read};
use std::path::{Path, PathBuf};
use std::process::{Command, Stdio};

use plain::random::Random;

/// The event files, each with its output.
fn vectors() -> Vec<(PathBuf, Vec<u8>)> {
    let folder = Path::new(env!("CARGO_MANIFEST_DIR")).join("../../vectors/01");
    let files = fs::read_dir(folder).expect("the vectors are there");
    let paths = files.map(|file| file.expect("a file").path());
    let events = paths.filter(|path| path.extension().is_some_and(|end| end == "events"));
    let output = |path: &PathBuf| fs::read(path.with_extension("out")).expect("an output");
    let vectors: Vec<_> = events.map(|path| (path.clone(), output(&path))).collect();
    assert!(vectors.len() >= 8, "only {} vectors", vectors.len());
    vectors
}

/// Gives its bytes in pieces of 1 to 100.
struct Pieces<'a>(&'a [u8], Random);

impl Read for Pieces<'_> {
    fn read(&mut self, bytes: &mut [u8]) -> io::Result<usize> {
        let length = self.1.between(1, 100).min(bytes.len()).min(self.0.len());
        if self.1.chance(100) {
            return Err(io::ErrorKind::Interrupted.into());
        }
        bytes[..length].copy_from_slice(&self.0[..length]);
        self.0 = &self.0[length..];
        Ok(length)
    }
}

#[test]
fn through_the_library() {
    for (path, expected) in vectors() {
        let events = fs::read(&path).expect("the events");
        let mut output = Vec::new();
        plain::bench::run(&events[..], &mut output).expect("no error");
        assert!(output == expected, "{} differs", path.display());
        output.clear();
        plain::bench::run(Pieces(&events, Random::new(1)), &mut output).expect("no error");
        assert!(output == expected, "{} differs in pieces", path.display());
    }
}

#[test]
fn through_the_program() {
    for (path, expected) in vectors() {
        let output = Command::new(env!("CARGO_BIN_EXE_plain-bench"))
            .stdin(Stdio::from(File::open(&path).expect("the events")))
            .output()
            .expect("the program runs");
        assert!(output.status.success());
        assert!(output.stdout == expected, "{} differs", path.display());
    }
}

#[test]
fn nothing_and_only_left_over_bytes() {
    for length in 0..32 {
        let mut output = Vec::new();
        plain::bench::run(&[0; 31][..length], &mut output).expect("no error");
        let expected = if length == 0 { String::new() } else { format!("cut {length}\n") };
        assert_eq!(String::from_utf8(output).expect("text"), expected);
    }
}
