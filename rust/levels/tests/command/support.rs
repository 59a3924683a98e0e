//! The built command, and the files that it is tried on.

use std::fs;
use std::io::Write;
use std::path::{Path, PathBuf};
use std::process::{Command, Output, Stdio};
use std::thread;

/// What the command did.
#[derive(Debug)]
pub struct Done {
    /// Its exit code; none if a signal ended it.
    pub code: Option<i32>,
    /// Its standard output.
    pub bytes: Vec<u8>,
    /// Its standard error.
    pub errors: String,
}

impl Done {
    /// Its standard output as text.
    pub fn text(&self) -> String {
        String::from_utf8(self.bytes.clone()).expect("text")
    }

    /// Its standard output, if all went well.
    pub fn good(self) -> Vec<u8> {
        assert_eq!((self.code, self.errors.as_str()), (Some(0), ""));
        self.bytes
    }
}

/// `levels` with these arguments and this standard input.
pub fn levels(arguments: &[&str], input: &[u8]) -> Done {
    let mut child = Command::new(env!("CARGO_BIN_EXE_levels"))
        .args(arguments)
        .stdin(Stdio::piped())
        .stdout(Stdio::piped())
        .stderr(Stdio::piped())
        .spawn()
        .expect("the command starts");
    let mut stdin = child.stdin.take().expect("standard input");
    let input = input.to_vec();
    // it may end before it has read everything
    let feeding = thread::spawn(move || stdin.write_all(&input).is_ok());
    let Output { status, stdout, stderr } = child.wait_with_output().expect("the command ends");
    feeding.join().expect("fed");
    let errors = String::from_utf8(stderr).expect("text");
    Done { code: status.code(), bytes: stdout, errors }
}

/// A file of the repository.
pub fn repository(path: &str) -> PathBuf {
    Path::new(env!("CARGO_MANIFEST_DIR")).join("../..").join(path)
}

/// A file of the repository, read.
pub fn read(path: &str) -> Vec<u8> {
    let path = repository(path);
    fs::read(&path).unwrap_or_else(|error| panic!("{}: {error}", path.display()))
}

/// The event files, each with the lines that the bench gives it.
pub fn vectors() -> Vec<(Vec<u8>, String)> {
    let folder = fs::read_dir(repository("vectors/01")).expect("vectors/01");
    let mut names: Vec<String> = folder
        .map(|entry| entry.expect("an entry").file_name().into_string().expect("a name"))
        .filter_map(|name| name.strip_suffix(".events").map(str::to_string))
        .collect();
    names.sort();
    assert!(names.len() >= 8);
    let file = |name: &String, end: &str| read(&format!("vectors/01/{name}.{end}"));
    let pair = |name| (file(name, "events"), String::from_utf8(file(name, "out")).expect("text"));
    names.iter().map(pair).collect()
}

/// A file for this test alone.
pub fn scratch(name: &str, content: &[u8]) -> String {
    let path = Path::new(env!("CARGO_TARGET_TMPDIR")).join(name);
    fs::write(&path, content).expect("a scratch file");
    path.to_str().expect("a name").to_string()
}

/// Numbers that look like chance, always the same: a linear congruence.
pub struct Chance(pub u64);

impl Chance {
    /// A number below `bound`.
    pub fn below(&mut self, bound: u64) -> u64 {
        self.0 = self.0.wrapping_mul(6364136223846793005).wrapping_add(1442695040888963407);
        (self.0 >> 33) % bound
    }
}
