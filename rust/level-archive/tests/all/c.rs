//! The header and the C programs, compiled strictly and run: as C99 and, where
//! there is a C++ compiler, as C++.

use std::path::{Path, PathBuf};
use std::process::Command;

use level_archive::limits::*;
use level_archive::{Answer, Event, Quality, Refusal};

const LIBRARY: &str = env!("LEVEL_ARCHIVE_LIBRARY");
const C99: [&str; 2] = ["cc", "-std=c99"];
const CPP: [&str; 4] = ["g++", "-std=c++11", "-x", "c++"];

const TWO_SITES: &str = "\
set up 2 sites, 1 partition    done
the desk opens at site 0       done
the office opens at site 1     done
the desk writes too early      waits until the clock of site 0 has passed 0
the clock of site 0 moves      done
the desk writes                done
the desk reads                 1250 mm, site 0 at 100
the office reads               nothing recorded
the update arrives at site 1   done
the office reads               1250 mm, site 0 at 100
nothing more is on its way     the channel is empty
";

fn repository() -> PathBuf {
    Path::new(env!("CARGO_MANIFEST_DIR")).join("../..")
}

fn test_source(name: &str) -> PathBuf {
    Path::new(env!("CARGO_MANIFEST_DIR")).join("tests/all/c").join(name)
}

/// Compiles one source with the header and the library, and gives what it prints.
fn printed(compiler: &[&str], source: &Path, name: &str) -> String {
    let program = Path::new(env!("CARGO_TARGET_TMPDIR")).join(name);
    let compiled = Command::new(compiler[0])
        .args(&compiler[1..])
        .args(["-Wall", "-Wextra", "-Werror", "-O2", "-I"])
        .arg(repository().join("include"))
        .arg(source)
        .args((compiler == CPP).then_some(["-x", "none"]).into_iter().flatten())
        .arg(LIBRARY)
        .arg("-o")
        .arg(&program)
        .output()
        .unwrap_or_else(|error| panic!("this test needs the compiler `{}`: {error}", compiler[0]));
    let says = String::from_utf8_lossy(&compiled.stderr);
    assert!(compiled.status.success(), "{} does not compile:\n{says}", source.display());
    let run = Command::new(&program).output().expect("the program starts");
    let text = String::from_utf8_lossy(&run.stdout).into_owned();
    assert!(run.status.success(), "{name} ended with {}:\n{text}", run.status);
    text
}

fn has_cpp() -> bool {
    Command::new(CPP[0]).arg("--version").output().is_ok_and(|said| said.status.success())
}

#[test]
fn the_examples() {
    let example = |name: &str| repository().join("examples/c").join(name).with_extension("c");
    assert_eq!(printed(&C99, &example("two_sites"), "two_sites"), TWO_SITES);
    assert_eq!(printed(&C99, &example("first"), "first"), "done\n");
}

/// The C lines that the README shows stand so, indented, in examples/c/first.c.
#[test]
fn the_readme_shows_the_first_example() {
    let readme = include_str!("../../../../README.md");
    let (_, rest) = readme.split_once("```c\n").expect("C in the README");
    let (shown, _) = rest.split_once("```").expect("its end");
    let program = include_str!("../../../../examples/c/first.c").replace("\n    ", "\n");
    assert!(program.contains(shown), "README.md has other lines than examples/c/first.c:\n{shown}");
}

/// This crate's version, as text and as a number.
fn version() -> String {
    let version = env!("CARGO_PKG_VERSION");
    let part = |part: &str| part.parse::<u32>().expect("a number");
    let number = version.split('.').fold(0, |number, next| 100 * number + part(next));
    format!("{version} {number}\n")
}

/// The numbers of R60, in the header's order.
fn limits() -> String {
    let (sessions, keys) = (SESSIONS - 1, KEYS - 1);
    let counts = format!("{SITES} {PARTITIONS} {sessions} {keys} {PAGE_KEYS}");
    format!("{counts} {LAST_TIME} {LOWEST_LEVEL} {HIGHEST_LEVEL}\n")
}

/// A number in words.
fn text(number: u8) -> String {
    match (number, Refusal::try_from(number)) {
        (_, Ok(refusal)) => refusal.to_string(),
        (0, _) => Answer::Done.to_string(),
        (1, _) => String::from("a reading"),
        (2, _) => Answer::Nothing.to_string(),
        (3, _) => String::from("wait, then try again"),
        _ => String::from("no number of the archive"),
    }
}

/// A line for each number 0 to 255.
fn texts() -> String {
    (0..=255).map(|number| format!("{number} {}\n", text(number))).collect()
}

/// What answers tell a GET, a READ and a PUT: a line for each number but 3, then for
/// each of header.c's waits.
fn answer_texts() -> String {
    let waits = [(0, 0), (1, 9), (2, 10), (3, 101), (99, 999), (255, u64::MAX)];
    let events = [Event::get(0, 0), Event::read(0, 0), Event::put(0, 0, Quality::Measured, 0)];
    let lines = events.into_iter().flat_map(|event| {
        let told = waits.map(|(site, stamp)| event.told(Answer::Wait { site, stamp }).to_string());
        (0..=255).filter(|number| *number != 3).map(text).chain(told)
    });
    lines.map(|line| line + "\n").collect()
}

/// A line of bytes for each of the events that header.c writes.
fn events() -> String {
    let events = [
        Event::open(15, 3),
        Event::close(14),
        Event::clock(2, 1, 0x0102_0304_0506_0708),
        Event::get(13, 63),
        Event::put(12, 62, Quality::Estimated, -50_000),
        Event::begin(11, 3, &[7, 6, 5]).expect("three keys"),
        Event::begin(11, 3, &[1, 2, 3, 4, 5, 6, 7, 8]).expect("eight keys"),
        Event::read(10, 61),
        Event::end(9),
        Event::beat(1, 2),
        Event::deliver(3, 2, 1),
    ];
    let line = |event: &Event| event.to_bytes().map(|byte| format!("{byte:02x}")).concat() + "\n";
    events.iter().map(line).collect()
}

#[test]
fn the_header_says_what_rust_says() {
    let sizes = "16 4 8 57344 32 16\n";
    let answer = "1 3 2 -50000 281474976710655\n";
    let texts = texts() + &answer_texts();
    let expected = version() + &texts + &events() + sizes + &limits() + answer;
    assert_eq!(printed(&C99, &test_source("header.c"), "header"), expected);
    if has_cpp() {
        assert_eq!(printed(&CPP, &test_source("header.c"), "header-cpp"), expected);
    }
}

#[test]
fn damaged_input_from_c() {
    let text = printed(&C99, &test_source("boundary.c"), "boundary");
    assert!(text.ends_with(" checks, all hold\n"), "{text}");
    println!("{text}");
}
