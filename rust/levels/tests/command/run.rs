//! What happened, in plain words.

use std::io::Read;
use std::process::{Command, Stdio};

use crate::support::{levels, read, scratch, vectors};

#[test]
fn document_01_in_plain_words() {
    let expected = String::from_utf8(read("rust/levels/tests/document-01.run")).expect("text");
    let text = read("rust/levels/tests/document-01.txt");
    assert_eq!(levels(&["run"], &text).text(), expected);
    let bytes = read("vectors/01/document-01.events");
    assert_eq!(levels(&["run"], &bytes).text(), expected);
    assert_eq!(levels(&["run", "--bytes"], &bytes).text(), expected);
}

#[test]
fn the_example_in_plain_words() {
    let expected = String::from_utf8(read("rust/levels/tests/example.run")).expect("text");
    assert_eq!(levels(&["run"], &read("docs/example.events.txt")).text(), expected);
}

#[test]
fn every_answer_of_every_event_file() {
    for (bytes, out) in vectors() {
        let text = String::from_utf8(levels(&["run", "--bytes"], &bytes).good()).expect("text");
        let (lines, end) = text.split_once("\n\n").expect("a blank line");
        let mut answered = 0;
        for (line, bench) in lines.lines().zip(out.lines().filter(|line| !line.starts_with("cut")))
        {
            answered += 1;
            let values: Vec<&str> = bench.split(' ').collect();
            assert!(line.trim_start().starts_with(&format!("{}  ", values[0])), "{line}");
            let (level, stamp, source) = (values[5], values[6], values[3]);
            let says = match values[2] {
                "0" if stamp != "0" => format!("is written at node {source},"),
                "0" => String::new(),
                "1" => format!("shows {level} mm, "),
                "2" => "shows nothing: ".to_string(),
                "3" if values[1] == "5" => format!(" until its clock has passed {stamp}"),
                "3" => format!(" for site {source} up to {stamp}"),
                number => format!("is refused with {number}: "),
            };
            assert!(line.contains(&says), "{line}\n{bench}");
            let from = format!("with stamp {stamp} of site {source}");
            assert!(values[2] != "1" || line.ends_with(&from), "{line}\n{bench}");
            let cause = line.contains(" waits at node ") && line.ends_with(&says);
            assert!(values[2] != "3" || cause, "{line}\n{bench}");
        }
        assert_eq!(answered, bytes.len() / 32);
        assert!(end.starts_with(&format!("{} event", bytes.len().div_ceil(32))), "{end}");
    }
}

#[test]
fn waits_name_what_they_need() {
    let text = "sites 3 partitions 1
        OPEN session 0 site 0
        OPEN session 1 site 1
        OPEN session 2 site 2
        CLOCK 0,0 at 10\nCLOCK 1,0 at 7\nCLOCK 2,0 at 3
        PUT session 0 key 1 level 1\nPUT session 1 key 2 level 2
        DELIVER from 0 to 1 partition 0
        GET session 1 key 1
        BEGIN session 1 partition 0 keys 1 2
        CLOCK 1,0 at 20
        PUT session 1 key 1 level 3
        READ session 1 key 1\nREAD session 1 key 1\nREAD session 1 key 9\nEND session 1
        READ session 1 key 2\nEND session 1
        PUT session 1 key 1 level 3
        DELIVER from 0 to 2 partition 0
        DELIVER from 1 to 2 partition 0\nDELIVER from 1 to 2 partition 0
        GET session 2 key 1
        PUT session 2 key 1 level 4
        CLOCK 2,0 at 2
        BEAT 1,0\nBEAT 2,0\nCLOSE session 2\nCLOSE session 2";
    let text = levels(&["run"], text.as_bytes()).text();
    for expected in [
        "BEGIN session 1 partition 0 keys 1 2 opens a page as of [10, 7, 0]",
        "PUT session 1 key 1 level 3 is refused with 14: a page is open",
        "READ session 1 key 1 is refused with 16: the key is not on the page, or was already read (it was already read)",
        "READ session 1 key 9 is refused with 16: the key is not on the page, or was already read (it is not on the page)",
        "END session 1 is refused with 18: a key of the page is unread (key 2)",
        "END session 1 closes the page, and the session has seen [10, 7, 0]",
        "PUT session 2 key 1 level 4 waits at node 2,0 until its clock has passed 20",
        "CLOCK 2,0 at 2 is refused with 19: the time is before the clock, which is 3",
        "BEAT 1,0 sends nothing: its clock has not passed 20",
        "BEAT 2,0 sends stamp 3 to sites 0 and 1",
        "CLOSE session 2 is done",
        "CLOSE session 2 is refused with 12: the session is not open",
        "1 message on the way from 2 to 1 partition 0",
    ] {
        assert!(text.contains(expected), "{expected}\n{text}");
    }
}

#[test]
fn a_read_waits_for_its_page() {
    let text = "sites 2 partitions 2
        OPEN session 0 site 0\nOPEN session 1 site 1
        CLOCK 0,0 at 5\nPUT session 0 key 0 level 1\nDELIVER from 0 to 1 partition 0
        CLOCK 1,0 at 6\nBEAT 1,0
        BEGIN session 1 partition 0 keys 0 1
        READ session 1 key 1
        CLOCK 0,1 at 5\nBEAT 0,1\nDELIVER from 0 to 1 partition 1
        READ session 1 key 1\nCLOSE session 1";
    let text = levels(&["run"], text.as_bytes()).text();
    // The node has heard too little of both sites; the second READ names the session's own.
    for expected in [
        "   9  READ session 1 key 1 waits at node 1,1 for site 0 up to 5\n",
        "  13  READ session 1 key 1 waits at node 1,1 for site 1 up to 6\n",
        "CLOSE session 1 is done, and its open page ends\n",
    ] {
        assert!(text.contains(expected), "{expected}\n{text}");
    }
}

#[test]
fn full_channels_are_named() {
    let mut text = "sites 3 partitions 1\nOPEN session 0 site 0\n".to_string();
    for time in 1..=9 {
        text += &format!(
            "CLOCK 0,0 at {time}\nPUT session 0 key 0 level {time}\nDELIVER from 0 to 2 partition 0\n"
        );
    }
    let text = levels(&["run"], text.as_bytes()).text();
    assert!(
        text.contains("is refused with 21: an outgoing channel holds 8 messages (to site 1)"),
        "{text}"
    );
}

#[test]
fn options_go_before_the_texts_own_line() {
    let beat = |options: &[&str]| {
        let arguments = [&["run"], options].concat();
        levels(&arguments, b"sites 2 partitions 1\nCLOCK 0,0 at 1\nBEAT 0,0\n").text()
    };
    assert!(beat(&[]).contains("sends stamp 1 to site 1\n"));
    assert!(beat(&["--sites", "3"]).contains("sends stamp 1 to sites 1 and 2\n"));
    assert!(
        beat(&["--sites=1"]).contains("is done with stamp 1, and there is no other site to tell\n")
    );
}

#[test]
fn bytes_that_say_no_event_are_run_too() {
    let mut bytes = [0; 40];
    bytes[0] = 99;
    let text = levels(&["run"], &bytes).text();
    assert!(text.contains(" 00 is refused with 10: the event's code is not 1 to 10\n"), "{text}");
    assert!(text.contains("event 00 00 00 00 00 00 00 00 is refused with 23: "), "{text}");
}

#[test]
fn a_closed_pipe_ends_it_quietly() {
    let text = "BEAT 0,0\n".repeat(100_000);
    let path = scratch("long.txt", text.as_bytes());
    let mut child = Command::new(env!("CARGO_BIN_EXE_levels"))
        .args(["run", &path])
        .stdout(Stdio::piped())
        .stderr(Stdio::piped())
        .spawn()
        .expect("the command starts");
    drop(child.stdout.take());
    let mut errors = String::new();
    child.stderr.take().expect("standard error").read_to_string(&mut errors).expect("text");
    assert_eq!((child.wait().expect("it ends").code(), errors.as_str()), (Some(0), ""));
}
