//! What is wrong is said, with its place, and by the exit code.

use crate::support::{levels, repository, scratch};

#[test]
fn bad_lines_have_line_and_column() {
    let bad = [
        ("PUT session 0 key 4 level 12x", "27: level 12x is not a number"),
        ("PUT session 0 key 4 level", "26: level has no number"),
        (
            "PUT session 0 key 4 level 2147483648",
            "27: level 2147483648 does not fit in four bytes, -2147483648 to 2147483647",
        ),
        ("PUT session 0 key 4 quality high level 1", "29: quality high is not a number"),
        ("PUT session 0 level 1", "15: expected key, found level"),
        (
            "  PUTT session 0",
            "3: PUTT is not an event: OPEN, CLOSE, CLOCK, GET, PUT, BEGIN, READ, END, BEAT or DELIVER",
        ),
        ("OPEN session 256 site 0", "14: session 256 does not fit in one byte, 0 to 255"),
        ("OPEN session -1 site 0", "14: session -1 does not fit in one byte, 0 to 255"),
        ("OPEN session 0", "15: expected site, found the end of the line"),
        ("GET session 0 key 4 now", "21: expected the end of the line, found now"),
        ("GET\u{a0}session", "12: session has no number"),
        ("CLOCK 0;0 at 5", "7: expected a node (site,partition, such as 0,1), found 0;0"),
        ("CLOCK 0,a at 5", "9: partition a is not a number"),
        (
            "CLOCK 0,0 at 18446744073709551616",
            "14: time 18446744073709551616 does not fit in eight bytes, 0 to 18446744073709551615",
        ),
        ("CLOCK 0,0 100", "11: expected at, found 100"),
        ("BEAT ,1", "6: site has no number"),
        ("BEGIN session 0 partition 0 keys 1 2 3 4 5 6 7 8 9", "50: a page has at most 8 keys"),
        ("BEGIN session 0 partition 0 keys 1 2 x", "38: key x is not a number"),
        ("DELIVER from 0 to 1", "20: expected partition, found the end of the line"),
        ("sites 2 partitions 2", "1: sites and partitions stand once, before the first event"),
    ];
    for (line, message) in bad {
        let text = format!("# two good lines\nBEAT 0,0\n{line}\nBEAT 0,0\n");
        let path = scratch("bad.txt", text.as_bytes());
        for command in ["encode", "run", "draw"] {
            let done = levels(&[command, &path], b"");
            assert_eq!((done.code, done.errors), (Some(2), format!("{path}:3:{message}\n")));
        }
    }
}

#[test]
fn encode_writes_nothing_of_a_bad_text() {
    let out = scratch("kept.events", b"as before");
    let done = levels(&["encode", "-o", &out], b"BEAT 0,0\nBEAT\n");
    assert_eq!(done.code, Some(2));
    assert_eq!(
        done.errors,
        "standard input:2:5: expected a node (site,partition, such as 0,1), found the end of the line\n"
    );
    assert_eq!(std::fs::read(out).expect("kept"), b"as before");
}

#[test]
fn what_cannot_be_decoded_has_a_place() {
    let mut events = [0; 75];
    (events[0], events[32], events[64]) = (9, 9, 9);
    let wrong = |events: &[u8], message: &str| {
        let done = levels(&["decode"], events);
        assert_eq!((done.code, done.bytes.len()), (Some(2), 0));
        assert_eq!(done.errors, format!("standard input: {message}\n"));
    };
    wrong(&events, "event 3 at byte 64: 11 bytes are left over, an event has 32");
    events[33 + 2] = 1;
    wrong(&events, "event 2 at byte 32: a field that the event does not use is not zero");
    events[0] = 77;
    wrong(&events, "event 1 at byte 0: no event has the code 77");
    (events[0], events[7]) = (6, 9);
    wrong(&events, "event 1 at byte 0: a page has at most 8 keys, not 9");

    let text =
        String::from_utf8(levels(&["decode", "--lenient"], &events[..64]).good()).expect("text");
    let comments: Vec<&str> = text.lines().collect();
    assert!(
        comments[0]
            .starts_with("# event 1 at byte 0: a page has at most 8 keys, not 9: bytes 06 00")
    );
    assert!(comments[1].starts_with("# event 2 at byte 32: a field"));
}

#[test]
fn exit_codes() {
    let code = |arguments: &[&str]| levels(arguments, b"").code;
    assert_eq!(code(&[]), Some(2));
    assert_eq!(code(&["fly"]), Some(2));
    assert_eq!(code(&["run", "--high"]), Some(2));
    assert_eq!(code(&["run", "--sites", "5"]), Some(2));
    assert_eq!(code(&["decode", "--sites", "2"]), Some(2));
    assert_eq!(code(&["run", "/there/is/no/such.file"]), Some(1));
    assert_eq!(code(&["run", env!("CARGO_MANIFEST_DIR")]), Some(1));
    assert_eq!(code(&["draw", "-o", "/there/is/no/such.file"]), Some(1));
    assert_eq!(code(&["run"]), Some(0));
    assert_eq!(levels(&["run"], b"CLOSE session 3\n").code, Some(0));
}

#[test]
fn a_strict_run_says_whether_anything_was_refused() {
    let waits = b"OPEN session 0 site 0\nPUT session 0 key 0 level 1\n";
    let refused = b"OPEN session 0 site 0\nCLOSE session 3\nBEAT 0,9\n";
    for form in [&["run", "--strict"][..], &["run", "--strict", "--lines"]] {
        assert_eq!(levels(form, waits).code, Some(0));
        let done = levels(form, refused);
        assert_eq!((done.code, done.errors.as_str()), (Some(3), "levels: 2 events refused\n"));
        assert!(done.text().lines().count() >= 3, "all is written: {}", done.text());
    }
}

#[test]
fn a_wrong_command_line_says_where_help_is() {
    assert!(
        levels(&[], b"").errors.starts_with("levels: which command?\n\nThe level archive by hand.")
    );
    assert_eq!(
        levels(&["fly"], b"").errors,
        "levels: there is no command fly: the commands are encode, decode, run and draw; see levels --help\n"
    );
    assert_eq!(
        levels(&["draw", "--high"], b"").errors,
        "levels: draw has no option --high; see levels draw --help\n"
    );
    assert_eq!(
        levels(&["run", "--sites", "5"], b"").errors,
        "levels: 5 sites and 4 partitions are refused with 11: each is 1 to 4\n"
    );
    assert_eq!(
        levels(&["run"], b"# five\nsites 5 partitions 1\n").errors,
        "standard input:2:1: 5 sites and 1 partition are refused with 11: each is 1 to 4\n"
    );
    assert_eq!(
        levels(&["run", "/there/is/no/such.file"], b"").errors.split(':').next(),
        Some("levels")
    );
}

#[test]
fn help_for_each() {
    for command in ["encode", "decode", "run", "draw"] {
        let help = String::from_utf8(levels(&[command, "--help"], b"").good()).expect("text");
        assert!(help.starts_with(&format!("levels {command} [")), "{help}");
        assert!(help.lines().all(|line| line.chars().count() <= 88), "{help}");
        assert_eq!(levels(&["help", command], b"").text(), help);
        assert_eq!(levels(&[command, "-h"], b"").text(), help);
        let files = help.split_whitespace().filter(|word| word.contains(".events"));
        for file in files.filter(|file| file.contains('/')) {
            assert!(repository(file).is_file(), "{file}");
        }
    }
    assert_eq!(levels(&["--help"], b"").good(), levels(&["help"], b"").good());
    assert_eq!(levels(&["--version"], b"").text(), "levels 0.3.0\n");
}
