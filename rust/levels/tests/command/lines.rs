//! The bench's lines.

use crate::support::{levels, read, vectors};
use level_archive::Event;

#[test]
fn every_event_file_gives_its_lines() {
    for (bytes, out) in vectors() {
        assert!(levels(&["run", "--lines", "--bytes"], &bytes).text() == out);
    }
}

#[test]
fn text_gives_the_lines_of_its_bytes() {
    let text = read("rust/levels/tests/document-01.txt");
    let out = String::from_utf8(read("vectors/01/document-01.out")).expect("text");
    assert_eq!(levels(&["run", "--lines"], &text).text(), out);
    for (bytes, _) in vectors() {
        let good = bytes.chunks(32).filter(|piece| Event::try_from(*piece).is_ok());
        let good = good.collect::<Vec<_>>().concat();
        let text = levels(&["decode"], &good).good();
        let run = |input: &[u8]| levels(&["run", "--lines", "--sites=3"], input).text();
        assert!(run(&text) == run(&good));
    }
}

/// What the other implementation gives in an archive of these numbers.
fn expected(bytes: &[u8], sites: usize, partitions: usize) -> String {
    let mut archive = plain::Archive::new(sites, partitions).expect("1 to 4");
    let line = |(place, event): (usize, &[u8])| {
        let plain::Answer { number, source, quality, level, stamp } = archive.step(event);
        match event {
            [code, rest @ ..] if rest.len() == 31 => {
                format!("{place} {code} {number} {source} {quality} {level} {stamp}\n")
            }
            left => format!("cut {}\n", left.len()),
        }
    };
    (1..).zip(bytes.chunks(32)).map(line).collect()
}

#[test]
fn archives_of_all_numbers() {
    for (bytes, _) in vectors() {
        for (sites, partitions) in (1..=4).flat_map(|sites| (1..=4).map(move |p| (sites, p))) {
            let (s, p) = (sites.to_string(), partitions.to_string());
            let arguments = ["run", "--lines", "--bytes", "--sites", &s, "--partitions", &p];
            let lines = levels(&arguments, &bytes).text();
            assert!(lines == expected(&bytes, sites, partitions), "{sites} {partitions}");
        }
    }
}

#[test]
fn nothing_is_written_of_a_bad_text() {
    for text in ["BEAT 0,0\nBEAT\n", "sites 5 partitions 1\nBEAT 0,0\n"] {
        let done = levels(&["run", "--lines"], text.as_bytes());
        assert_eq!((done.code, done.text().as_str()), (Some(2), ""));
        assert!(done.errors.starts_with("standard input:"), "{}", done.errors);
    }
    let done = levels(&["run", "--lines", "--partitions", "0"], b"BEAT 0,0\n");
    assert_eq!((done.code, done.text().as_str()), (Some(2), ""));
}
