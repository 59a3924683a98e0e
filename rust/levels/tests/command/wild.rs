//! Whatever comes in, the command ends with an answer.

use crate::support::{Chance, levels};
use crate::xml::well_formed;
use level_archive::Event;

/// Words that come near to events.
const WORDS: [&str; 30] = [
    "OPEN",
    "CLOSE",
    "CLOCK",
    "GET",
    "PUT",
    "BEGIN",
    "READ",
    "END",
    "BEAT",
    "DELIVER",
    "session",
    "site",
    "key",
    "quality",
    "level",
    "partition",
    "keys",
    "from",
    "to",
    "at",
    "sites",
    "partitions",
    "0",
    "3",
    "0,1",
    "-5",
    "−7",
    "99999999999",
    "#",
    "é,\u{0}",
];

fn line(chance: &mut Chance) -> String {
    let words: Vec<&str> =
        (0..chance.below(9)).map(|_| WORDS[chance.below(WORDS.len() as u64) as usize]).collect();
    words.join(["", " ", "  ", "\t"][chance.below(4) as usize])
}

#[test]
fn lines_of_words() {
    let mut chance = Chance(1);
    for _ in 0..200_000 {
        let line = line(&mut chance);
        if let Err(error) = line.parse::<Event>() {
            assert!((1..=line.chars().count() + 1).contains(&error.column), "{line:?} {error:?}");
        }
    }
}

#[test]
fn wild_bytes_and_wild_text() {
    let mut chance = Chance(2);
    for round in 0..40 {
        let length = chance.below(3000) as usize;
        let input: Vec<u8> = match round % 3 {
            0 => (0..length).map(|_| chance.below(256) as u8).collect(),
            1 => (0..length)
                .map(|_| chance.below(11) as u8 * u8::from(chance.below(3) == 0))
                .collect(),
            _ => (0..length / 20).flat_map(|_| (line(&mut chance) + "\n").into_bytes()).collect(),
        };
        for arguments in [
            &["encode"][..],
            &["decode"],
            &["decode", "--lenient"],
            &["run"],
            &["run", "--text"],
            &["run", "--bytes"],
        ] {
            let done = levels(arguments, &input);
            assert!(matches!(done.code, Some(0 | 2)), "{arguments:?} {done:?}");
        }
        let done = levels(&["draw", "--bytes"], &input);
        assert_eq!((done.code, well_formed(&done.text())), (Some(0), Ok(())));
    }
}
