//! The bench: events from an input into an archive of 4 sites and 4
//! partitions, one line for each to an output.

use std::io::{self, Read, Write};

use crate::archive::Archive;
use crate::lines::Lines;
use crate::reader::Reader;

/// Runs the bench program from `input` to `output`.
pub fn run(input: impl Read, output: impl Write) -> io::Result<()> {
    let mut archive = Archive::new(4, 4).expect("4 and 4 are lawful");
    let mut reader = Reader::new(input);
    let mut lines = Lines::new(output);
    let mut place = 0;
    while let Some(event) = reader.next_event()? {
        place += 1;
        lines.line(place, event[0], &archive.step(event))?;
    }
    if reader.left() > 0 {
        lines.cut(reader.left())?;
    }
    lines.finish()
}
