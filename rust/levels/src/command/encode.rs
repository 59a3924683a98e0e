//! `levels encode`: text to bytes. All of the text is read before a byte is written,
//! so a wrong line leaves no half of a file.

use std::io::{self, Write};

use super::options::Options;
use super::output::Output;
use crate::failure::Failure;
use crate::input::{Form, Item, Source};

/// Text to bytes.
pub fn encode(options: &Options) -> Result<(), Failure> {
    let source = Source::open(options.input.as_deref())?;
    let mut bytes = Vec::new();
    for item in source.events(Some(Form::Text))? {
        match item? {
            Item::Event(piece) => bytes.extend_from_slice(piece.bytes()),
            Item::Archive { sites, partitions, place } => {
                let note = "event bytes do not keep the archive's numbers; to run them, say";
                let _ = writeln!(
                    io::stderr(),
                    "{place}: note: {note} --sites {sites} --partitions {partitions}"
                );
            }
        }
    }
    let mut output = Output::open(options.output.as_deref())?;
    output.write(&bytes)?;
    output.finish()
}
