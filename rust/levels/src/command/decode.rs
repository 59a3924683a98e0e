//! `levels decode`: bytes to text. All of the bytes are read before a line is
//! written.

use level_archive::{EVENT_BYTES, EventError};

use super::options::Options;
use super::output::Output;
use crate::failure::Failure;
use crate::input::{Form, Item, Piece, Source};

/// Bytes to text.
pub fn decode(options: &Options) -> Result<(), Failure> {
    let source = Source::open(options.input.as_deref())?;
    let name = source.name.clone();
    let mut lines = String::new();
    for (before, item) in source.events(Some(Form::Bytes))?.enumerate() {
        let Item::Event(piece) = item? else { continue };
        match piece.event() {
            Ok(event) => lines.push_str(&event.to_string()),
            Err(error) => {
                let fault = fault(before, &piece, error);
                if !options.lenient {
                    return Err(Failure::Input(format!("{name}: {fault}")));
                }
                lines.push_str(&format!("# {fault}: bytes{}", piece.hex()));
            }
        }
        lines.push('\n');
    }
    let mut output = Output::open(options.output.as_deref())?;
    output.write(lines.as_bytes())?;
    output.finish()
}

/// Why a piece can't be written as text, and where it stands.
fn fault(before: usize, piece: &Piece, error: EventError) -> String {
    let (number, offset) = (before + 1, before * EVENT_BYTES);
    let what = match error {
        EventError::WrongLength => {
            format!("{} bytes are left over, an event has {EVENT_BYTES}", piece.bytes().len())
        }
        other => other.to_string(),
    };
    format!("event {number} at byte {offset}: {what}")
}
