//! `levels run --lines`: the bench's lines, for any archive, as scripts compare them.
//! All events are read before a line is written.

use level_archive::{Answer, EVENT_BYTES};

use super::archive;
use super::options::Options;
use super::output::Output;
use crate::failure::Failure;
use crate::input::{Item, Source};

/// For each event its place from 1, its code and the answer's five values; of bytes
/// that are left over, their number.
pub fn lines(options: &Options) -> Result<(), Failure> {
    let mut archive = archive::usual(options)?;
    let mut events = Vec::new();
    for item in Source::open(options.input.as_deref())?.events(options.form)? {
        match item? {
            Item::Archive { sites, partitions, place } => {
                archive = archive::of_line(options, sites, partitions, &place)?;
            }
            Item::Event(piece) => events.extend_from_slice(piece.bytes()),
        }
    }
    let answers = archive.run_bytes(&events);
    let mut output = Output::open(options.output.as_deref())?;
    for (place, (event, answer)) in (1..).zip(events.chunks(EVENT_BYTES).zip(&answers)) {
        match event.len() {
            EVENT_BYTES => {
                output.line(format_args!("{place} {} {}", event[0], answer.values()))?;
            }
            left => output.line(format_args!("cut {left}"))?,
        }
    }
    output.finish()?;
    let refused = answers.iter().filter(|answer| matches!(answer, Answer::Refused(_)));
    options.allow(refused.count() as u64)
}
