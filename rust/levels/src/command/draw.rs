//! `levels draw`: a run as a picture.

use super::archive;
use super::options::Options;
use super::output::Output;
use crate::draw::{MOST_EVENTS, picture};
use crate::failure::Failure;
use crate::input::{Item, Source};
use crate::story::Story;

/// The picture of a run.
pub fn draw(options: &Options) -> Result<(), Failure> {
    let mut story = Story::of(archive::usual(options)?);
    let mut happenings = Vec::new();
    let source = Source::open(options.input.as_deref())?;
    let name = source.name.clone();
    for item in source.events(options.form)? {
        match item? {
            Item::Archive { sites, partitions, place } => {
                story = Story::of(archive::of_line(options, sites, partitions, &place)?);
            }
            Item::Event(_) if happenings.len() == MOST_EVENTS => {
                let most = "a picture shows at most";
                return Err(Failure::Input(format!(
                    "{name}: {most} {MOST_EVENTS} events, and there are more"
                )));
            }
            Item::Event(piece) => happenings.push(story.step(piece)),
        }
    }
    let mut output = Output::open(options.output.as_deref())?;
    output.write(picture(&happenings).as_bytes())?;
    output.finish()
}
