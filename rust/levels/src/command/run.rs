//! `levels run`: what happened, in plain words, while it happens.

use std::io::{self, Write};

use super::archive;
use super::lines::lines;
use super::options::Options;
use super::output::Output;
use crate::failure::Failure;
use crate::input::{Item, Source};
use crate::story::Story;
use crate::words::{Sentence, Summary, on_the_way};

/// A sentence for each event, and what is to be said at the end.
pub fn run(options: &Options) -> Result<(), Failure> {
    if options.lines {
        return lines(options);
    }
    let mut story = Story::of(archive::usual(options)?);
    let mut summary = Summary::default();
    let source = Source::open(options.input.as_deref())?;
    let live = source.live;
    let mut output = Output::open(options.output.as_deref())?;
    for item in source.events(options.form)? {
        match item {
            Ok(Item::Archive { sites, partitions, place }) => {
                story = Story::of(archive::of_line(options, sites, partitions, &place)?);
            }
            Ok(Item::Event(piece)) => {
                let happening = story.step(piece);
                summary.count(happening.answer);
                output.line(format_args!("{:>4}  {}", happening.number, Sentence(&happening)))?;
            }
            // a person who types may try again
            Err(Failure::Input(message)) if live => {
                let _ = writeln!(io::stderr(), "{message}");
            }
            Err(failure) => {
                output.finish()?;
                return Err(failure);
            }
        }
        if live {
            output.finish()?;
        }
    }
    end(&story, &summary, &mut output)?;
    options.allow(summary.refused)
}

/// The last lines, after a blank one.
fn end(story: &Story, summary: &Summary, output: &mut Output) -> Result<(), Failure> {
    output.line("")?;
    output.line(summary)?;
    for channel in story.view().iter().flat_map(on_the_way) {
        output.line(channel)?;
    }
    output.finish()
}
