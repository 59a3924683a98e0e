//! Events one by one, from a file or standard input, as text or as bytes.

mod bytes;
mod form;
mod lines;
mod piece;

use std::ffi::OsStr;
use std::fs::File;
use std::io::{self, BufReader, IsTerminal, Read};

use crate::failure::Failure;

pub use bytes::ByteEvents;
pub use form::Form;
pub use lines::TextEvents;
pub use piece::Piece;

/// What comes next in the input.
#[derive(Clone, Debug, PartialEq, Eq)]
pub enum Item {
    /// The line `sites 2 partitions 3`, before any event.
    Archive {
        /// Its number of sites, as it is written.
        sites: u32,
        /// Its number of partitions, as it is written.
        partitions: u32,
        /// Where it stands, for messages.
        place: String,
    },
    /// An event.
    Event(Piece),
}

/// What comes, one by one. After a wrong line the next one can be asked for.
pub type Events = Box<dyn Iterator<Item = Result<Item, Failure>>>;

/// Where events come from.
pub struct Source {
    /// Its name in messages.
    pub name: String,
    /// Whether a person types it.
    pub live: bool,
    reader: Box<dyn Read>,
}

impl Source {
    /// Any reader.
    pub fn of(name: &str, reader: impl Read + 'static) -> Source {
        Source { name: name.to_string(), live: false, reader: Box::new(reader) }
    }

    /// A file; standard input where none is named, or `-`.
    pub fn open(path: Option<&OsStr>) -> Result<Source, Failure> {
        let Some(path) = path.filter(|path| *path != "-") else {
            let live = io::stdin().is_terminal();
            return Ok(Source { live, ..Source::of("standard input", io::stdin()) });
        };
        let name = path.to_string_lossy();
        let file = File::open(path).map_err(|error| Failure::io(&name, &error))?;
        Ok(Source::of(&name, file))
    }

    /// Its events. Where the form isn't given, the beginning decides; what a
    /// person types is text.
    pub fn events(mut self, form: Option<Form>) -> Result<Events, Failure> {
        let mut beginning = Vec::new();
        let form = match form {
            Some(form) => form,
            None if self.live => Form::Text,
            None => {
                let read = self.reader.by_ref().take(form::LOOKED_AT).read_to_end(&mut beginning);
                read.map_err(|error| Failure::io(&self.name, &error))?;
                Form::of(&beginning)
            }
        };
        let reader = BufReader::new(io::Cursor::new(beginning).chain(self.reader));
        Ok(match form {
            Form::Text => Box::new(TextEvents::of(self.name, reader)),
            Form::Bytes => Box::new(ByteEvents::of(self.name, reader)),
        })
    }
}
