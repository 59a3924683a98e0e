//! Events as text: there and back.

use alloc::format;
use alloc::string::{String, ToString};
use core::error::Error;
use core::fmt;
use core::str::FromStr;

use crate::event::Event;
use crate::page_keys::{PageKeys, TooManyKeys};
use crate::words::Words;

impl Event {
    /// Its name in the rules.
    pub fn name(self) -> &'static str {
        match self {
            Event::Open { .. } => "OPEN",
            Event::Close { .. } => "CLOSE",
            Event::Clock { .. } => "CLOCK",
            Event::Get { .. } => "GET",
            Event::Put { .. } => "PUT",
            Event::Begin { .. } => "BEGIN",
            Event::Read { .. } => "READ",
            Event::End { .. } => "END",
            Event::Beat { .. } => "BEAT",
            Event::Deliver { .. } => "DELIVER",
        }
    }
}

impl fmt::Display for Event {
    /// A line of words and numbers; a quality of 0 is left out.
    fn fmt(&self, f: &mut fmt::Formatter<'_>) -> fmt::Result {
        f.write_str(self.name())?;
        match *self {
            Event::Open { session, site } => write!(f, " session {session} site {site}"),
            Event::Close { session } | Event::End { session } => write!(f, " session {session}"),
            Event::Clock { site, partition, time } => write!(f, " {site},{partition} at {time}"),
            Event::Get { session, key } | Event::Read { session, key } => {
                write!(f, " session {session} key {key}")
            }
            Event::Put { session, key, quality: 0, level } => {
                write!(f, " session {session} key {key} level {level}")
            }
            Event::Put { session, key, quality, level } => {
                write!(f, " session {session} key {key} quality {quality} level {level}")
            }
            Event::Begin { session, partition, keys } => {
                write!(f, " session {session} partition {partition} keys")?;
                keys.as_slice().iter().try_for_each(|key| write!(f, " {key}"))
            }
            Event::Beat { site, partition } => write!(f, " {site},{partition}"),
            Event::Deliver { from, site, partition } => {
                write!(f, " from {from} to {site} partition {partition}")
            }
        }
    }
}

impl FromStr for Event {
    type Err = ParseEventError;

    /// The event of a text that [`to_string`](ToString::to_string) gives. Names may be
    /// in any case, there may be more blanks, and a minus sign may be `-` or `−`. A
    /// number need only fit its field's bytes: what is out of range the archive refuses.
    ///
    /// ```
    /// use level_archive::Event;
    ///
    /// assert_eq!("GET session 1 key 5".parse(), Ok(Event::get(1, 5)));
    /// let error = "GET session 1 key five".parse::<Event>().unwrap_err();
    /// assert_eq!(error.to_string(), "key five is not a number (character 19)");
    /// ```
    fn from_str(text: &str) -> Result<Event, ParseEventError> {
        let words = &mut Words::of(text);
        let event = event(words)?;
        words.end()?;
        Ok(event)
    }
}

fn event(words: &mut Words) -> Result<Event, ParseEventError> {
    let name = words.word();
    Ok(match name.text.to_ascii_uppercase().as_str() {
        "OPEN" => Event::Open { session: words.field("session")?, site: words.field("site")? },
        "CLOSE" => Event::Close { session: words.field("session")? },
        "CLOCK" => {
            let (site, partition) = words.node()?;
            words.expect("at")?;
            Event::Clock { site, partition, time: words.word().number("time")? }
        }
        "GET" => Event::Get { session: words.field("session")?, key: words.field("key")? },
        "PUT" => Event::Put {
            session: words.field("session")?,
            key: words.field("key")?,
            quality: if words.next_is("quality") { words.field("quality")? } else { 0 },
            level: words.field("level")?,
        },
        "BEGIN" => Event::Begin {
            session: words.field("session")?,
            partition: words.field("partition")?,
            keys: keys(words)?,
        },
        "READ" => Event::Read { session: words.field("session")?, key: words.field("key")? },
        "END" => Event::End { session: words.field("session")? },
        "BEAT" => {
            let (site, partition) = words.node()?;
            Event::Beat { site, partition }
        }
        "DELIVER" => Event::Deliver {
            from: words.field("from")?,
            site: words.field("to")?,
            partition: words.field("partition")?,
        },
        "" => return Err(name.instead_of("an event")),
        _ => {
            let names = "OPEN, CLOSE, CLOCK, GET, PUT, BEGIN, READ, END, BEAT or DELIVER";
            return Err(name.error(format!("{name} is not an event: {names}")));
        }
    })
}

/// Any number of keys up to 8; how many a page must have is the archive's to say.
fn keys(words: &mut Words) -> Result<PageKeys, ParseEventError> {
    words.expect("keys")?;
    let mut keys = PageKeys::default();
    while !words.next_is("") {
        let word = words.word();
        keys = keys
            .and(word.number("key")?)
            .map_err(|TooManyKeys| word.error(TooManyKeys.to_string()))?;
    }
    Ok(keys)
}

/// What is wrong with an event's text, and where.
#[derive(Clone, Debug, PartialEq, Eq, Hash)]
pub struct ParseEventError {
    /// The character at which it is, from 1.
    pub column: usize,
    /// What is wrong, in words.
    pub message: String,
}

impl fmt::Display for ParseEventError {
    fn fmt(&self, f: &mut fmt::Formatter<'_>) -> fmt::Result {
        write!(f, "{} (character {})", self.message, self.column)
    }
}

impl Error for ParseEventError {}
