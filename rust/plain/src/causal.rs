//! Watches events and their answers for a breach of causality.
//!
//! A session's past is each record it wrote, was shown by GET or on a finished
//! page since it was opened, with the past each writer had at that write.
//! Every served read has to show a record of its key no older than any of that
//! key in the reader's past, and in the past of the other records on the same
//! page; nothing recorded only if those pasts hold none.
//!
//! Pasts are worked out from the events and answers alone. Of a past only the
//! newest record of each key matters, so one age for each key is kept.

mod violation;

use crate::answer::Answer;
use crate::event::code;
use crate::limits::{EVENT_BYTES, KEYS, LAST_TIME, PAGE_KEYS, SESSIONS};

pub use violation::{Breach, Violation};

/// How new a record is: 256 times its stamp plus its site; 0 is no record.
/// (A stamp is never 0: a PUT's clock is above the session's vector.)
type Age = u64;

/// The newest record of each key in a past.
type Past = [Age; KEYS];

const EMPTY: Past = [0; KEYS];

/// Adds one past to another.
#[inline]
fn join(past: &mut Past, other: &Past) {
    for (age, with) in past.iter_mut().zip(other) {
        *age = (*age).max(*with);
    }
}

/// A record that was written, with its writer's past at that write.
struct Written {
    age: Age,
    level: i32,
    quality: u8,
    past: Past,
}

/// A page: what was shown on it so far.
#[derive(Clone, Copy)]
struct Page {
    shown: [(usize, Age); PAGE_KEYS],
    length: usize,
    past: Past,
}

const NO_PAGE: Page = Page { shown: [(0, 0); PAGE_KEYS], length: 0, past: EMPTY };

/// Watches one list of events on a fresh table.
pub struct Observer {
    place: u64,
    first: Option<Violation>,
    written: Vec<Vec<Written>>,
    pasts: [Past; SESSIONS],
    pages: [Page; SESSIONS],
}

impl Default for Observer {
    fn default() -> Observer {
        Observer::new()
    }
}

impl Observer {
    /// An observer of a fresh table.
    pub fn new() -> Observer {
        Observer {
            place: 0,
            first: None,
            written: (0..KEYS).map(|_| Vec::new()).collect(),
            pasts: [EMPTY; SESSIONS],
            pages: [NO_PAGE; SESSIONS],
        }
    }

    /// The first violation seen so far.
    pub fn first(&self) -> Option<Violation> {
        self.first
    }

    /// Takes the next event and its answer. Gives the first violation once
    /// there is one, and looks no further then.
    pub fn see(&mut self, event: &[u8], answer: &Answer) -> Result<(), Violation> {
        if self.first.is_none() {
            self.place += 1;
            self.first = self.look(event, answer).err();
        }
        self.first.map_or(Ok(()), Err)
    }

    fn look(&mut self, event: &[u8], answer: &Answer) -> Result<(), Violation> {
        if answer.number > 2 {
            return Ok(());
        }
        let known = event.len() == EVENT_BYTES
            && (event[3] as usize) < SESSIONS
            && (event[4] as usize) < KEYS;
        if !known {
            return Err(self.violation(Breach::NoSuchEvent, 0, 0, 0));
        }
        let (session, key) = (event[3] as usize, event[4] as usize);
        match (event[0], answer.number) {
            (code::OPEN, 0) => self.pasts[session] = EMPTY,
            (code::PUT, 0) => self.put(session, key, event, answer),
            (code::BEGIN, 0) => self.pages[session] = NO_PAGE,
            (code::END, 0) => self.end(session),
            (code::GET, 1 | 2) => return self.get(session, key, answer),
            (code::READ, 1 | 2) => return self.read(session, key, answer),
            _ => (),
        }
        Ok(())
    }

    fn put(&mut self, session: usize, key: usize, event: &[u8], answer: &Answer) {
        let age = age(answer);
        let level = [event[16], event[17], event[18], event[19]];
        self.written[key].push(Written {
            age,
            level: i32::from_le_bytes(level),
            quality: event[5],
            past: self.pasts[session],
        });
        let newest = &mut self.pasts[session][key];
        *newest = age.max(*newest);
    }

    fn get(&mut self, session: usize, key: usize, answer: &Answer) -> Result<(), Violation> {
        let shown = age(answer);
        let owed = self.pasts[session][key];
        if shown < owed {
            return Err(self.violation(Breach::OlderThanPast, key, shown, owed));
        }
        if answer.number == 1 {
            let place = self.find(key, answer)?;
            let past = &mut self.pasts[session];
            join(past, &self.written[key][place].past);
            past[key] = past[key].max(shown);
        }
        Ok(())
    }

    fn read(&mut self, session: usize, key: usize, answer: &Answer) -> Result<(), Violation> {
        let shown = age(answer);
        let page = &self.pages[session];
        let (past, beside) = (self.pasts[session][key], page.past[key]);
        if shown < past {
            return Err(self.violation(Breach::OlderThanPast, key, shown, past));
        }
        if shown < beside {
            return Err(self.violation(Breach::OlderThanPage, key, shown, beside));
        }
        let mut past = &EMPTY;
        if answer.number == 1 {
            past = &self.written[key][self.find(key, answer)?].past;
        }
        for &(other, before) in &page.shown[..page.length] {
            if before < past[other] {
                return Err(self.violation(Breach::OlderThanPage, other, before, past[other]));
            }
        }
        self.pages[session].add(key, shown, past);
        Ok(())
    }

    fn end(&mut self, session: usize) {
        let page = &self.pages[session];
        let past = &mut self.pasts[session];
        join(past, &page.past);
        for &(key, shown) in &page.shown[..page.length] {
            past[key] = past[key].max(shown);
        }
    }

    /// The place among a key's written records of the one an answer shows.
    fn find(&self, key: usize, answer: &Answer) -> Result<usize, Violation> {
        let age = age(answer);
        let alike = |written: &Written| {
            written.age == age
                && written.level == answer.level
                && written.quality == answer.quality
                && answer.stamp <= LAST_TIME
        };
        let place = self.written[key].iter().rposition(alike);
        place.ok_or_else(|| self.violation(Breach::NeverWritten, key, age, 0))
    }

    fn violation(&self, breach: Breach, key: usize, shown: Age, owed: Age) -> Violation {
        let apart = |age: Age| (age != 0).then_some((age >> 8, age as u8));
        let (shown, owed) = (apart(shown), apart(owed));
        Violation { place: self.place, breach, key: key as u8, shown, owed }
    }
}

impl Page {
    /// Adds a read to the page: what it showed, and that record's past.
    fn add(&mut self, key: usize, shown: Age, past: &Past) {
        if self.length < PAGE_KEYS {
            self.shown[self.length] = (key, shown);
            self.length += 1;
        }
        join(&mut self.past, past);
    }
}

/// The age of what an answer tells of; 0 when it shows nothing.
#[inline]
fn age(answer: &Answer) -> Age {
    match answer.number {
        2 => 0,
        _ => answer.stamp << 8 | u64::from(answer.source),
    }
}
