//! Chains of gauges, from events and answers alone: a reading was written after
//! one of another gauge by another session was shown, and so on.

use std::collections::HashMap;

use plain::{Answer, code};

/// Key, source and stamp of a reading.
type Name = (u8, u8, u64);

/// Who wrote a reading, and how long the longest chain is that ends with it.
#[derive(Clone, Copy)]
struct Written {
    session: u8,
    length: usize,
}

/// Follows the chains of one list of events.
#[derive(Default)]
pub struct Chains {
    written: HashMap<Name, Written>,
    /// For each session, what it was shown since it was opened.
    shown: HashMap<u8, Vec<Name>>,
    /// How many readings were shown that end a chain of three gauges or more.
    pub of_three: u64,
}

impl Chains {
    /// Takes the next event and its answer.
    pub fn see(&mut self, event: &[u8], answer: &Answer) {
        let &[code, _, _, session, key, ..] = event else {
            return;
        };
        match (code, answer.number) {
            (code::OPEN, 0) => drop(self.shown.remove(&session)),
            (code::PUT, 0) => self.put(session, (key, answer.source, answer.stamp)),
            (code::GET | code::READ, 1) => self.show(session, (key, answer.source, answer.stamp)),
            _ => (),
        }
    }

    fn put(&mut self, session: u8, name: Name) {
        let shown = self.shown.get(&session).into_iter().flatten();
        let before = shown.filter(|other| other.0 != name.0).filter_map(|other| {
            self.written.get(other).filter(|written| written.session != session)
        });
        let length = 1 + before.map(|written| written.length).max().unwrap_or(0);
        self.written.insert(name, Written { session, length });
    }

    fn show(&mut self, session: u8, name: Name) {
        let long = self.written.get(&name).is_some_and(|written| written.length >= 3);
        self.of_three += u64::from(long);
        let shown = self.shown.entry(session).or_default();
        if !shown.contains(&name) {
            shown.push(name);
        }
    }
}
