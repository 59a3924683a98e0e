//! Both implementations over the same events.

use std::fmt;

use level_archive::{ANSWER_BYTES, EVENT_BYTES};
use plain::{Answer, table};

use crate::subject::Subject;

/// A subject and the independent implementation in the same state.
pub struct Pair<S> {
    subject: S,
    plain: plain::Archive,
    place: usize,
}

/// Where the two differ, or where demand 3 is breached.
#[derive(Clone, PartialEq, Eq, Debug)]
pub struct Difference {
    /// The number of the event, from 1.
    pub place: usize,
    /// What differs.
    pub what: String,
}

impl fmt::Display for Difference {
    fn fmt(&self, f: &mut fmt::Formatter<'_>) -> fmt::Result {
        write!(f, "event {}: {}", self.place, self.what)
    }
}

impl<S: Subject> Pair<S> {
    /// A subject over a well-formed table, and what that table says; nothing if
    /// it isn't well formed.
    pub fn over(subject: S) -> Option<Pair<S>> {
        let plain = table::read(subject.table())?;
        Some(Pair { subject, plain, place: 0 })
    }

    /// The state, as the independent implementation has it.
    pub fn plain(&self) -> &plain::Archive {
        &self.plain
    }

    /// The subject's table.
    pub fn table(&self) -> &[u8] {
        self.subject.table()
    }

    /// The subject.
    pub fn into_subject(self) -> S {
        self.subject
    }

    /// One event of any length, with a check of the whole table.
    pub fn step(&mut self, event: &[u8]) -> Result<Answer, Difference> {
        let of_subject = self.subject.step(event);
        self.place += 1;
        let of_plain = self.plain.step(event);
        self.compare(event, &of_subject, &of_plain)?;
        Ok(of_plain)
    }

    /// Many events of 32 bytes with one check, the last one maybe shorter.
    pub fn run(&mut self, events: &[u8]) -> Result<Vec<Answer>, Difference> {
        let pieces = events.len().div_ceil(EVENT_BYTES);
        // Room for one answer more, which has to be left alone.
        let mut bytes = vec![0xa5; (pieces + 1) * ANSWER_BYTES];
        let number = self.subject.run(events, &mut bytes[..pieces * ANSWER_BYTES]);
        let mut answers = Vec::with_capacity(pieces);
        for (event, of_subject) in events.chunks(EVENT_BYTES).zip(bytes.chunks(ANSWER_BYTES)) {
            self.place += 1;
            let of_plain = self.plain.step(event);
            self.compare(event, of_subject, &of_plain)?;
            answers.push(of_plain);
        }
        if number != pieces || bytes[pieces * ANSWER_BYTES..] != [0xa5; ANSWER_BYTES] {
            return Err(self.difference(format!("run answered {number} of {pieces} events")));
        }
        Ok(answers)
    }

    /// Compares the state, and the table's kept places with the state's records.
    pub fn compare_states(&self) -> Result<(), Difference> {
        let table = self.subject.table();
        let kept = table::kept_difference(table, &self.plain);
        let differs = kept.or_else(|| match table::read(table) {
            Some(said) => table::difference(&said, &self.plain),
            None => Some("the table is no longer well formed".into()),
        });
        differs.map_or(Ok(()), |what| Err(self.difference(what)))
    }

    fn compare(&self, event: &[u8], subject: &[u8], plain: &Answer) -> Result<(), Difference> {
        if subject == plain.to_bytes() {
            return Ok(());
        }
        let subject = level_archive::Answer::try_from(subject);
        Err(self.difference(format!("{event:?} gives {subject:?}, and should give {plain:?}")))
    }

    fn difference(&self, what: String) -> Difference {
        Difference { place: self.place, what }
    }
}
