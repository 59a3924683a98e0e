//! What the observer reports.

/// What a read did that it must not.
#[derive(Clone, Copy, PartialEq, Eq, Debug)]
pub enum Breach {
    /// It showed something older than the reader's past holds.
    OlderThanPast,
    /// It showed something older than the past of another record on the page
    /// holds; the key named is the one shown too old.
    OlderThanPage,
    /// It showed a record that no PUT of that key made.
    NeverWritten,
    /// It was done or served though the bytes name no session or no key.
    NoSuchEvent,
}

/// The first breach in a list of events.
#[derive(Clone, Copy, PartialEq, Eq, Debug)]
pub struct Violation {
    /// The place of the event, from 1.
    pub place: u64,
    /// What was breached.
    pub breach: Breach,
    /// The key that was shown wrongly.
    pub key: u8,
    /// Stamp and site of the record shown; nothing if none was.
    pub shown: Option<(u64, u8)>,
    /// Stamp and site of the record that had to be shown, or one newer.
    pub owed: Option<(u64, u8)>,
}
