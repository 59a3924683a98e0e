//! What is compared with the independent implementation: the core, or the core
//! with a fault that the comparison has to catch.

use level_archive::{ANSWER_BYTES, Archive};

/// An answer as its 16 bytes.
pub type Told = [u8; ANSWER_BYTES];

/// An archive over a table of bytes.
pub trait Subject {
    /// One event, with a check of the whole table.
    fn step(&mut self, event: &[u8]) -> Told;
    /// Many events, with one check: the bytes of the answers.
    fn run(&mut self, events: &[u8], answers: &mut [u8]) -> usize;
    /// The table.
    fn table(&self) -> &[u8];
}

impl<B: AsRef<[u8]> + AsMut<[u8]>> Subject for Archive<B> {
    fn step(&mut self, event: &[u8]) -> Told {
        self.step_bytes(event).to_bytes()
    }

    fn run(&mut self, events: &[u8], answers: &mut [u8]) -> usize {
        self.run_into(events, answers)
    }

    fn table(&self) -> &[u8] {
        self.as_bytes()
    }
}
