//! What happened, in plain words.

mod list;
mod outcome;
mod summary;

use std::fmt;

use crate::story::Happening;

pub use list::{counted, list, named};
pub use outcome::{outcome, update};
pub use summary::{Summary, on_the_way};

/// An event and what became of it, as one sentence.
pub struct Sentence<'a>(pub &'a Happening);

impl fmt::Display for Sentence<'_> {
    fn fmt(&self, f: &mut fmt::Formatter<'_>) -> fmt::Result {
        write!(f, "{} {}", self.0.piece, outcome(self.0))
    }
}
