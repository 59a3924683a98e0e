//! The rules (docs/RULES.md) over plain structs: causal replication for a level archive.
//!
//! The state is typed and never bytes; only events come as bytes. So a step
//! never gives 24 (a table that isn't well formed).
//!
//! * [`Archive`] is the archive; [`Archive::step`] takes one event.
//! * [`mod@bench`] is the bench program between any input and output.
//! * [`causal`] watches events and answers for a breach of causality.
//! * [`stream`] makes pseudo-random lists of events.
//! * [`table`] is the core's table of bytes: whether it is well formed, and
//!   the archive that it says.

mod answer;
mod archive;
mod channel;
mod event;
mod lines;
mod node;
mod reader;
mod record;
mod session;
mod steps;

pub mod bench;
pub mod causal;
pub mod limits;
pub mod make;
pub mod random;
pub mod stream;
pub mod table;
pub mod vector;

#[cfg(test)]
mod examples;
#[cfg(test)]
mod mutants;

pub use answer::Answer;
pub use archive::Archive;
pub use channel::Channel;
pub use event::{Event, code};
pub use node::Node;
pub use record::{Message, Record};
pub use session::{Page, Session};
