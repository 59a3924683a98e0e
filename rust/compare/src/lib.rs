//! The proved core beside the independent implementation: the same events go
//! into both, and no answer and no state may differ.
//!
//! * [`pair`] steps both and compares.
//! * [`watch`] looks at events and answers alone: demand 3, and whether enough
//!   of interest happened.
//! * [`follow`] takes a whole list of events through both.
//! * [`damage`] damages tables; [`kept`] sets their kept places anew.
//! * [`report`] makes a failing list of events short and prints it.
//! * [`settings`] are the seed and the number of lists.

pub mod chains;
pub mod damage;
pub mod follow;
pub mod kept;
pub mod pair;
pub mod report;
pub mod settings;
pub mod shrink;
pub mod subject;
pub mod tally;
pub mod watch;
