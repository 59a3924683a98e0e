//! The archive's table of 57,344 bytes, as docs/LAYOUT.md lays it out: whether
//! it is well formed, and what it then says.
//!
//! Written from the rules R20 to R28, docs/LAYOUT.md and
//! docs/DECISIONS.md on what those words mean, and not from the core.

mod differ;
mod formed;
mod kept;
mod layout;
mod read;

pub use differ::{difference, kept_difference};
pub use formed::well_formed;
pub use layout::{TABLE_BYTES, kept_part, partition_part, session_part, site_part};
pub use read::read;
