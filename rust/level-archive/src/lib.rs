//! The level archive for Rust programs: a safe face of the proved library.
//!
//! Gauge readings are written at up to four sites, travel to the others, and are
//! read so that nobody is ever shown a correction without the reading it corrects.
//!
//! * [`Archive`] is the archive over its 57,344 bytes, its own or lent.
//! * [`Event`] is what happens, typed, as text or as bytes; [`Answer`] is what the
//!   archive says to it, a [`Refusal`] among them. [`Event::told`] puts the two into words.
//! * [`View`] shows what a table holds.
//! * [`limits`] has the numbers that bound them, [`sys`] the three proved functions as they are.
//!
//! What each event does, and when it is refused or waits, stands in the repository's docs/RULES.md.
//!
//! ```
//! use level_archive::{Answer, Archive, Event, Quality};
//!
//! let mut archive = Archive::new(2, 1)?; // 2 sites, 1 partition
//! archive.step(&Event::open(0, 0)).result()?; // session 0 at site 0
//! archive.step(&Event::open(1, 1)).result()?; // session 1 at site 1
//! archive.step(&Event::clock(0, 0, 100)).result()?; // the clock of node 0,0
//! archive.step(&Event::put(0, 7, Quality::Measured, 1250)).result()?; // gauge 7 is at 1250 mm
//! assert_eq!(archive.step(&Event::get(1, 7)), Answer::Nothing); // site 1 has not heard of it
//! archive.step(&Event::deliver(0, 1, 0)).result()?; // the update arrives
//! assert_eq!(archive.step(&Event::get(1, 7)).to_string(), "1250 mm, measured, site 0 at 100");
//! # Ok::<(), level_archive::Refusal>(())
//! ```
//!
//! Everything about an event or a table is decided by the proved core, for any
//! bytes: this crate passes bytes on, and puts names on numbers. Nothing here panics.
//! It needs `alloc` and not `std`.
//!
//! Conversions that may fail give a `Result`: from bytes and from numbers by
//! `TryFrom`, from text by `FromStr`.
//!
//! `make library` in the repository writes the library that is linked. It is looked
//! for in target/staticlib there, or in the folder that LEVEL_ARCHIVE_LIB_DIR names.

#![no_std]
#![doc(test(attr(deny(warnings))))] // no example drops an answer

extern crate alloc;

mod answer;
mod archive;
mod event;
mod event_bytes;
mod event_text;
mod layout;
pub mod limits;
mod page_keys;
mod part;
mod quality;
mod refusal;
#[allow(unsafe_code)] // the calls to the proved functions, and nothing else
pub mod sys;
mod told;
mod view;
mod words;

pub use answer::{Answer, AnswerError, Reading, Values};
pub use archive::{Archive, SetupError};
pub use event::Event;
pub use event_bytes::EventError;
pub use event_text::ParseEventError;
pub use page_keys::{PageKeys, TooManyKeys};
pub use quality::{Quality, UnknownNumber};
pub use refusal::Refusal;
pub use view::{ChannelView, Message, NodeView, PageView, Record, SessionView, View};

/// The README's Rust program, compiled and run as an example of this crate.
#[cfg(doctest)]
#[doc = include_str!("../../../README.md")]
mod readme {}

/// The length of a table.
pub const TABLE_BYTES: usize = 57_344;

/// The length of an event.
pub const EVENT_BYTES: usize = 32;

/// The length of an answer that [`Archive::run_into`] writes.
pub const ANSWER_BYTES: usize = 16;
