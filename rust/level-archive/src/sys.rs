//! The three proved functions as they are, for bytes; the only module with `unsafe`.
//!
//! Each is proved for every length and all bytes: it ends, stays inside the bytes
//! that are lent to it and keeps no pointer. What each gives is stated in the
//! repository's docs/PROMISES.md.
//!
//! ```
//! use level_archive::{Event, TABLE_BYTES, sys};
//!
//! let mut table = [0; TABLE_BYTES];
//! assert_eq!(sys::setup(&mut table, 2, 2).number, 0);
//! assert_eq!(sys::step(&mut table, &Event::open(0, 1).to_bytes()).number, 0);
//! assert_eq!(sys::step(&mut table, b"no event").number, 23);
//! ```

use crate::answer::Values;

/// As a C program declares them, for the tests of null pointers.
#[doc(hidden)]
#[allow(missing_docs)]
pub mod raw {
    use crate::answer::Values;

    unsafe extern "C" {
        pub fn level_archive_setup(
            table: *mut u8,
            length: usize,
            sites: u32,
            partitions: u32,
        ) -> Values;
        pub fn level_archive_step(
            table: *mut u8,
            length: usize,
            event: *const u8,
            event_length: usize,
        ) -> Values;
        pub fn level_archive_run(
            table: *mut u8,
            length: usize,
            events: *const u8,
            events_length: usize,
            answers: *mut u8,
            answers_length: usize,
        ) -> usize;
    }
}

/// Makes a table empty, for 1 to 4 sites and partitions: 0, 23 or 11.
pub fn setup(table: &mut [u8], sites: u32, partitions: u32) -> Values {
    // SAFETY: a slice's pointer and length, lent for the call.
    unsafe { raw::level_archive_setup(table.as_mut_ptr(), table.len(), sites, partitions) }
}

/// One event's bytes.
pub fn step(table: &mut [u8], event: &[u8]) -> Values {
    let (at, length) = (table.as_mut_ptr(), table.len());
    // SAFETY: slices' pointers and lengths, lent for the call; the `&mut` one overlaps no other.
    unsafe { raw::level_archive_step(at, length, event.as_ptr(), event.len()) }
}

/// Many events' bytes, in pieces of 32, each answer in 16 bytes; gives how many
/// pieces were answered: as many as there is room for.
pub fn run(table: &mut [u8], events: &[u8], answers: &mut [u8]) -> usize {
    let (at, length) = (table.as_mut_ptr(), table.len());
    let (room, room_length) = (answers.as_mut_ptr(), answers.len());
    // SAFETY: slices' pointers and lengths, lent for the call; the `&mut` ones overlap no other.
    unsafe { raw::level_archive_run(at, length, events.as_ptr(), events.len(), room, room_length) }
}
