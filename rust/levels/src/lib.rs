//! The level archive by hand: events as text, runs in plain words, pictures.
//!
//! In the order of the way that an event takes:
//!
//! * [`input`]: events one by one from a file or standard input, text or bytes, with
//!   line and column for what is wrong;
//! * [`story`]: each event stepped through the archive, with what the tables before
//!   and after it say about it: at which node it is, what was sent, what arrived;
//! * [`words`]: a happening as a sentence;
//! * [`draw`]: all happenings as a space-time picture;
//! * [`command`]: the command line, its help, output and exit codes.
//!
//! Nothing that the archive decides is decided here: every answer is the proved
//! core's, and what an event waits for is told by the answer.

pub mod command;
pub mod draw;
pub mod failure;
pub mod input;
pub mod story;
pub mod words;
