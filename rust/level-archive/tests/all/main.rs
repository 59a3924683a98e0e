//! Tests of the archive through its Rust and C faces. One program, so that it is
//! linked once.

mod answers;
mod boundary;
mod c;
mod document;
mod events;
mod fields;
mod kept;
mod lent;
mod vectors;
mod view;
mod wild;
