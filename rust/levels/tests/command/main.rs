//! The built command, tried as people use it: one test program, since each is linked
//! with everything.

mod draw;
mod errors;
mod lines;
mod run;
mod support;
mod text;
mod wild;
mod xml;
