//! The proved core against the independent implementation. One program, so that
//! it is linked once; `settings` says how to give a seed.

mod caught;
mod clauses;
mod damaged;
mod runs;
mod shrinks;
