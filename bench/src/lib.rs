//! What the benchmarks share: the unproved store and the clock.
pub mod clock;
mod free;
pub mod geometry;
mod line;
mod names;
mod reply;
pub mod script;
pub mod store;
