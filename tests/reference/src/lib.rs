//! An implementation written from the rules alone (docs/RULES.md), to compare the proved store with: scripts and calls, on memory of its own and on
//! lent memory, and scripts made at random. It shares nothing with the proved store but the type of a call and its letter.
pub mod cuts;
pub mod damaged;
pub mod generate;
pub mod layout;
pub mod log;
pub mod script;
pub mod store;
