//! A record's number, and a block with its birth.
use std::fmt;

/// A record, by its number: from 1 on, never given twice. Any number can be one; a call refuses those that the store does not have.
#[derive(Clone, Copy, Debug, PartialEq, Eq, PartialOrd, Ord, Hash)]
pub struct Record(pub u32);

impl fmt::Display for Record {
    fn fmt(&self, f: &mut fmt::Formatter<'_>) -> fmt::Result {
        self.0.fmt(f)
    }
}

/// A block that a call names, with its birth. As text the two have a colon between them, as in a script's replies: `0:1`.
#[derive(Clone, Copy, Debug, PartialEq, Eq, Hash)]
pub struct Block {
    /// The block's number, from 0 through all arenas.
    pub number: u32,
    /// The record that was open when the block was given. A block that a call frees has the birth that it had before the call.
    pub birth: Record,
}

impl Block {
    /// The block that a pair of a result's numbers is.
    pub(crate) fn of(pair: &[u32]) -> Block {
        Block { number: pair[0], birth: Record(pair[1]) }
    }
}

impl fmt::Display for Block {
    fn fmt(&self, f: &mut fmt::Formatter<'_>) -> fmt::Result {
        write!(f, "{}:{}", self.number, self.birth)
    }
}
