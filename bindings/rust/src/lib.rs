//! A snapshot store with forks, deletes in the middle of a line and an allocation log, proved in Rattle; this crate calls its static library.
//!
//! A store keeps *records* (snapshots). A record maps *pages* to *blocks*; it is open, so that pages can be written, or sealed. Records stand in lines, and a sealed
//! one can be forked into a new line. The store says which block a page gets and which blocks a change frees. It never touches the blocks' contents.
//!
//! A [`Store`] lives in memory that is lent with every call ([`Memory`], or a [`Space`] of its own), for six numbers ([`Geometry`]). Nothing that is lent
//! is trusted: a call checks tables and log in full and refuses what is not sound ([`Refusal`]), and a refused call changes nothing.
//!
//! A delete frees nothing: the blocks that no page has any more join a *queue*, and [`Store::reclaim`] frees them, so many at a time.
//!
//! A block that a call frees *waits*: it is given again, or listed as free, only once a [`Store::barrier`] or a [`Store::compress`] was done since.
//! So a log that is cut after its last compression reads ([`log_read`]) to the blocks held at the last whole barrier, and none of those was given to a
//! write between that barrier and the cut.
//!
//! ```
//! use sogvect::{Block, Call, Geometry, Kind, Space, Store, Written};
//!
//! let g = Geometry { arenas: 1, per: 4, pages: 2, records: 4, turn: 8, words: 10 };
//! let mut space = Space::new(g);
//! let mut store = Store::make(g, space.lend())?;
//! let first = store.begin()?;
//! let written = store.write(first, 0, Kind::Data)?;
//! assert_eq!(written, Written { block: Block { number: 0, birth: first }, freed: None });
//! let second = store.seal(first)?;
//! store.write(second, 0, Kind::Data)?;
//! assert_eq!(store.read(first, 0)?, Some(Block { number: 0, birth: first }));
//! assert_eq!(store.read(second, 0)?, Some(Block { number: 1, birth: second }));
//! assert_eq!(store.call(Call::FreeList)?, [2, 2]);
//! store.delete(first)?;
//! assert_eq!(store.reclaim(64)?, [Block { number: 0, birth: first }]);
//! # Ok::<(), sogvect::Refusal>(())
//! ```
//!
//! A line can have a window ([`Store::retain`]): then a seal deletes the line's oldest records itself. Records can have names ([`Store::name`]), and a
//! record that has one is not deleted.
//!
//! A whole script of calls as text, replies as text, is served by [`Script`].
#![warn(missing_docs)]

/// Calls a bare function; the six numbers of the geometry come first. It is as unsafe as the function.
macro_rules! bare {
    ($function:ident, $g:ident, $($argument:expr),* $(,)?) => {
        $crate::raw::$function($g.arenas, $g.per, $g.pages, $g.records, $g.turn, $g.words, $($argument),*)
    };
}

mod block;
pub mod raw;
mod refusal;
mod script;
mod store;

pub use block::{Block, Record};
pub use calls::{Call, Command, Naming, NoCall, Spelling};
pub use refusal::Refusal;
pub use script::{script_part, Part, Script, SCRIPT_LOG, SCRIPT_OUT, SCRIPT_REPLIES, SCRIPT_RUN, SCRIPT_TABLES};
pub use store::{Estimate, Kind, Memory, Space, Store, Written};

/// Changes whenever the tables or the log of a store mean something else than before: keep it beside a store that is kept in a file.
pub const LAYOUT: u32 = 4;

/// The six numbers that a store is made from. Any numbers can be given; a call refuses those outside the limits with [`Refusal::OUTSIDE_LIMITS`].
#[derive(Clone, Copy, Debug, PartialEq, Eq, Hash)]
pub struct Geometry {
    /// Arenas, 1 to 16.
    pub arenas: usize,
    /// Blocks in an arena, 1 to 1,024; at most 2,048 in all.
    pub per: usize,
    /// Pages of a record, 1 to 256.
    pub pages: usize,
    /// Records in the store at one time, 1 to 64.
    pub records: usize,
    /// Writes after which the next arena is the first choice, 1 to 4,096.
    pub turn: usize,
    /// Words of the log, from twice the blocks and 2 more to 8,192.
    pub words: usize,
}

impl Geometry {
    /// All blocks (for numbers far outside the limits, the largest `usize`; the same below).
    pub const fn blocks(self) -> usize {
        self.arenas.saturating_mul(self.per)
    }

    /// The least length of the tables.
    pub const fn tables_len(self) -> usize {
        2048usize.saturating_add(self.records.saturating_mul(512)).saturating_add(self.blocks().saturating_mul(4))
    }

    /// The least length of the log.
    pub const fn log_len(self) -> usize {
        self.words.saturating_mul(8)
    }

    /// The least length of the result buffer.
    pub const fn out_len(self) -> usize {
        self.blocks().saturating_mul(2).saturating_add(64)
    }
}

/// Reads a log of any length and gives the blocks that are held at its last barrier, rising, in `out` (at least [`Geometry::out_len`] numbers). A log
/// has no births.
///
/// Only what stands up to the last whole word equal to 3, a barrier, counts: the bytes after it, which the disk may not have finished, are not judged
/// and record nothing, and without such a word nothing is held. Pass the used part of a store's own log, [`Store::log`]: after it the words of an earlier log
/// may stand, barriers among them.
///
/// # Errors
///
/// Refused by 2, 3 or 7; see [`Refusal`].
pub fn log_read<'a>(g: Geometry, log: &[u8], out: &'a mut [u32]) -> Result<&'a [u32], Refusal> {
    let mut count: usize = 0;
    // SAFETY: the pointers and lengths are those of a shared slice, of an exclusive one, and of a local for the count.
    let code = unsafe { bare!(sogvect_log_read, g, log.as_ptr(), log.len(), out.as_mut_ptr(), out.len(), &mut count) };
    Refusal::check(code).map(|()| &out[..count])
}

/// Whether two logs of any length hold the same blocks at their end, by every word.
///
/// # Errors
///
/// Refused by 2 or 7; see [`Refusal`].
pub fn log_compare(g: Geometry, first: &[u8], second: &[u8]) -> Result<bool, Refusal> {
    let mut alike: u32 = 0;
    // SAFETY: the pointers and lengths are those of two shared slices, and of a local for the answer.
    let code = unsafe { bare!(sogvect_log_compare, g, first.as_ptr(), first.len(), second.as_ptr(), second.len(), &mut alike) };
    Refusal::check(code).map(|()| alike == 1)
}

/// Writes a log of any length again, as short as it can be, at the start of `out` (at least [`Geometry::log_len`] bytes). Every word of it counts, and
/// the new log ends with a barrier. Gives the bytes written.
///
/// # Errors
///
/// Refused by 2, 3 or 7; see [`Refusal`].
pub fn log_compact<'a>(g: Geometry, log: &[u8], out: &'a mut [u8]) -> Result<&'a [u8], Refusal> {
    let mut count: usize = 0;
    // SAFETY: the pointers and lengths are those of a shared slice, of an exclusive one, and of a local for the count.
    let code = unsafe { bare!(sogvect_log_compact, g, log.as_ptr(), log.len(), out.as_mut_ptr(), out.len(), &mut count) };
    Refusal::check(code).map(|()| &out[..8 * count])
}
