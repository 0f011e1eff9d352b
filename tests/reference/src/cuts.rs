//! Logs cut short, as where a plug is pulled: which blocks reading must give then, told from the calls and their results alone.
//! A log is cut at any byte of the words appended since its last C, or since the store was begun. What counts is the last barrier that is whole then: the
//! last accepted Y, or the C, or the beginning, where nothing was held.
use crate::store::{Geometry, Reply, Store};
use calls::{Call, Command};
use std::collections::BTreeSet;

/// A barrier: the words up to it, the blocks held there, and how many of them were queued.
struct Barrier {
    words: usize,
    held: BTreeSet<u32>,
    queued: usize,
}

/// The log of a store from its beginning, or from a C, to the next C or the end.
pub struct Stretch {
    pub g: Geometry,
    pub log: Vec<u64>,
    /// the first is the stretch's beginning
    barriers: Vec<Barrier>,
}

impl Stretch {
    /// How many words there were at the beginning.
    pub fn start(&self) -> usize {
        self.barriers[0].words
    }

    /// Every place to cut at, in bytes.
    pub fn cuts(&self) -> std::ops::RangeInclusive<usize> {
        8 * self.start()..=8 * self.log.len()
    }

    /// The last barrier that is whole in the first n bytes.
    fn last(&self, n: usize) -> &Barrier {
        self.barriers.iter().rfind(|barrier| 8 * barrier.words <= n).expect("a cut is after the beginning")
    }

    /// The blocks held there.
    pub fn held(&self, n: usize) -> &BTreeSet<u32> {
        &self.last(n).held
    }

    /// How many of them were queued.
    pub fn queued(&self, n: usize) -> usize {
        self.last(n).queued
    }
}

/// Follows the calls on a store, and its log.
#[derive(Default)]
pub struct Followed {
    held: BTreeSet<u32>,
    stretch: Option<Stretch>,
}

impl Followed {
    /// After each line: the call (none for a store line), its reply, and the store. Gives the stretch that ends with it.
    pub fn go_on(&mut self, store: &Store, call: Option<Command>, reply: &Reply) -> Option<Stretch> {
        let Ok(given) = reply else { return None };
        self.count(call, given);
        let mut ended = None;
        let (g, log) = (store.g, &store.log);
        let here = Barrier { words: log.len(), held: self.held.clone(), queued: store.queue.len() };
        match call {
            None | Some(Command::Unnamed(Call::Compress)) => ended = self.stretch.replace(Stretch { g, log: vec![], barriers: vec![here] }),
            Some(Command::Unnamed(Call::Barrier)) => self.now().barriers.push(here),
            _ => {}
        }
        self.now().log = log.clone();
        ended
    }

    /// The last stretch.
    pub fn end(self) -> Option<Stretch> {
        self.stretch
    }

    fn now(&mut self) -> &mut Stretch {
        self.stretch.as_mut().expect("a store line is first")
    }

    /// The held blocks are those given less those freed. A block held at the last barrier is given to no write before the next one.
    /// A call with a name gives and frees none.
    fn count(&mut self, call: Option<Command>, given: &[u32]) {
        let c = match call {
            None => return self.held.clear(),
            Some(Command::Naming(..)) => return,
            Some(Command::Unnamed(c)) => c,
        };
        let mut blocks = c.spelling().blocks(given).map(|(b, _)| b);
        if let Call::Write(..) = c {
            let b = blocks.next().expect("a write gives a block");
            let last = self.now().barriers.last().expect("a beginning");
            assert!(!last.held.contains(&b), "block {b}, held at the last barrier, is given to a write");
            assert!(self.held.insert(b), "block {b} is given while it is held");
        }
        if let Call::Write(..) | Call::Erase(..) | Call::Reclaim(_) = c {
            blocks.for_each(|b| assert!(self.held.remove(&b), "block {b} is freed while it is not held"));
        }
    }
}
