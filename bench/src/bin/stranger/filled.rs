//! Stores for a stranger's call, made by calls of the library. The unproved store does each call too, and the results are compared.
use crate::library::Lent;
use bench::store::{Geometry, Store};
use calls::Call;
use reference::generate::Dice;

pub struct Filled {
    pub lent: Lent,
    pub store: Box<Store>,
}

impl Filled {
    fn new(six: [u32; 6]) -> Filled {
        let store = Box::new(Store::new(Geometry::new(six).expect("inside the limits")));
        Filled { lent: Lent::new(six), store }
    }

    fn call(&mut self, c: Call) {
        let reply = self.store.call(c);
        let expected = self.store.result(reply);
        let given = self.lent.call(c).map(|count| self.lent.space.out[..count].to_vec());
        assert!(given == expected, "the library answers {given:?}, the unproved store {expected:?}");
    }

    fn newest(&self) -> u32 {
        self.store.last
    }

    /// A barrier where no block is left to give but those that wait: a store is to be as full as calls can make it.
    fn release(&mut self) {
        if self.store.free_blocks() == 0 && self.store.waiting_blocks() > 0 {
            self.call(Call::Barrier);
        }
    }

    /// Blocks given to different pages of the newest record.
    fn rewrite(&mut self, d: &mut Dice, count: u32) {
        let (r, pages) = (self.newest(), self.store.g.pages as u32);
        let first = d.below(pages);
        for i in 0..count.min(pages) {
            self.release();
            self.call(Call::Write(r, (first + 7 * i) % pages, d.below(3)));
        }
    }

    /// A line of `len` records: each rewrites some pages, all but the last are sealed.
    fn line(&mut self, d: &mut Dice, len: u32, rewritten: u32) {
        for i in 1..=len {
            self.rewrite(d, rewritten);
            if i < len {
                self.call(Call::Seal(self.newest()));
            }
        }
    }

    /// Empties and fills pages of the newest record until the log has no two words left. What is emptied waits: without barriers the pages would stay
    /// empty and the log as it is.
    fn churn(&mut self) {
        let r = self.newest();
        let mut page = 0;
        while self.store.unused() >= 2 {
            self.call(Call::Erase(r, page));
            self.release();
            self.call(Call::Write(r, page, 0));
            page = (page + 1) % self.store.g.pages as u32;
        }
        while self.store.unused() > 0 {
            self.call(Call::Barrier);
        }
    }
}

/// Lines of at most eight records, the first with all pages, each other a fork of a record in the middle of an earlier one; then all pages of the
/// newest record are written, as long as blocks are free. The log is full, or compressed.
pub fn filled(six: [u32; 6], records: u32, rewritten: u32, long_log: bool) -> Filled {
    let mut f = Filled::new(six);
    let mut d = Dice::new(5);
    f.call(Call::Begin);
    f.rewrite(&mut d, 256);
    let len = records.min(8);
    f.line(&mut d, len, rewritten);
    while f.newest() < records {
        let base = f.newest() - len / 2 - 8 * d.below(1 + (f.newest() - 1) / 16);
        f.call(Call::Fork(base));
        f.line(&mut d, len, rewritten);
    }
    f.rewrite(&mut d, 256);
    if long_log {
        f.churn()
    } else {
        f.call(Call::Compress)
    }
    f
}

/// A store in which every block is queued: all were given, to eight records, and the records are deleted.
pub fn queued(six: [u32; 6]) -> Filled {
    let mut f = Filled::new(six);
    let mut d = Dice::new(7);
    for _ in 0..8 {
        f.call(Call::Begin);
        f.rewrite(&mut d, 256);
    }
    (1..=8).for_each(|r| f.call(Call::Delete(r)));
    assert_eq!(f.store.queued_blocks(), f.store.g.blocks(), "every block is queued");
    f
}

/// A store in which every block waits: the same, and all of them are freed.
pub fn waiting(six: [u32; 6]) -> Filled {
    let mut f = queued(six);
    while f.store.queued_blocks() > 0 {
        f.call(Call::Reclaim(64));
    }
    assert_eq!(f.store.waiting_blocks(), f.store.g.blocks(), "every block waits");
    f
}

/// A store with nothing held whose log gives and frees runs of a whole arena, again and again: the most work that a log of its length can ask for.
pub fn hostile(six: [u32; 6]) -> Filled {
    let mut f = Filled::new(six);
    while f.store.unused() > 0 {
        f.call(Call::Barrier);
    }
    let run = u64::from(six[1]) << 14;
    for (i, entry) in f.lent.space.log.chunks_exact_mut(16).enumerate() {
        let code = 4 + i as u64 % 2;
        entry[..8].copy_from_slice(&code.to_be_bytes());
        entry[8..].copy_from_slice(&run.to_be_bytes());
    }
    f
}
