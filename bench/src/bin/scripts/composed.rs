//! A script in the making: every line is also done by a store, so that the next can depend on it.
use bench::store::{Geometry, Store};
use calls::{Call, Command};
use reference::generate::{store_line, Dice};

/// What the runner reads at most.
pub const LIMIT: usize = 65_536;

pub struct Composed {
    pub dice: Dice,
    pub six: [u32; 6],
    pub store: Box<Store>,
    text: Vec<u8>,
    pub full: bool,
}

impl Composed {
    pub fn new(mut dice: Dice, six: [u32; 6]) -> Composed {
        dice.below(2);
        let store = Box::new(Store::new(Geometry::new(six).expect("inside the limits")));
        Composed { dice, six, store, text: store_line(&six).into_bytes(), full: false }
    }

    /// Adds a call; once there is no room for it, the script is full and stays as it is.
    pub fn call<'n>(&mut self, c: impl Into<Command<'n>>) {
        let c = c.into();
        let line = c.line();
        self.full |= self.text.len() + 1 + line.len() > LIMIT;
        if !self.full {
            self.text.push(b'\n');
            self.text.extend(line);
            self.store.call(c);
        }
    }

    /// Compresses the log where fewer than `words` are unused.
    pub fn room(&mut self, words: usize) {
        if self.store.unused() < words {
            self.call(Call::Compress);
        }
    }

    /// A barrier where fewer than `blocks` may be given while others wait, and before it a T where as many are lacking still: without them the writes that
    /// follow would be refused by 13 only because of what waits or is queued, and the script would be one of refusals.
    pub fn release(&mut self, blocks: usize) {
        if self.store.free_blocks() + self.store.waiting_blocks() < blocks && self.store.queued_blocks() > 0 {
            self.call(Call::Reclaim(64));
        }
        if self.store.free_blocks() < blocks && self.store.waiting_blocks() > 0 {
            self.call(Call::Barrier);
        }
    }

    /// A T of 64 for each 64 blocks that are queued.
    pub fn sweep(&mut self) {
        for _ in 0..self.store.queued_blocks() / 64 {
            self.call(Call::Reclaim(64));
        }
    }

    pub fn newest(&self) -> u32 {
        self.store.last
    }

    /// A record in the store that is open, or one that is sealed; 0 if there is none.
    pub fn any(&mut self, open: bool) -> u32 {
        let all: Vec<u32> = self.store.numbers().into_iter().filter(|&n| self.store.is_open(n) == open).collect();
        if all.is_empty() {
            0
        } else {
            self.dice.one_of(&all)
        }
    }

    pub fn write(&mut self, r: u32, page: u32) {
        let kind = self.dice.below(3);
        self.call(Call::Write(r, page, kind));
    }

    pub fn write_any(&mut self, r: u32) {
        let page = self.dice.below(self.six[2]);
        self.write(r, page);
    }

    /// Writes `count` different pages of a record, in an order of its own.
    pub fn write_many(&mut self, r: u32, count: u32) {
        let pages = self.six[2];
        let (first, step) = (self.dice.below(pages), 1 + 2 * self.dice.below(8));
        for i in 0..count {
            self.write(r, (first + step * i) % pages);
        }
    }

    pub fn text(self) -> Vec<u8> {
        self.text
    }
}
