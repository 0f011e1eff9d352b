//! A stranger's call: one R through the store's full check, against a plain read of the bytes that its numbers need.
mod filled;
mod library;
mod reads;

use bench::clock::seconds;
use calls::Call;
use filled::{filled, hostile, queued, waiting, Filled};
use reads::{read, sum};

const ROUNDS: usize = 300;
/// How often in a row, so that all that is read is near by.
const IN_A_ROW: usize = 10;
const MOST: f64 = 4.0;
const LARGEST: [u32; 6] = [16, 128, 256, 64, 8, 8192];
const MIDDLE: [u32; 6] = [4, 128, 64, 16, 8, 2048];
const SMALL: [u32; 6] = [1, 32, 16, 4, 8, 128];
const TWO: [u32; 6] = [2, 1024, 256, 64, 8, 8192];

/// A store, and the least times of the call and of the two reads, in seconds.
struct Case {
    name: &'static str,
    store: Filled,
    call: f64,
    read: f64,
    sum: f64,
}

impl Case {
    fn new(name: &'static str, store: Filled) -> Case {
        Case { name, store, call: f64::MAX, read: f64::MAX, sum: f64::MAX }
    }

    fn round(&mut self) {
        let (lent, used) = (&mut self.store.lent, self.store.store.used);
        let mut answer = Ok(0);
        self.call = self.call.min(seconds(|| answer = lent.call(Call::Read(1, 3))));
        let sound = answer.is_ok() || answer == Err(8) && self.store.store.numbers().is_empty();
        assert!(sound, "a call on a sound store is refused: {answer:?}");
        self.read = self.read.min(seconds(|| read(&lent.space, used)));
        self.sum = self.sum.min(seconds(|| sum(&lent.space, used)));
    }

    fn ratio(&self) -> f64 {
        self.call / self.read
    }

    fn row(&self) {
        let store = &self.store.store;
        let waits = store.waiting_blocks();
        let held = store.g.blocks() - store.free_blocks() - waits;
        let space = &self.store.lent.space;
        let bytes = 4 * (space.tables.len() + space.out.len()) + 8 * store.used;
        println!(
            "| {} | {} | {held} | {} | {} | {waits} | {} | {bytes} | {:.1} | {:.1} | {:.1} | {:.1} | {:.1} |",
            self.name,
            store.numbers().len(),
            store.dead_blocks(),
            store.queued_blocks(),
            store.used,
            self.ratio(),
            self.call / self.sum,
            1e6 * self.call,
            1e6 * self.read,
            1e6 * self.sum
        );
    }
}

fn cases() -> Vec<Case> {
    let largest = "16 × 128 blocks, 256 pages, 64 records";
    let middle = "4 × 128 blocks, 64 pages, 16 records";
    let small = "1 × 32 blocks, 16 pages, 4 records";
    vec![
        Case::new(largest, filled(LARGEST, 64, 28, true)),
        Case::new(largest, filled(LARGEST, 64, 28, false)),
        Case::new(largest, filled(LARGEST, 16, 28, false)),
        Case::new(largest, filled(LARGEST, 4, 28, true)),
        Case::new(largest, filled(LARGEST, 4, 28, false)),
        Case::new(largest, filled(LARGEST, 1, 0, false)),
        Case::new(middle, filled(MIDDLE, 16, 12, true)),
        Case::new(middle, filled(MIDDLE, 16, 12, false)),
        Case::new(small, filled(SMALL, 4, 4, true)),
        Case::new("16 × 128 blocks, every block queued", queued(LARGEST)),
        Case::new("16 × 128 blocks, every block waiting", waiting(LARGEST)),
        Case::new("2 × 1,024 blocks, a log of runs of 1,024", hostile(TWO)),
    ]
}

fn main() {
    let mut cases = cases();
    for _ in 0..ROUNDS {
        cases.iter_mut().for_each(|c| (0..IN_A_ROW).for_each(|_| c.round()));
    }
    println!(
        "| made for | records | held blocks | dead blocks | queued | waiting | log words | bytes | call / read | call / sum | call, µs | read, µs | sum, µs |"
    );
    println!("|---|---|---|---|---|---|---|---|---|---|---|---|---|");
    cases.iter().for_each(Case::row);
    let met = cases.iter().filter(|c| c.ratio() <= MOST).count();
    let sums = cases.iter().filter(|c| c.call <= MOST * c.sum).count();
    println!("\nIn this run {met} of {} are at most {MOST:.0} reads, {sums} at most {MOST:.0} sums.", cases.len());
}
