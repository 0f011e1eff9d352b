//! The six numbers of a store.

pub const BLOCKS: usize = 2048;
pub const PAGES: usize = 256;
pub const RECORDS: usize = 64;
pub const WORDS: usize = 8192;

#[derive(Clone, Copy)]
pub struct Geometry {
    pub arenas: usize,
    pub per: usize,
    pub pages: usize,
    pub records: usize,
    pub turn: usize,
    pub words: usize,
}

impl Geometry {
    pub fn new(n: [u32; 6]) -> Option<Geometry> {
        let [arenas, per, pages, records, turn, words] = n.map(|x| x as usize);
        let blocks = arenas * per;
        let shape = (1..=16).contains(&arenas) && (1..=1024).contains(&per) && blocks <= BLOCKS;
        let rest = (1..=PAGES).contains(&pages) && (1..=RECORDS).contains(&records) && (1..=4096).contains(&turn);
        let fits = shape && rest && (2 * blocks + 2..=WORDS).contains(&words);
        fits.then_some(Geometry { arenas, per, pages, records, turn, words })
    }

    pub fn blocks(&self) -> usize {
        self.arenas * self.per
    }
}
