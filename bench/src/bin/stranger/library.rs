//! The proved library as a stranger calls it (include/sogvect.h): every call checks all that is lent.
use calls::Call;
use sogvect::{Geometry, Refusal, Space, Store};

/// A store in memory of its own, of just the lengths that its numbers need.
pub struct Lent {
    g: Geometry,
    pub space: Space,
}

impl Lent {
    pub fn new(six: [u32; 6]) -> Lent {
        let [arenas, per, pages, records, turn, words] = six.map(|n| n as usize);
        let g = Geometry { arenas, per, pages, records, turn, words };
        let mut space = Space::new(g);
        Store::make(g, space.lend()).expect("a store is made");
        Lent { g, space }
    }

    /// One call: how many numbers stand in the result buffer, or the refusal.
    pub fn call(&mut self, c: Call) -> Result<usize, u32> {
        Store::on(self.g, self.space.lend()).call(c).map(<[u32]>::len).map_err(Refusal::number)
    }
}
