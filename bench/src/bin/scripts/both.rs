//! A script run by the proved store, in memory of its own and in lent memory, and by the unproved one, each into its own buffer.
use crate::host::Host;
use crate::proved;
use bench::clock::seconds;
use bench::script;
use bench::store::{Geometry, Store};

/// `measure_script` stops once less than this, a longest reply, is free.
const FREE: usize = 49_180;

pub struct Both {
    host: Host,
    store: Box<Store>,
    proved: Vec<u8>,
    lent: Vec<u8>,
    unproved: Vec<u8>,
}

/// Who runs a script: the runner's loop, the library for a host that lends everything, or the unproved store.
#[derive(Clone, Copy)]
pub enum Way {
    Proved,
    Lent,
    Unproved,
}

pub const ALL: [Way; 3] = [Way::Proved, Way::Lent, Way::Unproved];

/// The order in a round: over the rounds two or three ways take every order.
fn order<const N: usize>(mut ways: [Way; N], round: usize) -> [Way; N] {
    ways.rotate_left(round % N);
    if round / N % 2 == 1 {
        ways.reverse();
    }
    ways
}

#[derive(Clone, Copy, Default)]
pub struct Times {
    pub proved: f64,
    pub lent: f64,
    pub unproved: f64,
}

impl Times {
    /// Before the first round. The time of a way that is not run stays so.
    const MOST: Times = Times { proved: f64::MAX, lent: f64::MAX, unproved: f64::MAX };

    fn of(&mut self, way: Way) -> &mut f64 {
        match way {
            Way::Proved => &mut self.proved,
            Way::Lent => &mut self.lent,
            Way::Unproved => &mut self.unproved,
        }
    }

    pub fn ratio(&self) -> f64 {
        self.proved / self.unproved
    }

    pub fn lent_ratio(&self) -> f64 {
        self.lent / self.unproved
    }

    pub fn plus(&self, other: Times) -> Times {
        Times { proved: self.proved + other.proved, lent: self.lent + other.lent, unproved: self.unproved + other.unproved }
    }

    pub fn minus(&self, other: Times) -> Times {
        Times { proved: self.proved - other.proved, lent: self.lent - other.lent, unproved: self.unproved - other.unproved }
    }

    /// The lesser time of each way.
    pub fn least(&self, other: Times) -> Times {
        Times { proved: self.proved.min(other.proved), lent: self.lent.min(other.lent), unproved: self.unproved.min(other.unproved) }
    }

    /// Of one of `count`, in nanoseconds.
    pub fn each(&self, count: usize) -> Times {
        let scale = 1e9 / count as f64;
        Times { proved: self.proved * scale, lent: self.lent * scale, unproved: self.unproved * scale }
    }
}

impl Both {
    pub fn new() -> Both {
        let g = Geometry::new([1, 1, 1, 1, 1, 4]).expect("inside the limits");
        let [proved, lent, unproved] = [(); 3].map(|_| vec![0; 32 << 20]);
        Both { host: Host::new(), store: Box::new(Store::new(g)), proved, lent, unproved }
    }

    /// Runs a script in one way; how many bytes of replies there are.
    fn run(&mut self, way: Way, text: &[u8]) -> usize {
        match way {
            Way::Proved => proved::run(text, &mut self.proved),
            Way::Lent => self.host.run(text, &mut self.lent),
            Way::Unproved => script::run(&mut self.store, text, &mut self.unproved),
        }
    }

    /// The replies to a script, if all ways give the same bytes.
    pub fn replies(&mut self, text: &[u8]) -> Option<&[u8]> {
        let [n, l, m] = ALL.map(|way| self.run(way, text));
        let replies = &self.proved[..n];
        let same = n + FREE <= self.proved.len() && *replies == self.lent[..l] && *replies == self.unproved[..m];
        same.then_some(replies)
    }

    /// The least times of several scripts, over rounds in which each is run in all the given ways; their order changes from round to round.
    pub fn time<T: AsRef<[u8]>, const N: usize>(&mut self, texts: &[T], ways: [Way; N], rounds: usize) -> Vec<Times> {
        let mut best = vec![Times::MOST; texts.len()];
        for round in 0..rounds {
            for (t, text) in best.iter_mut().zip(texts) {
                for way in order(ways, round) {
                    let time = seconds(|| self.run(way, text.as_ref()));
                    *t.of(way) = t.of(way).min(time);
                }
            }
        }
        best
    }
}
