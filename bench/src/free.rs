//! The blocks that may be given, as bits, with a bit for each word that has one.

/// Words 32 to 63 are always 0, so that an index needs no test.
pub struct Free {
    words: [u64; 64],
    some: u64,
}

impl Free {
    pub const fn none() -> Free {
        Free { words: [0; 64], some: 0 }
    }

    /// All of n blocks may be given.
    pub fn fill(&mut self, n: usize) {
        for (k, word) in self.words[..32].iter_mut().enumerate() {
            *word = low_bits(n.saturating_sub(64 * k).min(64));
        }
        self.some = low_bits(n.div_ceil(64));
    }

    #[inline(always)]
    pub fn take(&mut self, b: usize) {
        let k = b >> 6 & 31;
        let word = self.words[k] & !(1 << (b & 63));
        self.words[k] = word;
        self.some &= !(((word == 0) as u64) << k);
    }

    #[inline(always)]
    pub fn put(&mut self, b: usize) {
        let k = b >> 6 & 31;
        self.words[k] |= 1 << (b & 63);
        self.some |= 1 << k;
    }

    /// The first free block from `from` on; a number from 2,048 on if there is none.
    #[inline(always)]
    pub fn first(&self, from: usize) -> usize {
        let k = from >> 6 & 63;
        let word = self.words[k] & (u64::MAX << (from & 63));
        if word != 0 {
            return 64 * k + word.trailing_zeros() as usize;
        }
        let later = self.some & ((u64::MAX - 1) << k);
        let k = later.trailing_zeros() as usize;
        64 * k + self.words[k & 63].trailing_zeros() as usize
    }

    /// The first block from `from` on, below `end`, that is held or waits; `end` if there is none.
    #[inline(always)]
    pub fn first_kept(&self, from: usize, end: usize) -> usize {
        let mut k = from >> 6 & 63;
        let mut word = !self.words[k] & (u64::MAX << (from & 63));
        while word == 0 {
            k += 1;
            if end <= 64 * k {
                return end;
            }
            word = !self.words[k & 63];
        }
        end.min(64 * k + word.trailing_zeros() as usize)
    }

    pub fn count(&self) -> usize {
        self.words.iter().map(|w| w.count_ones() as usize).sum()
    }
}

/// The n lowest bits.
pub fn low_bits(n: usize) -> u64 {
    if n >= 64 {
        u64::MAX
    } else {
        (1 << n) - 1
    }
}
