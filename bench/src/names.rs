//! The names of records, at most 32: a name is four words, and a key of each finds it among all at once.

/// The most letters of a name, and the most names.
const LETTERS: usize = 32;
const NAMES: usize = 32;

/// A name: its letters, and zeros after them.
#[derive(Clone, Copy, PartialEq)]
pub struct Name([u64; LETTERS / 8]);

impl Name {
    /// The name that some bytes are: 1 to 32 letters a to z.
    pub fn new(bytes: &[u8]) -> Option<Name> {
        if !(1..=LETTERS).contains(&bytes.len()) || !bytes.iter().all(u8::is_ascii_lowercase) {
            return None;
        }
        let mut letters = [0; LETTERS];
        letters[..bytes.len()].copy_from_slice(bytes);
        let (words, _) = letters.as_chunks();
        Some(Name([0, 1, 2, 3].map(|i| u64::from_le_bytes(words[i]))))
    }

    fn key(&self) -> u32 {
        let [a, b, c, d] = self.0;
        let mixed = a ^ b.rotate_left(17) ^ c.rotate_left(31) ^ d.rotate_left(47);
        (mixed.wrapping_mul(0x9E37_79B9_7F4A_7C15) >> 32) as u32
    }
}

/// Rows of names; the bits say which are in use.
pub struct Names {
    used: u32,
    keys: [u32; NAMES],
    names: [Name; NAMES],
    /// the slot of the record that each is on
    on: [u8; NAMES],
}

impl Names {
    pub fn none() -> Names {
        Names { used: 0, keys: [0; NAMES], names: [Name([0; LETTERS / 8]); NAMES], on: [0; NAMES] }
    }

    pub fn clear(&mut self) {
        self.used = 0;
    }

    pub fn is_full(&self) -> bool {
        self.used == u32::MAX
    }

    pub fn count(&self) -> usize {
        self.used.count_ones() as usize
    }

    fn row(&self, name: &Name) -> Option<usize> {
        let key = name.key();
        let mut bits = 0;
        for (i, &k) in self.keys.iter().enumerate() {
            bits |= ((k == key) as u32) << i;
        }
        bits &= self.used;
        while bits != 0 {
            let i = bits.trailing_zeros() as usize & (NAMES - 1);
            if self.names[i] == *name {
                return Some(i);
            }
            bits &= bits - 1;
        }
        None
    }

    /// The slot of the record that a name is on.
    pub fn find(&self, name: &Name) -> Option<usize> {
        self.row(name).map(|i| self.on[i] as usize & 63)
    }

    /// Puts a name that is not in use on the record of a slot; there is a row for it.
    pub fn put(&mut self, name: Name, s: usize) {
        let i = (!self.used).trailing_zeros() as usize & (NAMES - 1);
        self.used |= 1 << i;
        self.keys[i] = name.key();
        self.names[i] = name;
        self.on[i] = s as u8;
    }

    /// Takes a name off; the slot of the record that it was on.
    pub fn take(&mut self, name: &Name) -> Option<usize> {
        let i = self.row(name)?;
        self.used &= !(1 << i);
        Some(self.on[i] as usize & 63)
    }

    /// What is on the record of a slot is on that of another.
    pub fn hand_on(&mut self, s: usize, to: usize) {
        for on in self.on.iter_mut().filter(|on| **on == s as u8) {
            *on = to as u8;
        }
    }
}
