//! Damage to names: to their rows and to the counts of the records.
use super::{Report, Subject};
use crate::layout::{title_at, Memory, NAMED, NUMBER};
use crate::store::NAMES;

const LETTERS: &[u8; 52] = b"abcdefghijklmnopqrstuvwxyzabcdefghijklmnopqrstuvwxyz";

/// A name by one byte. A small letter is one itself; a capital stands for two small ones, itself and the next; digits for the longest names and for bytes
/// that are none.
pub fn name(code: u8) -> &'static [u8] {
    match code {
        b'a'..=b'z' => &LETTERS[usize::from(code - b'a')..][..1],
        b'A'..=b'Z' => &LETTERS[usize::from(code - b'A')..][..2],
        b'0' => &[],
        b'1' => &LETTERS[..32],
        b'2' => &LETTERS[1..][..32],
        b'3' => &LETTERS[..33],
        b'4' => b"A",
        b'5' => b"a\0",
        b'6' => b"a`",
        b'7' => b"{a",
        _ => b"\xe1",
    }
}

/// The numbers of a row that are damaged: the link, the length, two of those between it and the letters, the letters, the one after them, and the last.
pub fn places(m: &Memory, i: usize) -> Vec<usize> {
    let at = title_at(i);
    let end = 8 + (m.tables[at + 1] as usize).min(31);
    [0, 1, 2, 7].into_iter().chain(8..=end).chain(Some(39).filter(|&last| last > end)).map(|n| at + n).collect()
}

impl Subject {
    /// The rows that are damaged: those in use, the first that is empty, and the last.
    pub fn named_rows(&self) -> Vec<usize> {
        let in_use = |i: usize| self.sound.tables[title_at(i)] > 0;
        let empty = (0..NAMES).find(|&i| !in_use(i));
        (0..NAMES).filter(|&i| in_use(i) || Some(i) == empty || i == NAMES - 1).collect()
    }

    /// A few calls, others for each k.
    pub fn ask_some(&self, report: &mut Report, memory: &Memory, k: usize) {
        if *memory != self.sound {
            (0..8).for_each(|i| self.ask(report, memory, k + 7 * i));
        }
    }

    /// The count of each record becomes the number of rows that lead to it.
    fn count(&self, m: &mut Memory) {
        for s in (0..self.records()).filter(|s| self.sound.tables[NUMBER + s] > 0) {
            m.tables[NAMED + s] = (0..NAMES).filter(|&i| m.tables[title_at(i)] as usize == s + 1).count() as u32;
        }
    }

    /// Each row leads to each slot, to none, and to slots that are not there; then with the counts that belong to it, so that the name is on another record.
    fn name_links(&self, report: &mut Report) {
        for i in self.named_rows() {
            for (k, to) in (0..self.records() as u32 + 2).chain([64, 65, 1 << 16, u32::MAX]).enumerate() {
                let mut m = self.sound.clone();
                m.tables[title_at(i)] = to;
                self.ask_damaged(report, &m, 7 * i + k);
                self.count(&mut m);
                self.ask_some(report, &m, i + 3 * k);
            }
        }
    }

    /// The length of each row becomes each number at the edges; then with letters wherever there is 0, so that a longer name is one.
    fn name_lengths(&self, report: &mut Report) {
        for i in self.named_rows() {
            for (k, length) in [0, 1, 2, 31, 32, 33, 34, 40, 257, 1 << 31, u32::MAX].into_iter().enumerate() {
                let mut m = self.sound.clone();
                m.tables[title_at(i) + 1] = length;
                self.ask_damaged(report, &m, 5 * i + k);
                m.tables[title_at(i) + 8..title_at(i + 1)].iter_mut().filter(|x| **x == 0).for_each(|x| *x = 120);
                self.ask_some(report, &m, i + 3 * k);
            }
        }
    }

    /// Each letter, and what stands after the last one, becomes each number at the edges of a to z.
    fn name_letters(&self, report: &mut Report) {
        for i in self.named_rows() {
            for (k, at) in places(&self.sound, i).into_iter().skip(4).enumerate() {
                for (j, x) in [0, 64, 65, 90, 96, 97, 98, 122, 123, 97 + 256, 97 + (1 << 16), u32::MAX].into_iter().enumerate() {
                    let mut m = self.sound.clone();
                    m.tables[at] = x;
                    self.ask_damaged(report, &m, 11 * i + k + 3 * j);
                }
            }
        }
    }

    /// A row has the name of another, or all that another has; then with the counts that belong to it.
    fn names_twice(&self, report: &mut Report) {
        for i in self.named_rows().into_iter().take(6) {
            for j in self.named_rows().into_iter().filter(|&j| j != i) {
                for from in [1, 0] {
                    let mut m = self.sound.clone();
                    m.tables.copy_within(title_at(i) + from..title_at(i + 1), title_at(j) + from);
                    self.count(&mut m);
                    self.ask_some(report, &m, i + 5 * j);
                }
            }
        }
    }

    /// The first empty row gets a name for each record, with its count and without.
    fn names_joined(&self, report: &mut Report) {
        let Some(at) = (0..NAMES).map(title_at).find(|&at| self.sound.tables[at] == 0) else { return };
        for s in 0..self.records() {
            for (k, letter) in [b'a', b'b', b'x'].into_iter().enumerate() {
                let mut m = self.sound.clone();
                m.tables[at] = s as u32 + 1;
                m.tables[at + 1] = 1;
                m.tables[at + 8] = u32::from(letter);
                self.ask(report, &m, 5 * s + k);
                self.count(&mut m);
                self.ask_all(report, &m);
            }
        }
    }

    /// The count of each slot becomes each number; that of an empty one means nothing.
    fn name_counts(&self, report: &mut Report) {
        for s in 0..=self.records() {
            for (k, count) in [0, 1, 2, 3, 31, 32, 33, 1 << 31, u32::MAX].into_iter().enumerate() {
                let mut m = self.sound.clone();
                m.tables[NAMED + s] = count;
                self.ask_some(report, &m, 5 * s + k);
            }
        }
    }

    /// Two rows exchanged, which changes no answer.
    fn name_rows(&self, report: &mut Report) {
        let rows = self.named_rows();
        for (i, j) in rows.iter().zip(&rows[1..]) {
            let mut m = self.sound.clone();
            (0..40).for_each(|n| m.tables.swap(title_at(*i) + n, title_at(*j) + n));
            self.ask_all(report, &m);
        }
    }

    /// Another number wherever it means nothing: between the length and the letters, after the last letter, in empty rows, as the count of an empty slot.
    fn names_beside(&self, report: &mut Report) {
        for x in [1, 97, u32::MAX] {
            let mut m = self.sound.clone();
            for row in (0..NAMES).map(title_at) {
                let (in_use, length) = (m.tables[row] > 0, m.tables[row + 1] as usize);
                m.tables[row + 2..row + 8].fill(x);
                m.tables[row + if in_use { 8 + length } else { 1 }..row + 40].fill(x);
            }
            for s in (0..64).filter(|s| *s >= self.records() || self.sound.tables[NUMBER + s] == 0) {
                m.tables[NAMED + s] = x;
            }
            self.ask_all(report, &m);
        }
    }

    pub fn names(&self, report: &mut Report) {
        self.group(report, "names, links", |r| self.name_links(r));
        self.group(report, "names, lengths", |r| self.name_lengths(r));
        self.group(report, "names, letters", |r| self.name_letters(r));
        self.group(report, "names, twice", |r| self.names_twice(r));
        self.group(report, "names, joined", |r| self.names_joined(r));
        self.group(report, "names, counts", |r| self.name_counts(r));
        self.group(report, "names, rows", |r| self.name_rows(r));
        self.group(report, "names, beside", |r| self.names_beside(r));
    }
}
