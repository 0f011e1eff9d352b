//! Damage to the queue: to its length, its entries and the births of its blocks.
use super::{set_bit, Report, Subject};
use crate::layout::{birth_at, pages_at, queue_at, queued_at, wait_at, Memory, FREE, QUEUE, WAITING};
use crate::log::bytes_of;
use crate::store::word;

impl Subject {
    /// The queue of a memory that has one.
    pub fn queue<'a>(&self, m: &'a Memory) -> &'a [u32] {
        &m.tables[queue_at(&self.g, 0)..][..m.tables[QUEUE] as usize]
    }

    /// A word more in the log, if it has room: a block given, or freed.
    fn logged(&self, m: &mut Memory, b: u32, code: u64) {
        let used = m.tables[9] as usize;
        if used < self.g.words as usize {
            m.log[8 * used..][..8].copy_from_slice(&bytes_of(&[word(b, code)]));
            m.tables[9] += 1;
        }
    }

    /// A block is out of the queue's births and of the log, as where it was freed and no longer waits.
    fn dropped(&self, m: &mut Memory, b: u32) {
        m.tables[queued_at(&self.g, b as usize)] = 0;
        set_bit(m, b as usize, true);
        self.logged(m, b, 2);
    }

    /// A block has a birth in the queue, as where it was given and its record deleted; not so in the log.
    fn joined(&self, m: &mut Memory, b: u32, birth: u32) {
        m.tables[queued_at(&self.g, b as usize)] = birth;
        set_bit(m, b as usize, false);
    }

    /// The queue longer or shorter than it is: by its length alone, then without the births of the blocks that it lost, and with a log that frees them.
    fn queue_lengths(&self, report: &mut Report) {
        let now = self.queue(&self.sound).to_vec();
        for length in (0..=self.blocks() + 2).chain([1 << 16, u32::MAX as usize]) {
            let mut m = self.sound.clone();
            m.tables[QUEUE] = length as u32;
            self.ask_damaged(report, &m, length);
            self.ask_damaged(report, &m, 3 * length + 1);
            if length < now.len() {
                now[length..].iter().for_each(|&b| m.tables[queued_at(&self.g, b as usize)] = 0);
                self.ask(report, &m, length);
                now[length..].iter().for_each(|&b| self.dropped(&mut m, b));
                self.ask_all(report, &m);
            }
        }
    }

    /// Each entry becomes each number: one that is no block, one on a page, one that is queued already, one that waits, one that may be given. Then with the
    /// births and bits as they would be if the new one were queued in the place of the old one, and a log that frees the old one; then with the new one in it.
    fn queue_entries(&self, report: &mut Report) {
        for (i, &old) in self.queue(&self.sound).iter().enumerate() {
            let birth = self.sound.tables[queued_at(&self.g, old as usize)];
            for b in (0..self.blocks() as u32 + 2).chain([31, 32, 2047, 2048, 1 << 16, u32::MAX]).filter(|&b| b != old) {
                let mut m = self.sound.clone();
                m.tables[queue_at(&self.g, i)] = b;
                self.ask(report, &m, 7 * i + b as usize % 100);
                if (b as usize) < self.blocks() {
                    self.dropped(&mut m, old);
                    self.joined(&mut m, b, birth);
                    self.ask(report, &m, 5 * i + b as usize);
                    self.logged(&mut m, b, 1);
                    self.ask_some(report, &m, 3 * i + b as usize);
                }
            }
        }
    }

    /// One more entry after the last: each number; then with a birth, which is the last number that was used, or the next; then with its bit, and with a
    /// word in the log.
    fn queue_joined(&self, report: &mut Report) {
        let (now, last) = (self.queue(&self.sound).len(), self.sound.tables[6]);
        for b in 0..self.blocks() + 2 {
            let mut m = self.sound.clone();
            m.tables[QUEUE] = now as u32 + 1;
            m.tables[queue_at(&self.g, now)] = b as u32;
            self.ask(report, &m, 2 * b);
            for birth in [last, last + 1] {
                let mut m = m.clone();
                m.tables[queued_at(&self.g, b)] = birth;
                self.ask(report, &m, 2 * b + 19);
                if b < self.blocks() {
                    self.joined(&mut m, b as u32, birth);
                    self.ask(report, &m, 2 * b + 3);
                    self.logged(&mut m, b as u32, 1);
                    self.ask_some(report, &m, b);
                }
            }
        }
    }

    /// The birth of each block, queued or not, becomes each number at the edges.
    fn queue_births(&self, report: &mut Report) {
        let last = self.sound.tables[6];
        for b in 0..self.blocks() {
            for (k, birth) in [0, 1, 2, last, last + 1, 999_999, u32::MAX].into_iter().enumerate() {
                let mut m = self.sound.clone();
                m.tables[queued_at(&self.g, b)] = birth;
                self.ask_some(report, &m, 5 * b + k);
            }
        }
    }

    /// Two entries exchanged, which changes only what a T frees first; one of them twice.
    fn queue_order(&self, report: &mut Report) {
        let length = self.queue(&self.sound).len();
        for (i, j) in (0..length).flat_map(|j| (0..j).map(move |i| (i, j))) {
            let mut m = self.sound.clone();
            m.tables.swap(queue_at(&self.g, i), queue_at(&self.g, j));
            self.ask_all(report, &m);
            m.tables[queue_at(&self.g, i)] = m.tables[queue_at(&self.g, j)];
            self.ask(report, &m, i + j);
        }
    }

    /// A queued block somewhere else too, or instead: among the births, on a page, on the waiting list, in the free words.
    fn queue_elsewhere(&self, report: &mut Report) {
        for (k, &b) in self.queue(&self.sound).iter().enumerate() {
            let at = b as usize;
            for birth in 1..4 {
                let mut m = self.sound.clone();
                m.tables[birth_at(&self.g, at)] = birth;
                self.ask(report, &m, k + birth as usize);
                m.tables[queued_at(&self.g, at)] = 0;
                self.ask(report, &m, 3 * k + birth as usize);
            }
            for place in (0..self.records()).flat_map(|s| (0..self.six[2] as usize).map(move |x| pages_at(s) + x)) {
                let mut m = self.sound.clone();
                m.tables[place] = b + 1;
                self.ask(report, &m, k + place);
                m.tables[birth_at(&self.g, at)] = m.tables[queued_at(&self.g, at)];
                self.ask(report, &m, 3 * k + place);
            }
            let mut m = self.sound.clone();
            m.tables[FREE + at / 32] ^= 1 << (at % 32);
            self.ask(report, &m, k);
            let (mut m, waits) = (self.sound.clone(), self.sound.tables[WAITING] as usize);
            if waits < self.blocks() {
                m.tables[wait_at(&self.g, waits)] = b;
                m.tables[WAITING] += 1;
                self.ask_some(report, &m, k);
                self.logged(&mut m, b, 2);
                self.ask_some(report, &m, k + 1);
            }
        }
    }

    /// Another number wherever it means nothing: after the last entry.
    fn queue_beside(&self, report: &mut Report) {
        for x in [0, 1, u32::MAX] {
            let mut m = self.sound.clone();
            let length = self.queue(&m).len();
            m.tables[queue_at(&self.g, length)..queue_at(&self.g, self.blocks())].fill(x);
            self.ask_all(report, &m);
        }
    }

    pub fn queues(&self, report: &mut Report) {
        self.group(report, "queue, lengths", |r| self.queue_lengths(r));
        self.group(report, "queue, entries", |r| self.queue_entries(r));
        self.group(report, "queue, joined", |r| self.queue_joined(r));
        self.group(report, "queue, births", |r| self.queue_births(r));
        self.group(report, "queue, order", |r| self.queue_order(r));
        self.group(report, "queue, elsewhere", |r| self.queue_elsewhere(r));
        self.group(report, "queue, beside", |r| self.queue_beside(r));
    }
}
