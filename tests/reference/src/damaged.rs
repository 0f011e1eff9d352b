//! Calls on damaged memory: stores, damage done to their memory, one call each time. The replies and a sum over what accepted calls leave are
//! printed. `answer` makes a call: this implementation's makes the prediction, the proved library's must print the same.
use crate::layout::{birth_at, list_at, log_needed, pages_at, queue_at, queued_at, result_needed, tables_needed, title_at, wait_at, Memory};
use crate::layout::{BASE, BEFORE, FREE, LENGTH, MARKS, NAMED, NUMBER, OPEN, QUEUE, WAITING, WINDOW};
use crate::store::{Geometry, Reply, NAMES};
use calls::{Call, Command, Naming};
use std::fmt::Write;

mod names;
mod queue;

/// Makes a call, on six numbers and the first so many numbers, bytes and numbers of the tables, the log and a result buffer.
pub trait Answers {
    fn make(&mut self, six: &[u64; 6], memory: &mut Memory);
    fn call(&mut self, six: &[u64; 6], memory: &mut Memory, lent: [usize; 3], c: Command) -> Reply;
}

/// What a record has a number for, beside its rows.
const COLUMNS: [usize; 7] = [NUMBER, OPEN, BEFORE, BASE, LENGTH, WINDOW, NAMED];

const TABLES: usize = 6400;
const LOG: usize = 768;
const RESULT: usize = 160;

struct Report<'a> {
    answers: &'a mut dyn Answers,
    text: String,
    last: Option<(u64, Reply)>,
    cases: u64,
    counts: [u64; 20],
    sums: [u64; 2],
    random: u64,
}

impl Report<'_> {
    fn line(&mut self, line: &str) {
        self.flush();
        writeln!(self.text, "{line}").unwrap();
    }

    fn flush(&mut self) {
        let Some((times, reply)) = self.last.take() else { return };
        if times > 1 {
            write!(self.text, "{times} x ").unwrap();
        }
        match reply {
            Err(n) => write!(self.text, "- {n}").unwrap(),
            Ok(numbers) => {
                self.text.push('+');
                for n in numbers {
                    write!(self.text, " {n}").unwrap();
                }
            }
        }
        self.text.push('\n');
    }

    fn add(&mut self, reply: Reply) {
        self.cases += 1;
        self.counts[reply.as_ref().err().copied().unwrap_or(0) as usize] += 1;
        match &mut self.last {
            Some((times, last)) if *last == reply => *times += 1,
            _ => {
                self.flush();
                self.last = Some((1, reply));
            }
        }
    }

    fn fold(&mut self, x: u64) {
        self.sums[0] = self.sums[0].wrapping_add(x);
        self.sums[1] = self.sums[1].wrapping_add(self.sums[0]);
    }

    fn next(&mut self) -> u64 {
        self.random = self.random * 48271 % 2147483647;
        self.random
    }

    fn small(&mut self) -> usize {
        (self.next() % 8) as usize
    }
}

/// A store with its memory, and the calls to ask of it.
struct Subject {
    six: [u64; 6],
    g: Geometry,
    lent: [usize; 3],
    sound: Memory,
    asks: Vec<Command<'static>>,
}

/// A digit, or for `?` a number that no store has; `n` is 62, `o` 63, `p` 64 and `q` 65, since they come so far after 0.
fn digit(b: u8) -> u32 {
    if b == b'?' {
        u32::MAX
    } else {
        u32::from(b - b'0')
    }
}

/// Calls of four bytes each: a letter and three digits, or a letter, a name and two digits, of which the first is N's number.
fn asks_of(text: &str) -> Vec<Command<'static>> {
    text.as_bytes().chunks(4).map(|a| call_of(a[0], a[1], [a[1], a[2], a[3]].map(digit))).collect()
}

/// The call of a letter and three numbers, or of a letter, a name and the second number.
fn call_of(letter: u8, name: u8, numbers: [u32; 3]) -> Command<'static> {
    let call = Call::of(letter, numbers).map(Command::Unnamed);
    let naming = Naming::of(letter, [numbers[1], 0, 0]).map(|naming| Command::Naming(naming, names::name(name)));
    call.or(naming).expect("the letter of a call")
}

impl Subject {
    fn made(six: [u64; 6], script: &str, asks: &str, report: &mut Report) -> Subject {
        let g = Geometry::new(six).expect("inside the limits");
        let lent = [tables_needed(&g), log_needed(&g), result_needed(&g)];
        let mut memory = Memory { tables: vec![7; TABLES], log: vec![9; LOG] };
        group(report, "store");
        report.answers.make(&six, &mut memory);
        report.add(Ok(vec![]));
        for c in asks_of(script) {
            let reply = report.answers.call(&six, &mut memory, lent, c);
            report.add(reply);
        }
        assert_eq!(asks.len(), 4 * ASKS, "four bytes a call");
        Subject { six, g, lent, sound: memory, asks: asks_of(asks) }
    }

    fn ask_of(&self, report: &mut Report, six: &[u64; 6], lent: [usize; 3], memory: &Memory, k: usize) {
        step(report, six, lent, &mut memory.clone(), self.asks[k % ASKS]);
    }

    fn ask(&self, report: &mut Report, memory: &Memory, k: usize) {
        self.ask_of(report, &self.six, self.lent, memory, k);
    }

    /// Asks nothing where nothing is damaged.
    fn ask_damaged(&self, report: &mut Report, memory: &Memory, k: usize) {
        if *memory != self.sound {
            self.ask(report, memory, k);
        }
    }

    fn records(&self) -> usize {
        self.six[3] as usize
    }

    fn blocks(&self) -> usize {
        self.g.blocks() as usize
    }

    /// The numbers with a meaning, and some beside each part of the tables.
    fn named(&self) -> Vec<usize> {
        let (slots, pages) = (self.records() + 1, self.six[2] as usize + 1);
        let mut at: Vec<usize> = (0..MARKS + self.six[0] as usize + 1).chain(FREE..FREE + 64).collect();
        at.extend(COLUMNS.into_iter().flat_map(|column| column..column + slots));
        at.extend(self.named_rows().into_iter().flat_map(|i| names::places(&self.sound, i)));
        at.extend((0..self.records()).flat_map(|s| pages_at(s)..pages_at(s) + pages));
        at.extend((0..self.records()).flat_map(|s| list_at(&self.g, s)..list_at(&self.g, s) + pages));
        at.extend(birth_at(&self.g, 0)..self.lent[0]);
        at
    }

    fn changed(&self, report: &mut Report, i: usize, way: usize, k: usize) {
        let mut m = self.sound.clone();
        let x = m.tables[i];
        m.tables[i] = [x.wrapping_add(1), x.wrapping_sub(1), 0, 1, 2, 3, u32::MAX, x ^ 1 << 31][way];
        self.ask_damaged(report, &m, k);
    }

    /// Each number, in one way or another.
    fn each(&self, report: &mut Report) {
        for i in 0..self.lent[0] {
            self.changed(report, i, 6 * (i % 2), i / 16);
        }
    }

    fn numbers(&self, report: &mut Report) {
        for way in 0..8 {
            for (k, i) in self.named().into_iter().enumerate() {
                self.changed(report, i, way, k + 5 * way);
                self.changed(report, i, way, 7 * k + 3 * way + 16);
            }
        }
    }

    fn bytes(&self, report: &mut Report) {
        for way in 0..4 {
            for i in 0..self.lent[1] {
                let mut m = self.sound.clone();
                let x = m.log[i];
                m.log[i] = [x.wrapping_add(1), x ^ 128, 0, 255][way];
                self.ask_damaged(report, &m, i / 4 + 5 * way);
            }
        }
    }

    fn exchanged(&self, report: &mut Report, apart: usize) {
        for i in 0..self.lent[0] - apart {
            let mut m = self.sound.clone();
            m.tables.swap(i, i + apart);
            self.ask_damaged(report, &m, i / 4);
        }
    }

    fn words(&self, report: &mut Report) {
        for i in 0..self.lent[1] / 8 {
            for j in i + 1..self.lent[1] / 8 {
                let mut m = self.sound.clone();
                for k in 0..8 {
                    m.log.swap(8 * i + k, 8 * j + k);
                }
                self.ask(report, &m, i + j);
            }
        }
    }

    fn last(&self, report: &mut Report) {
        for n in 999_998..=1_000_000 {
            let mut m = self.sound.clone();
            m.tables[6] = n;
            self.ask_all(report, &m);
        }
    }

    fn ask_all(&self, report: &mut Report, memory: &Memory) {
        for k in 0..ASKS {
            self.ask(report, memory, k);
        }
    }

    /// Two pages exchanged in every record.
    fn columns(&self, report: &mut Report) {
        for (x, y) in [(0, 1), (0, 2), (0, 3), (1, 2)] {
            let mut m = self.sound.clone();
            for s in 0..self.records() {
                m.tables.swap(pages_at(s) + x, pages_at(s) + y);
            }
            self.ask_all(report, &m);
        }
    }

    /// Two entries of a deadlist exchanged; one entry twice.
    fn lists(&self, report: &mut Report) {
        for s in 0..self.records() {
            let (row, length) = (list_at(&self.g, s), self.sound.tables[LENGTH + s] as usize);
            for (i, j) in (0..length).flat_map(|j| (0..j).map(move |i| (i, j))) {
                let mut m = self.sound.clone();
                m.tables.swap(row + i, row + j);
                self.ask_all(report, &m);
                m.tables[row + i] = m.tables[row + j];
                self.ask(report, &m, i + j);
            }
        }
    }

    /// Two slots exchanged: every column, both rows, and the links to them.
    fn slots(&self, report: &mut Report) {
        for (s, t) in [(0, 1), (0, self.records() - 1), (self.records() - 2, self.records() - 1)] {
            let mut m = self.sound.clone();
            for column in COLUMNS {
                m.tables.swap(column + s, column + t);
            }
            for i in 0..256 {
                m.tables.swap(pages_at(s) + i, pages_at(t) + i);
                m.tables.swap(list_at(&self.g, s) + i, list_at(&self.g, t) + i);
            }
            for at in (0..self.records()).flat_map(|i| [BEFORE + i, BASE + i]).chain((0..NAMES).map(title_at)) {
                let to = m.tables[at] as usize;
                m.tables[at] = if to == s + 1 {
                    t + 1
                } else if to == t + 1 {
                    s + 1
                } else {
                    to
                } as u32;
            }
            self.ask_all(report, &m);
        }
    }

    /// A birth changed, and with it the block's bit of the free words, unless the block waits or is queued.
    fn births(&self, report: &mut Report) {
        for b in 0..self.blocks() {
            for birth in 0..9 {
                let mut m = self.sound.clone();
                m.tables[birth_at(&self.g, b)] = birth;
                let kept = self.waiting(&m).contains(&(b as u32)) || self.queue(&m).contains(&(b as u32));
                set_bit(&mut m, b, birth == 0 && !kept);
                self.ask_damaged(report, &m, 5 * b + birth as usize);
            }
        }
    }

    /// The waiting list of a memory that has one.
    fn waiting<'a>(&self, m: &'a Memory) -> &'a [u32] {
        &m.tables[wait_at(&self.g, 0)..][..m.tables[WAITING] as usize]
    }

    /// The waiting list longer or shorter than it is: by its length alone, and with the bits of the blocks that it has then.
    fn wait_lengths(&self, report: &mut Report) {
        let now = self.waiting(&self.sound).len();
        for length in (0..=self.blocks() + 2).chain([1 << 16, u32::MAX as usize]) {
            let mut m = self.sound.clone();
            m.tables[WAITING] = length as u32;
            self.ask_damaged(report, &m, length);
            self.ask_damaged(report, &m, 3 * length + 1);
            if length < now {
                self.waiting(&self.sound)[length..].iter().for_each(|&b| set_bit(&mut m, b as usize, true));
                self.ask_all(report, &m);
            }
        }
    }

    /// Each entry of the waiting list becomes each number: one that is no block, one that is held, one that waits already, one that may be given. Then
    /// with the bits as they would be if the new one waited in the place of the old one.
    fn wait_entries(&self, report: &mut Report) {
        for (i, &old) in self.waiting(&self.sound).iter().enumerate() {
            for b in (0..self.blocks() as u32 + 2).chain([31, 32, 2047, 2048, 1 << 16, u32::MAX]) {
                let mut m = self.sound.clone();
                m.tables[wait_at(&self.g, i)] = b;
                self.ask_damaged(report, &m, 7 * i + b as usize % 100);
                if (b as usize) < self.blocks() {
                    set_bit(&mut m, old as usize, true);
                    set_bit(&mut m, b as usize, false);
                    self.ask_damaged(report, &m, 5 * i + b as usize);
                }
            }
        }
    }

    /// One more entry after the last: each number, with the bit of that block 0 and 1.
    fn wait_joined(&self, report: &mut Report) {
        let now = self.waiting(&self.sound).len();
        for b in 0..self.blocks() + 2 {
            for bit in [false, true] {
                let mut m = self.sound.clone();
                m.tables[WAITING] = now as u32 + 1;
                m.tables[wait_at(&self.g, now)] = b as u32;
                if b < self.blocks() {
                    set_bit(&mut m, b, bit);
                }
                self.ask(report, &m, 2 * b);
                self.ask(report, &m, 2 * b + 19);
            }
        }
    }

    /// Two entries of the waiting list exchanged; one of them twice. Each bit turned, of blocks that wait and of others, and a birth for each that waits.
    fn wait_others(&self, report: &mut Report) {
        let list = self.waiting(&self.sound);
        for (i, j) in (0..list.len()).flat_map(|j| (0..j).map(move |i| (i, j))) {
            let mut m = self.sound.clone();
            m.tables.swap(wait_at(&self.g, i), wait_at(&self.g, j));
            self.ask_all(report, &m);
            m.tables[wait_at(&self.g, i)] = m.tables[wait_at(&self.g, j)];
            self.ask(report, &m, i + j);
        }
        for b in 0..self.blocks() + 1 {
            let mut m = self.sound.clone();
            m.tables[FREE + b / 32] ^= 1 << (b % 32);
            self.ask(report, &m, b);
        }
        for (i, &b) in list.iter().enumerate() {
            for birth in 1..4 {
                let mut m = self.sound.clone();
                m.tables[birth_at(&self.g, b as usize)] = birth;
                self.ask(report, &m, 3 * i + birth as usize);
            }
        }
    }

    /// The window of each slot becomes each number: the least that is too large is 63. Only that of an open record means anything; then all others at
    /// once.
    fn windows(&self, report: &mut Report) {
        let is_open = |s: usize| self.sound.tables[NUMBER + s] > 0 && self.sound.tables[OPEN + s] > 0;
        let mut others = self.sound.clone();
        for s in 0..64 {
            for (k, window) in [0, 1, 2, 3, 61, 62, 63, 64, 1 << 31, u32::MAX].into_iter().enumerate() {
                let mut m = self.sound.clone();
                m.tables[WINDOW + s] = window;
                if is_open(s) {
                    self.ask_all(report, &m);
                } else if s <= self.records() {
                    self.ask_damaged(report, &m, 7 * s + k);
                }
            }
            if !is_open(s) {
                others.tables[WINDOW + s] = 63 + s as u32;
            }
        }
        self.ask_all(report, &others);
    }

    /// Two numbers with a meaning changed: one goes up or down, the other becomes a number below 5.
    fn twos(&self, report: &mut Report) {
        let mut spots = vec![6, 7, 8, 9, QUEUE, WAITING, MARKS, FREE];
        spots.extend((0..2).flat_map(|i| [birth_at, queue_at, queued_at, wait_at].map(|at| at(&self.g, i))));
        let columns = |s: usize| COLUMNS.map(|column| column + s);
        spots.extend((0..self.records()).flat_map(columns));
        spots.extend((0..self.records()).flat_map(|s| [pages_at(s), list_at(&self.g, s)]));
        for (k, &i) in spots.iter().enumerate() {
            for &j in &spots {
                for c in 0..10 {
                    let mut m = self.sound.clone();
                    m.tables[i] = if c % 2 == 0 { m.tables[i].wrapping_add(1) } else { m.tables[i].wrapping_sub(1) };
                    let y = c / 2;
                    if i != j && self.sound.tables[j] != y {
                        m.tables[j] = y;
                        self.ask(report, &m, k);
                    }
                }
            }
        }
    }

    /// Calls for another geometry; where `agreed`, the header says the same.
    fn foreign(&self, report: &mut Report, lent: [usize; 3], agreed: bool) {
        for which in 0..6 {
            for way in 0..4 {
                let mut six = self.six;
                six[which] = [six[which] + 1, six[which] - 1, 0, u64::MAX][way];
                let mut m = self.sound.clone();
                if agreed {
                    m.tables[which] = six[which] as u32;
                }
                for k in (0..ASKS).step_by(3) {
                    self.ask_of(report, &six, lent, &m, k);
                }
            }
        }
    }

    fn lengths(&self, report: &mut Report) {
        for which in 0..3 {
            let need = self.lent[which];
            for length in [need - 1, need / 2, 1, 0, need, need + 1, [TABLES, LOG, RESULT][which]] {
                let mut lent = self.lent;
                lent[which] = length;
                for k in 0..ASKS {
                    self.ask_of(report, &self.six, lent, &self.sound, k);
                }
            }
        }
    }

    fn place(&self, report: &mut Report) -> usize {
        let (slot, at) = (report.small(), report.small());
        match report.small() {
            0 if at < 4 => (report.next() % 32) as usize,
            0 => title_at(slot) + [0, 1, 8, 9][at - 4],
            1 | 2 => COLUMNS[at % 7] + slot,
            3 | 4 => pages_at(slot) + at / 2,
            5 => list_at(&self.g, slot) + at / 2,
            6 if at < 2 => FREE,
            6 if at < 5 => wait_at(&self.g, slot % self.blocks()),
            6 => queue_at(&self.g, slot % self.blocks()),
            _ if slot < 6 => birth_at(&self.g, at),
            _ => queued_at(&self.g, at % self.blocks()),
        }
    }

    fn few(&self, report: &mut Report) {
        for i in 0..400 {
            let m = self.few_changed(report, &self.sound);
            self.ask(report, &m, i);
        }
    }

    fn few_changed(&self, report: &mut Report, memory: &Memory) -> Memory {
        let mut m = memory.clone();
        for _ in 0..1 + report.small() / 2 {
            let at = self.place(report);
            m.tables[at] = report.small() as u32;
        }
        m
    }

    fn history(&self, report: &mut Report) {
        let mut m = self.sound.clone();
        for _ in 0..600 {
            let c = any_call(report, m.tables[6]);
            let mut damaged = self.few_changed(report, &m);
            step(report, &self.six, self.lent, &mut damaged, c);
            step(report, &self.six, self.lent, &mut m, c);
        }
    }

    /// Few numbers to many that are not 0; every other time the free words are those of a fresh store.
    fn tables_at_random(&self, report: &mut Report) {
        for i in 0..160 {
            let mut m = Memory { tables: self.sound.tables.clone(), log: vec![0; LOG] };
            for at in 6..TABLES {
                m.tables[at] = if report.next() & (4095 >> (i % 8)) == 0 { report.small() as u32 } else { 0 };
            }
            if i / 8 % 2 == 0 {
                m.tables[FREE..FREE + 64].fill(0);
                m.tables[FREE] = (1 << self.g.blocks()) - 1;
            }
            self.ask(report, &m, i);
        }
    }

    fn log_at_random(&self, report: &mut Report) {
        for i in 0..200 {
            let mut m = self.sound.clone();
            for _ in 0..1 + report.small() / 2 {
                let at = (report.next() % self.lent[1] as u64) as usize;
                m.log[at] = report.small() as u8;
            }
            self.ask(report, &m, i);
        }
    }

    fn all(&self, report: &mut Report) {
        self.group(report, "each", |r| self.each(r));
        self.group(report, "bytes", |r| self.bytes(r));
        self.group(report, "words", |r| self.words(r));
        let whole = [TABLES, LOG, RESULT];
        self.group(report, "foreign", |r| self.foreign(r, self.lent, false));
        self.group(report, "foreign", |r| self.foreign(r, whole, false));
        self.group(report, "agreed", |r| self.foreign(r, whole, true));
        self.group(report, "lengths", |r| self.lengths(r));
        self.group(report, "tables", |r| self.tables_at_random(r));
        self.meant(report);
    }

    /// Damage to what has a meaning.
    fn meant(&self, report: &mut Report) {
        self.group(report, "numbers", |r| self.numbers(r));
        for apart in [1, 40, 64, 256, 256 * self.records(), 2 * self.blocks(), 3 * self.blocks()] {
            self.group(report, "pairs", |r| self.exchanged(r, apart));
        }
        self.group(report, "last", |r| self.last(r));
        self.group(report, "columns", |r| self.columns(r));
        self.group(report, "lists", |r| self.lists(r));
        self.group(report, "slots", |r| self.slots(r));
        self.group(report, "births", |r| self.births(r));
        self.waits(report);
        self.windowed(report);
        self.group(report, "log", |r| self.log_at_random(r));
    }

    /// Damage to windows, and to few numbers.
    fn windowed(&self, report: &mut Report) {
        self.group(report, "windows", |r| self.windows(r));
        self.group(report, "few", |r| self.few(r));
        self.group(report, "history", |r| self.history(r));
    }

    fn full_of_names(&self, report: &mut Report) {
        self.group(report, "numbers", |r| self.numbers(r));
        self.group(report, "slots", |r| self.slots(r));
        self.names(report);
        self.group(report, "history", |r| self.history(r));
    }

    fn small(&self, report: &mut Report) {
        self.group(report, "twos", |r| self.twos(r));
        self.group(report, "columns", |r| self.columns(r));
        self.group(report, "slots", |r| self.slots(r));
    }

    /// Damage to the waiting list and to what depends on it.
    fn waits(&self, report: &mut Report) {
        self.group(report, "waiting, lengths", |r| self.wait_lengths(r));
        self.group(report, "waiting, entries", |r| self.wait_entries(r));
        self.group(report, "waiting, joined", |r| self.wait_joined(r));
        self.group(report, "waiting, others", |r| self.wait_others(r));
    }

    fn listed(&self, report: &mut Report) {
        self.group(report, "lists", |r| self.lists(r));
        self.group(report, "births", |r| self.births(r));
        self.waits(report);
        self.group(report, "log", |r| self.log_at_random(r));
        self.group(report, "history", |r| self.history(r));
    }

    fn group(&self, report: &mut Report, name: &str, cases: impl Fn(&mut Report)) {
        group(report, name);
        cases(report);
        let [a, b] = report.sums;
        report.line(&format!("memory {a} {b}"));
    }
}

/// The bit of a block in the free words becomes 1 or 0.
fn set_bit(m: &mut Memory, b: usize, free: bool) {
    let (word, bit) = (FREE + b / 32, 1 << (b % 32));
    m.tables[word] = if free { m.tables[word] | bit } else { m.tables[word] & !bit };
}

/// A call: its reply, and what an accepted one leaves, go to the report.
fn step(report: &mut Report, six: &[u64; 6], lent: [usize; 3], memory: &mut Memory, c: Command) {
    let reply = report.answers.call(six, memory, lent, c);
    if let Ok(given) = &reply {
        for &x in &memory.tables {
            report.fold(x as u64);
        }
        for &x in &memory.log {
            report.fold(x as u64);
        }
        for i in 0..RESULT {
            report.fold(given.get(i).map_or(1000 + i as u64, |&n| u64::from(n)));
        }
    }
    report.add(reply);
}

fn any_call(report: &mut Report, last: u32) -> Command<'static> {
    let letter = b"WWWWSSSFDDERYCLBEQQKKNNNUUMMTTT"[(report.next() % 31) as usize];
    let n = if letter == b'T' { report.small() as u32 } else { last.wrapping_sub(report.small() as u32) };
    let page = (report.small() / 2) as u32;
    let kind = (report.small() / 2) as u32;
    if Naming::LETTERS.contains(&letter) {
        return call_of(letter, b"abcdABC0123456"[(report.next() % 14) as usize], [0, n, 0]);
    }
    call_of(letter, 0, [n, page, kind])
}

fn group(report: &mut Report, name: &str) {
    report.line(name);
    report.sums = [0, 0];
}

/// How many calls are asked of each store.
const ASKS: usize = 58;

/// Asked of the stores whose next S deletes by a window: the names that one of them has are a, b, c and d, and the longest.
const OF_WINDOWS: &str = "B000W500W512W530W503W540W600W611W200W?00E500E510E520E530E600E100S500S600S100S700S500S600F100F200F400F500\
                          D100D200D300D400D500D600R500R610R2?0Y000C000L000Q100Q200Q500K510K5n0Nx10Ny50Na30N310Nz90Ua00Ux00M100Mx00M000\
                          T100T200Tp00Tq00T000";

/// The stores, and the calls asked of each.
const SUBJECTS: [([u64; 6], &str, &str); 18] = [
    (
        [2, 4, 3, 7, 2, 24],
        "B000W100W111W122S100W200Y000S200W311W302S300E420E410D200F100W500S500W601F500E710",
        "B000W400W612W721W100W730W703W?00E400E600E610E720E200S400R3?0S700S100F100F300F500F400D100D300D400D600D700D500R310R710Y000C000L000\
         Q100Q300Q400Q700Q200K410K620K7n0K7o0K100K910Na10NB40N140N310N440N090Ua00Ma00U400M000\
         T100T200Tp00Tq00T000",
    ),
    (
        [1, 4, 2, 4, 8, 10],
        "B000W100S100W200W200F100D100",
        "B000W200W210W220W300W311W100W203W?00E300E200E210E100E900S200S300S100S800F100F200F700D100D200D300D900R200R110R2?0R400Y000C000L000\
         Q100Q200Q300Q900Q?00K210K320K2n0K3o0K110K910Na10NB20N230N310N520N?90Na90Ua00Mz00M300\
         T100T200Tp00Tq00T000",
    ),
    (
        [1, 2, 2, 2, 1, 6],
        "B000W100S100W200Y000Y000Y000Y000",
        "B000W200W210W100W220W203W900E200E210E100E2?0E900S200S100S900F100F200F900D100D200D900R200R100R110R120R900Y000C000L000D?00R210S?00\
         Q100Q200Q900Q?00Q000K210K220K2n0K2o0K110K900Na10NB20N120N320N610Na?0N3?0Ua00Ma00U000\
         T100T200Tp00Tq00T000",
    ),
    (
        [1, 2, 1, 5, 1, 6],
        "B000W100S100S200S300F300D400S500E600",
        "B000W600W610W603W100W?00E600E500E610S600S500S900F100F300F500F600D100D200D300D500D600D900R100R600R200R300R500R610Y000C000L000D?00\
         Q100Q200Q300Q500Q600K610K620K6n0K6o0K510K410Na10NB60N150N330N760Na40N740Uz00MB00M700\
         T100T200Tp00Tq00T000",
    ),
    (
        [3, 15, 6, 5, 4, 92],
        "B000W100W112W120W132W141W152S100W202W210E250S200W322W300E340E310S300E430W402",
        "B000W400W411W422W432W443W460W100E400E410E420E430E450E100S400S100F100F200F300F400D100D200D300D400D500R400R110R430Y000C000L000D900\
         Q100Q200Q300Q400Q500K410K420K4n0K4o0K300K510Na10NB40N130N310N840Na50N050Ua00Ma00M800\
         T100T200Tp00Tq00T000",
    ),
    // a deadlist with three births, two of them above the pred, out of order
    (
        [2, 8, 4, 5, 3, 34],
        "B000W100W111W122W130S100W200W211S200W320S300D200E410W420W401E430F100E500",
        "B000W400W413W440W100E400E410E420E430E300S400S500S100F100F300F400D100D300D400D500D900R400R110R4?0Y000C000L000\
         Q100Q300Q400Q500Q200Q600Q?00Q000W510R500K410K520K4n0K5o0K110K910Na10NB40N130N350N440Na20N020Ua00Ma00U300\
         T100T200Tp00Tq00T000",
    ),
    // blocks that wait, not by their numbers, after others that were released; of 34 blocks, so that two free words have some
    (
        [2, 17, 4, 4, 3, 70],
        "B000W100W111W122W130W101W110Y000W121S100W201W212W202E220W231W231W230D100",
        "B000W200W211W222W232W204W243W?00E200E210E220E230E240E100S200S100S300F100F200D200D100D300D?00R200R210R2?0R130Y000C000L000\
         Q200Q100Q300Q?00W201Y000L000K210K220K2n0K2o0K200K110Na20NB20N120N320N420Na10N010Ua00Ma00M300\
         T100T200Tp00Tq00T000",
    ),
    // full: a block on a page, the others wait
    (
        [1, 3, 2, 2, 1, 8],
        "B000W100W100W100",
        "B000W100W110W120W103W200W?00W101W112E100E110E120E200S100S200S?00F100F200D100D200D?00R100R110R120R200Y000C000L000W100Y000C000L000\
         Q100Q200Q?00E100D100K110K120K1n0K1o0K100K210Na10NB10N110N310N410Na20N020Ua00Ma00M300\
         T100T200Tp00Tq00T000",
    ),
    // every block waits
    (
        [1, 3, 2, 2, 1, 8],
        "B000W100W100W100E100",
        "B000W100W110W120W103W200W?00W101W112E100E110E120E200S100S200S?00F100F200D100D200D?00R100R110R120R200Y000C000L000W100Y000C000L000\
         Q100Q200Q?00E100D100K110K120K1n0K1o0K100K210Na10NB10N110N310N410Na20N020Ua00Ma00M300\
         T100T200Tp00Tq00T000",
    ),
    // a line with a window, and a seal that will delete three records of it and pass over one that is forked, which has a window too
    ([2, 8, 4, 8, 3, 40], "B000W100W111W122S100W200W211S200W300S300W400W411E420S400F200W600W500W511K520K610", OF_WINDOWS),
    // the same with a log that has fewer words left than it queues blocks
    (
        [1, 12, 4, 7, 3, 26],
        "B000W100W111W122S100W200W211S200W300S300W400W411E420S400F200W600W500W511K520Y000Y000Y000Y000Y000Y000Y000Y000Y000Y000Y000",
        OF_WINDOWS,
    ),
    // a full table, in which the window would make room
    (
        [1, 4, 2, 3, 2, 10],
        "B000W100S100W200S200W311K310",
        "B000W300W310W320W303W100W?00W301W312E300E310E320E200S300S200S900F100F200F300D100D200D300D900R300R110R320R200Y000C000L000S300L000\
         Q100Q200Q300Q900K310K320K3n0K3o0K100K210K910Na10NB30N120N330N420Na90N090Ua00Ma00M300\
         T100T200Tp00Tq00T000",
    ),
    // a line with a window and names: its seal moves one of the longest, deletes two records and passes over a named one, and over one that is forked too
    ([2, 8, 4, 8, 3, 40], "B000W100W111W122S100W200W211S200W300S300W400W411E420S400F200W600W500W511K520K610Na30Nb20NC30N150Nf40Ng60Uf00", OF_WINDOWS),
    // the same with a log that has fewer words left than it queues blocks
    (
        [1, 12, 4, 7, 3, 26],
        "B000W100W111W122S100W200W211S200W300S300W400W411E420S400F200W600W500W511K520Na30Nb20NC30N150Y000Y000Y000Y000Y000Y000Y000Y000Y000Y000Y000Y000",
        OF_WINDOWS,
    ),
    // as many names as there can be, most of them on a record that is forked, one on each that is open
    (
        [1, 4, 2, 4, 8, 10],
        "B000W100S100F100Na10Nb10Nc10Nd10Ne10Nf10Ng10Nh10Ni10Nj10Nk10Nl10Nm10Nn10No10Np10Nq10Nr10Ns10Nt10Nu10Nv10Nw10Nx10Ny10Nz10\
         NA10NB10NC10ND10NE20NF30",
        "B000W200W210W220W300W311W100W203W?00E300E200E210E100E900S200S300S100S800F100F200F700D100D200D300D900R200R110R2?0R400Y000C000L000\
         Q100Q200Q300Q900Q?00K210K320K2n0K3o0K110K910N110N120NF30N310N?90UE00Uz00MF00MA00MX00\
         T100T200Tp00Tq00T000",
    ),
    // a queue of two deletes, begun where another was freed in part, and blocks that wait; of 34 blocks, and the next seal queues more
    (
        [2, 17, 4, 5, 3, 70],
        "B000W100W111W122W130S100W200W211B000W300W312W331D300T200D100S200W421W400B000W500W501K410",
        "B000W400W411W422W432W404W443W?00E400E410E420E430E540W502S400S500S200S300F200F400D200D400D500D?00R200R410R4?0R530Y000C000L000\
         Q200Q400Q300Q?00Q500C000K410K520K2n0K4o0K400K110Na20NB20N120N340N440Na10N010Ua00Ma00M300\
         T100T200T300Tp00T000",
    ),
    // a queue longer than the log has words left
    (
        [1, 4, 4, 3, 1, 10],
        "B000W100W110W120D100B000Y000Y000Y000Y000Y000Y000",
        "B000W200W210W220W203W100W?00W201W212W232E200E210E220E100S200S100S?00F100F200D100D200D?00R200R210R220R100Y000C000L000W240Y000C000\
         Q100Q200Q?00E240D300K210K220K2n0K2o0K200K310Na20NB20N120N320N420Na10N010Ua00Ma00M300\
         T100T200Tp00Tq00T000",
    ),
    // every block is queued
    (
        [1, 3, 2, 2, 1, 8],
        "B000W100W110B000W200D200D100B000",
        "B000W300W310W320W303W200W?00W301W312E300E310E320E200S300S200S?00F100F300D100D300D?00R300R310R320R200Y000C000L000W300Y000C000L000\
         Q100Q300Q?00E300D300K310K320K3n0K3o0K300K210Na30NB30N130N330N430Na20N020Ua00Ma00M300\
         T100T200Tp00Tq00T000",
    ),
];

pub fn printed(answers: &mut dyn Answers) -> String {
    let mut report = Report { answers, text: String::new(), last: None, cases: 0, counts: [0; 20], sums: [0, 0], random: 1 };
    for (i, (six, script, asks)) in SUBJECTS.into_iter().enumerate() {
        let subject = Subject::made(six, script, asks, &mut report);
        match i {
            3 => subject.small(&mut report),
            4 | 6 | 9 => subject.meant(&mut report),
            5 => subject.listed(&mut report),
            8 => subject.waits(&mut report),
            10 | 11 => subject.windowed(&mut report),
            12 => {
                subject.meant(&mut report);
                subject.names(&mut report);
            }
            13 => subject.windowed(&mut report),
            14 => subject.full_of_names(&mut report),
            15 => {
                subject.meant(&mut report);
                subject.queues(&mut report);
            }
            16 | 17 => {
                subject.queues(&mut report);
                subject.windowed(&mut report);
            }
            _ => subject.all(&mut report),
        }
    }
    let (cases, counts) = (report.cases, report.counts);
    report.line(&format!("cases {cases}"));
    report.line(&format!("accepted {}", counts[0]));
    for (k, &count) in counts.iter().enumerate().skip(1) {
        if count != 0 {
            report.line(&format!("refused {k} {count}"));
        }
    }
    report.text
}
