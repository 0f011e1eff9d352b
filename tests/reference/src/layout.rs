//! The lent memory, as docs/LAYOUT.md describes it: whether it is sound, the store it stands for, and what a call leaves in it.
//! Soundness is decided the crude way, by the rules' sentences: every pair of records, every page of every record, sets of blocks.
use crate::damaged::Answers;
use crate::log::{read_every, words_of};
use crate::store::{Geometry, Line, Record, Reply, Store, LETTERS, NAMES};
use calls::{Call, Command};
use std::collections::{BTreeMap, BTreeSet};

/// how many blocks are in the queue, and how many wait
pub const QUEUE: usize = 10;
pub const WAITING: usize = 11;
pub const MARKS: usize = 16;
pub const FREE: usize = 64;
pub const NUMBER: usize = 192;
pub const OPEN: usize = 256;
pub const BEFORE: usize = 320;
pub const BASE: usize = 384;
pub const LENGTH: usize = 448;
pub const WINDOW: usize = 576;
/// of each slot: how many names are on its record
pub const NAMED: usize = 640;

/// Tables and log of any length.
#[derive(Clone, PartialEq)]
pub struct Memory {
    pub tables: Vec<u32>,
    pub log: Vec<u8>,
}

pub fn tables_needed(g: &Geometry) -> usize {
    wait_at(g, g.blocks() as usize)
}

pub fn log_needed(g: &Geometry) -> usize {
    8 * g.words as usize
}

pub fn result_needed(g: &Geometry) -> usize {
    2 * g.blocks() as usize + 64
}

/// Where the pages of a slot begin, where its deadlist does, where the birth of a block stands, and where an entry of the queue, the birth of a queued
/// block and an entry of the waiting list do.
pub fn pages_at(slot: usize) -> usize {
    2048 + 256 * slot
}

pub fn list_at(g: &Geometry, slot: usize) -> usize {
    pages_at(g.records as usize) + 256 * slot
}

pub fn birth_at(g: &Geometry, b: usize) -> usize {
    list_at(g, g.records as usize) + b
}

pub fn queue_at(g: &Geometry, i: usize) -> usize {
    birth_at(g, g.blocks() as usize) + i
}

pub fn queued_at(g: &Geometry, b: usize) -> usize {
    birth_at(g, 2 * g.blocks() as usize) + b
}

pub fn wait_at(g: &Geometry, i: usize) -> usize {
    birth_at(g, 3 * g.blocks() as usize) + i
}

/// Where a row of the names begins: the link of its record, the length of the name, and from number 8 on its letters.
pub fn title_at(i: usize) -> usize {
    768 + 40 * i
}

/// A record; links are slots.
struct Row {
    number: u32,
    open: bool,
    before: Option<usize>,
    base: Option<usize>,
    /// means nothing in a sealed record
    window: u32,
    named: u32,
    pages: Vec<Option<u32>>,
    /// the deadlist, in the order of joining
    list: Vec<u32>,
}

/// A row of the names that is in use: the slot of its record, and the letters.
struct Title {
    on: usize,
    length: u32,
    letters: Vec<u32>,
}

impl Title {
    fn is_name(&self) -> bool {
        (1..=LETTERS as u32).contains(&self.length) && self.letters.iter().all(|x| (97..=122).contains(x))
    }

    /// The name of a row that has one.
    fn name(&self) -> Vec<u8> {
        self.letters.iter().map(|&x| x as u8).collect()
    }
}

/// Tables read into rows; links may still lead anywhere.
struct Tables<'a> {
    g: Geometry,
    t: &'a [u32],
    rows: BTreeMap<usize, Row>,
    /// the rows of the names that are in use, by their places
    titles: BTreeMap<usize, Title>,
    /// of each block: its birth if a page has it, else 0
    births: Vec<u32>,
    /// the queue, in its order, and of each block its birth if it is there, else 0
    queue: Vec<u32>,
    queued: Vec<u32>,
    /// the waiting list, in the order of freeing
    waiting: Vec<u32>,
}

/// A link: slot + 1, 0 for none.
fn link(x: u32) -> Option<usize> {
    (x as usize).checked_sub(1)
}

/// A deadlist longer than a record has pages is read as far as its row goes, a queue or a waiting list longer than the blocks as far as those; all three
/// are refused in any case.
fn row_of(g: &Geometry, t: &[u32], slot: usize) -> Row {
    let pages = &t[pages_at(slot)..][..g.pages as usize];
    let list = &t[list_at(g, slot)..][..(t[LENGTH + slot] as usize).min(256)];
    Row {
        number: t[NUMBER + slot],
        open: t[OPEN + slot] > 0,
        before: link(t[BEFORE + slot]),
        base: link(t[BASE + slot]),
        window: t[WINDOW + slot],
        named: t[NAMED + slot],
        pages: pages.iter().map(|&x| x.checked_sub(1)).collect(),
        list: list.to_vec(),
    }
}

/// A name longer than it may be is read as far as the longest goes, and refused in any case.
fn title_of(t: &[u32], i: usize) -> Option<Title> {
    let row = &t[title_at(i)..title_at(i + 1)];
    let letters = &row[8..][..(row[1] as usize).min(LETTERS)];
    link(row[0]).map(|on| Title { on, length: row[1], letters: letters.to_vec() })
}

fn rows_of(g: Geometry, t: &[u32]) -> Tables<'_> {
    let used = (0..g.records as usize).filter(|slot| t[NUMBER + slot] > 0);
    let rows = used.map(|slot| (slot, row_of(&g, t, slot))).collect();
    let blocks = g.blocks() as usize;
    let births = t[birth_at(&g, 0)..][..blocks].to_vec();
    let queued = t[queued_at(&g, 0)..][..blocks].to_vec();
    let queue = t[queue_at(&g, 0)..][..(t[QUEUE] as usize).min(blocks)].to_vec();
    let waiting = t[wait_at(&g, 0)..][..(t[WAITING] as usize).min(blocks)].to_vec();
    let titles = (0..NAMES).filter_map(|i| title_of(t, i).map(|title| (i, title))).collect();
    Tables { g, t, rows, titles, births, queue, queued, waiting }
}

impl Tables<'_> {
    /// The number of the record at a link, 0 for none.
    fn number(&self, link: Option<usize>) -> u32 {
        link.map_or(0, |s| self.rows[&s].number)
    }

    fn parent(&self, slot: usize) -> Option<usize> {
        let row = &self.rows[&slot];
        row.before.or(row.base)
    }

    /// Whether a record is another or descends from it.
    fn descends(&self, slot: usize, from: usize) -> bool {
        let mut at = Some(slot);
        while let Some(s) = at {
            if s == from {
                return true;
            }
            at = self.parent(s);
        }
        false
    }

    fn having(&self, b: u32) -> Vec<(usize, usize)> {
        let mut places = Vec::new();
        for (&slot, row) in &self.rows {
            for (page, &x) in row.pages.iter().enumerate() {
                if x == Some(b) {
                    places.push((slot, page));
                }
            }
        }
        places
    }

    fn header_sound(&self) -> bool {
        let (g, t) = (&self.g, self.t);
        t[..6] == g.six()
            && t[6] <= 999_999
            && t[7] < g.arenas
            && t[8] < g.turn
            && t[9] <= g.words
            && (0..g.arenas as usize).all(|a| t[MARKS + a] < g.per)
    }

    /// A link of a row leads to a sealed record with a smaller number, or is none.
    fn link_sound(&self, row: &Row, link: Option<usize>) -> bool {
        link.map_or(true, |s| self.rows.get(&s).is_some_and(|to| !to.open && to.number < row.number))
    }

    fn records_sound(&self) -> bool {
        let alone = self.rows.values().all(|row| {
            row.number <= self.t[6]
                && self.link_sound(row, row.before)
                && self.link_sound(row, row.base)
                && row.before.map_or(true, |s| self.rows[&s].base == row.base)
                && (!row.open || row.window <= 62)
        });
        alone && self.rows.iter().all(|(a, x)| self.rows.iter().all(|(b, y)| a == b || pair_sound(x, y)))
    }

    /// A name is on a record in the store, and no other row has it; a record has as many as its count says, and an open one has one at most.
    fn titles_sound(&self) -> bool {
        let alone = self.titles.values().all(|title| self.rows.contains_key(&title.on) && title.is_name());
        let others = |i: usize| self.titles.iter().filter(move |(&j, _)| j != i).map(|(_, title)| title);
        let once = self.titles.iter().all(|(&i, title)| others(i).all(|other| other.letters != title.letters));
        let counted = self.rows.iter().all(|(&slot, row)| {
            let names = self.titles.values().filter(|title| title.on == slot).count();
            row.named as usize == names && (!row.open || names <= 1)
        });
        alone && once && counted
    }

    /// The blocks with a birth are those on pages, each on one page number only.
    fn pages_sound(&self) -> bool {
        let last = self.g.blocks();
        if !self.rows.values().all(|row| row.pages.iter().flatten().all(|&b| b < last)) {
            return false;
        }
        (0..last).all(|b| {
            let places = self.having(b);
            places.iter().all(|&(_, page)| page == places[0].1) && (self.births[b as usize] > 0) != places.is_empty()
        })
    }

    /// Blocks born at most the parent are on the parent's same page, later ones only on the record and its descendants.
    fn births_sound(&self) -> bool {
        self.rows.iter().all(|(&slot, row)| {
            let parent = self.parent(slot);
            row.pages.iter().enumerate().all(|(page, &x)| {
                let Some(b) = x else { return true };
                let birth = self.births[b as usize];
                if birth <= self.number(parent) {
                    return parent.is_some_and(|m| self.rows[&m].pages[page] == Some(b));
                }
                birth <= row.number && self.having(b).iter().all(|&(s, _)| self.descends(s, slot))
            })
        })
    }

    /// A deadlist has each of its blocks once, in any order; that of an empty slot has none.
    fn deadlists_sound(&self) -> bool {
        let empty = (0..self.g.records as usize).filter(|slot| !self.rows.contains_key(slot));
        if !empty.into_iter().all(|slot| self.t[LENGTH + slot] == 0) {
            return false;
        }
        self.rows.iter().all(|(&slot, row)| {
            let has = |s: usize| self.rows[&s].pages.iter().flatten().copied().collect::<BTreeSet<u32>>();
            let before = row.before.map_or(BTreeSet::new(), has);
            let base = self.number(row.base);
            let should: BTreeSet<u32> = before.difference(&has(slot)).copied().filter(|&b| self.births[b as usize] > base).collect();
            let is: BTreeSet<u32> = row.list.iter().copied().collect();
            should == is && self.t[LENGTH + slot] as usize == is.len()
        })
    }

    /// The queue has blocks that no page has, each once; these have a birth there, a number that was used, and no others do.
    fn queue_sound(&self) -> bool {
        let queue: BTreeSet<u32> = self.queue.iter().copied().collect();
        self.t[QUEUE] as usize == queue.len()
            && queue.iter().all(|&b| b < self.g.blocks() && self.births[b as usize] == 0)
            && (0..self.g.blocks()).all(|b| queue.contains(&b) == (self.queued[b as usize] > 0))
            && self.queued.iter().all(|&birth| birth <= self.t[6])
    }

    /// The waiting list has blocks that are not held, each once.
    fn waiting_sound(&self) -> bool {
        let (waiting, held): (BTreeSet<u32>, BTreeSet<u32>) = (self.waiting.iter().copied().collect(), self.held());
        self.t[WAITING] as usize == waiting.len() && waiting.iter().all(|b| *b < self.g.blocks() && !held.contains(b))
    }

    fn free_sound(&self) -> bool {
        let kept = self.held().into_iter().chain(self.waiting.iter().copied()).collect();
        (0..64).all(|k| self.t[FREE + k] == free_word(&kept, &self.g, k))
    }

    /// The blocks on pages and in the queue.
    fn held(&self) -> BTreeSet<u32> {
        (0..self.g.blocks()).filter(|&b| self.birth(b) > 0).collect()
    }

    /// The birth of a held block, 0 of any other.
    fn birth(&self, b: u32) -> u32 {
        self.births[b as usize].max(self.queued[b as usize])
    }

    fn sound(&self, log: &[u8]) -> bool {
        self.header_sound()
            && self.records_sound()
            && self.titles_sound()
            && self.pages_sound()
            && self.births_sound()
            && self.deadlists_sound()
            && self.queue_sound()
            && self.waiting_sound()
            && self.free_sound()
            && read_every(&self.g, &words_of(&log[..8 * self.t[9] as usize])) == Some(self.held())
    }

    /// The record that follows another in its line.
    fn follower(&self, slot: usize) -> Option<usize> {
        self.rows.iter().find(|(_, row)| row.before == Some(slot)).map(|(&s, _)| s)
    }

    /// A line: a first record and all that follow it. Two first records of one base are two lines. Its window stands with its open record.
    fn line(&self, first: usize) -> Line {
        let mut line = Line { base: self.number(self.rows[&first].base), window: 0, records: Vec::new() };
        let mut at = Some(first);
        while let Some(s) = at {
            let row = &self.rows[&s];
            line.records.push(row.number);
            line.window = if row.open { row.window } else { 0 };
            at = self.follower(s);
        }
        line
    }

    fn shards(&self, list: &[u32]) -> BTreeMap<u32, Vec<u32>> {
        let mut shards: BTreeMap<u32, Vec<u32>> = BTreeMap::new();
        for &b in list {
            shards.entry(self.births[b as usize]).or_default().push(b);
        }
        shards
    }

    /// The store that sound tables stand for.
    fn store(&self, log: &[u8]) -> Store {
        let mut store = Store::new(self.g);
        store.last = self.t[6];
        store.counter = self.t[7];
        store.writes = self.t[8];
        store.marks = (0..self.g.arenas as usize).map(|a| self.t[MARKS + a]).collect();
        store.log = words_of(&log[..8 * self.t[9] as usize]);
        for b in self.held() {
            store.births.insert(b, self.birth(b));
        }
        store.queue = self.queue.clone();
        store.freed = self.waiting.clone();
        store.waiting = self.waiting.iter().copied().collect();
        store.names = self.titles.values().map(|title| (title.name(), self.rows[&title.on].number)).collect();
        for (&slot, row) in &self.rows {
            let record = Record { open: row.open, pages: row.pages.clone(), dead: self.shards(&row.list) };
            store.records.insert(row.number, record);
            if row.before.is_none() {
                store.lines.push(self.line(slot));
            }
        }
        store
    }

    fn slot(&self, r: u32) -> Option<usize> {
        self.rows.iter().find(|(_, row)| row.number == r).map(|(&slot, _)| slot)
    }

    fn list(&self, r: u32) -> &[u32] {
        self.slot(r).map_or(&[], |slot| &self.rows[&slot].list)
    }

    /// The list of the record that a store no longer has; a step deletes one at most.
    fn list_gone(&self, store: &Store) -> &[u32] {
        self.rows.values().find(|row| !store.records.contains_key(&row.number)).map_or(&[], |row| &row.list)
    }
}

/// Two records have two numbers, and do not both follow one record.
fn pair_sound(x: &Row, y: &Row) -> bool {
    let both_follow = x.before.is_some() && x.before == y.before;
    x.number != y.number && !both_follow
}

/// Bit i of word k is 1 exactly where block 32 k + i may be given; `kept` are those that may not.
fn free_word(kept: &BTreeSet<u32>, g: &Geometry, k: usize) -> u32 {
    let free = |b: u32| b < g.blocks() && !kept.contains(&b);
    (0..32).filter(|&i| free(32 * k as u32 + i)).map(|i| 1 << i).sum()
}

/// The calls of this implementation, on lent memory.
pub struct Predicted;

impl Answers for Predicted {
    fn make(&mut self, six: &[u64; 6], memory: &mut Memory) {
        made(&Geometry::new(*six).expect("inside the limits"), memory);
    }

    fn call(&mut self, six: &[u64; 6], memory: &mut Memory, lent: [usize; 3], c: Command) -> Reply {
        call(six, memory, lent, c)
    }
}

/// What a making leaves.
fn made(g: &Geometry, memory: &mut Memory) {
    memory.tables[..tables_needed(g)].fill(0);
    memory.tables[..6].copy_from_slice(&g.six());
    for k in 0..64 {
        memory.tables[FREE + k] = free_word(&BTreeSet::new(), g, k);
    }
}

/// The reply to a call on lent memory, which becomes what the call leaves.
fn call(six: &[u64; 6], memory: &mut Memory, lent: [usize; 3], c: Command) -> Reply {
    let g = Geometry::new(*six).ok_or(2u32)?;
    if lent[0] < tables_needed(&g) || lent[1] < log_needed(&g) || lent[2] < result_needed(&g) {
        return Err(3);
    }
    let before = memory.clone();
    let tables = rows_of(g, &before.tables);
    if !tables.sound(&before.log) {
        return Err(4);
    }
    let mut store = tables.store(&before.log);
    let mut steps = store.clone();
    let given = store.call(c)?;
    match c {
        Command::Unnamed(Call::Seal(r)) => drop(steps.seal_in_steps(r, |step| lay(step, memory))),
        _ => lay(&store, memory),
    }
    Ok(given)
}

/// A store laid over memory that holds it as it was one step before. A call is one step; of an S, the seal and each delete of its window are one each.
fn lay(store: &Store, memory: &mut Memory) {
    let before = memory.tables.clone();
    let tables = rows_of(store.g, &before);
    let places = places_after(&tables, store);
    lay_header(store, memory);
    lay_records(store, &places, &mut memory.tables);
    lay_titles(&tables, store, &places, &mut memory.tables);
    for n in store.numbers() {
        lay_list(&store.g, places[&n], &list_after(&tables, store, n), &mut memory.tables);
    }
    lay_blocks(store, &mut memory.tables);
}

/// The slot that a record stands in.
type Places = BTreeMap<u32, usize>;

/// A new record takes the slot of its number less one, round the largest power of two that is no more than the slots, if it is empty; else the first
/// empty one.
fn places_after(tables: &Tables, store: &Store) -> Places {
    let power = (0..7).map(|k| 1 << k).filter(|&p| p <= tables.g.records).max().unwrap();
    let own = ((store.last.max(1) - 1) % power) as usize;
    let vacant = std::iter::once(own).chain(0..).find(|s| !tables.rows.contains_key(s)).unwrap();
    store.numbers().into_iter().map(|n| (n, tables.slot(n).unwrap_or(vacant))).collect()
}

/// A deadlist after a step: what was on it and still is, then what a deleted record's list brings, each in the order that it had, then a killed
/// block.
fn list_after(tables: &Tables, store: &Store, n: u32) -> Vec<u32> {
    let shards = &store.records[&n].dead;
    let mut left: BTreeSet<u32> = shards.values().flatten().copied().collect();
    let mut list: Vec<u32> = tables.list(n).iter().chain(tables.list_gone(store)).copied().filter(|b| left.remove(b)).collect();
    assert!(left.len() < 2, "a call kills one block at most");
    list.extend(left);
    for (birth, shard) in shards {
        assert!(list.iter().filter(|b| store.births[b] == *birth).eq(shard), "a shard is what of the list has one birth");
    }
    list
}

fn link_to(places: &Places, n: u32) -> u32 {
    if n == 0 {
        0
    } else {
        places[&n] as u32 + 1
    }
}

/// Here and below everything that has a meaning is written, everything else stays.
fn lay_header(store: &Store, memory: &mut Memory) {
    let t = &mut memory.tables;
    t[6] = store.last;
    t[7] = store.counter;
    t[8] = store.writes;
    t[9] = store.log.len() as u32;
    for (a, &mark) in store.marks.iter().enumerate() {
        t[MARKS + a] = mark;
    }
    for (i, w) in store.log.iter().enumerate() {
        memory.log[8 * i..8 * i + 8].copy_from_slice(&w.to_be_bytes());
    }
}

fn lay_records(store: &Store, places: &Places, t: &mut [u32]) {
    for slot in 0..store.g.records as usize {
        if !places.values().any(|&s| s == slot) {
            t[NUMBER + slot] = 0;
            t[LENGTH + slot] = 0;
        }
    }
    for (&n, record) in &store.records {
        let slot = places[&n];
        let line = &store.lines[store.line_of(n)];
        let at = line.records.iter().position(|&x| x == n).unwrap();
        // An open record's mark is any number above 0.
        let kept = t[NUMBER + slot] == n && t[OPEN + slot] > 0;
        t[OPEN + slot] = if !record.open {
            0
        } else if kept {
            t[OPEN + slot]
        } else {
            1
        };
        t[NUMBER + slot] = n;
        t[BEFORE + slot] = if at == 0 { 0 } else { link_to(places, line.records[at - 1]) };
        t[BASE + slot] = link_to(places, line.base);
        t[NAMED + slot] = store.names_of(n) as u32;
        if record.open {
            t[WINDOW + slot] = line.window;
        }
        for (page, b) in record.pages.iter().enumerate() {
            t[pages_at(slot) + page] = b.map_or(0, |b| b + 1);
        }
    }
}

/// A name keeps its row, where only its link may change; a new one takes the first row that is empty.
fn lay_titles(tables: &Tables, store: &Store, places: &Places, t: &mut [u32]) {
    let mut left = store.names.clone();
    for (&i, title) in &tables.titles {
        t[title_at(i)] = left.remove(&title.name()).map_or(0, |n| link_to(places, n));
    }
    assert!(left.len() < 2, "a call puts one name on at most");
    for (name, n) in left {
        let at = (0..NAMES).find(|i| !tables.titles.contains_key(i)).map(title_at).expect("a row is empty");
        t[at] = link_to(places, n);
        t[at + 1] = name.len() as u32;
        for (i, letter) in name.into_iter().enumerate() {
            t[at + 8 + i] = u32::from(letter);
        }
    }
}

fn lay_list(g: &Geometry, slot: usize, list: &[u32], t: &mut [u32]) {
    t[LENGTH + slot] = list.len() as u32;
    for (i, &b) in list.iter().enumerate() {
        t[list_at(g, slot) + i] = b;
    }
}

fn lay_blocks(store: &Store, t: &mut [u32]) {
    let kept = store.births.keys().chain(&store.waiting).copied().collect();
    for k in 0..64 {
        t[FREE + k] = free_word(&kept, &store.g, k);
    }
    t[WAITING] = store.freed.len() as u32;
    for (i, &b) in store.freed.iter().enumerate() {
        t[wait_at(&store.g, i)] = b;
    }
    t[QUEUE] = store.queue.len() as u32;
    for (i, &b) in store.queue.iter().enumerate() {
        t[queue_at(&store.g, i)] = b;
    }
    for b in 0..store.g.blocks() {
        let birth = store.births.get(&b).copied().unwrap_or(0);
        let is_queued = store.queue.contains(&b);
        t[birth_at(&store.g, b as usize)] = if is_queued { 0 } else { birth };
        t[queued_at(&store.g, b as usize)] = if is_queued { birth } else { 0 };
    }
}
