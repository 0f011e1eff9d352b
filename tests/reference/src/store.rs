//! The store of the rules, the crude way: a block is freed when it leaves the last page of the last record.
//! Deadlists are kept only for the order in which a delete gives its blocks, and checked against the crude walk.
//! A delete puts the blocks that only its record had in a queue, where they stay held until a T frees them.
//! A freed block waits in a set that an accepted Y or C empties; after each accepted call no page and no queue may have a block of it.
//! A window is the loop of its order: after a seal the oldest record that may go is deleted, again and again, as long as too many are left.
//! Names are a map from bytes to records; how many a record has is counted there each time.
use calls::{Call, Command, Naming};
use std::collections::{BTreeMap, BTreeSet};

#[derive(Clone, Copy)]
pub struct Geometry {
    pub arenas: u32,
    pub per: u32,
    pub pages: u32,
    pub records: u32,
    pub turn: u32,
    pub words: u32,
}

impl Geometry {
    /// A number that does not fit is outside every limit, as the largest that fits is.
    pub fn new(six: [impl TryInto<u32>; 6]) -> Option<Geometry> {
        let [arenas, per, pages, records, turn, words] = six.map(|n| n.try_into().unwrap_or(u32::MAX));
        let within = |lo: u32, x: u32, hi: u32| lo <= x && x <= hi;
        if !within(1, arenas, 16) || !within(1, per, 1024) || arenas * per > 2048 {
            return None;
        }
        if !within(1, pages, 256) || !within(1, records, 64) || !within(1, turn, 4096) {
            return None;
        }
        if !within(2 * arenas * per + 2, words, 8192) {
            return None;
        }
        Some(Geometry { arenas, per, pages, records, turn, words })
    }

    pub fn six(&self) -> [u32; 6] {
        [self.arenas, self.per, self.pages, self.records, self.turn, self.words]
    }

    pub fn blocks(&self) -> u32 {
        self.arenas * self.per
    }
}

#[derive(Clone)]
pub struct Record {
    pub open: bool,
    pub pages: Vec<Option<u32>>,
    /// shards: by birth, first in first
    pub dead: BTreeMap<u32, Vec<u32>>,
}

#[derive(Clone)]
pub struct Line {
    pub base: u32,
    /// how many sealed records a seal is to leave; 0 where the line has no window
    pub window: u32,
    pub records: Vec<u32>,
}

#[derive(Clone)]
pub struct Store {
    pub g: Geometry,
    pub last: u32,
    pub records: BTreeMap<u32, Record>,
    pub lines: Vec<Line>,
    /// of a held block: the number of the record that was open when it was given
    pub births: BTreeMap<u32, u32>,
    /// the held blocks that no page has any more, in the order in which they left the last
    pub queue: Vec<u32>,
    /// the blocks freed since the last accepted Y or C: none of them is given or listed
    pub waiting: BTreeSet<u32>,
    /// the same in the order in which they were freed
    pub freed: Vec<u32>,
    pub marks: Vec<u32>,
    pub counter: u32,
    pub writes: u32,
    pub log: Vec<u64>,
    /// the names, each with the record that it is on
    pub names: BTreeMap<Vec<u8>, u32>,
    /// where the last call was a Q: its record and what it said
    asked: Option<(u32, Reply)>,
}

pub type Reply = Result<Vec<u32>, u32>;

/// How many blocks a T frees at most.
pub const TURN: u32 = 64;

/// How many names a store has at most, and how many letters a name.
pub const NAMES: usize = 32;
pub const LETTERS: usize = 32;

/// A name is 1 to 32 letters a to z.
fn is_name(bytes: &[u8]) -> bool {
    (1..=LETTERS).contains(&bytes.len()) && bytes.iter().all(u8::is_ascii_lowercase)
}

impl Store {
    pub fn new(g: Geometry) -> Store {
        Store {
            g,
            last: 0,
            records: BTreeMap::new(),
            lines: Vec::new(),
            births: BTreeMap::new(),
            queue: Vec::new(),
            waiting: BTreeSet::new(),
            freed: Vec::new(),
            marks: vec![0; g.arenas as usize],
            counter: 0,
            writes: 0,
            log: Vec::new(),
            names: BTreeMap::new(),
            asked: None,
        }
    }

    /// The numbers of the records in the store.
    pub fn numbers(&self) -> Vec<u32> {
        self.records.keys().copied().collect()
    }

    pub fn line_of(&self, r: u32) -> usize {
        self.lines.iter().position(|l| l.records.contains(&r)).expect("a record stands in a line")
    }

    pub fn pred(&self, r: u32) -> u32 {
        let line = &self.lines[self.line_of(r)];
        let at = line.records.iter().position(|&x| x == r).unwrap();
        if at == 0 {
            line.base
        } else {
            line.records[at - 1]
        }
    }

    fn follower(&self, r: u32) -> Option<u32> {
        let line = &self.lines[self.line_of(r)];
        let at = line.records.iter().position(|&x| x == r).unwrap();
        line.records.get(at + 1).copied()
    }

    pub fn is_forked(&self, r: u32) -> bool {
        self.lines.iter().any(|l| l.base == r)
    }

    /// How many names are on a record.
    pub fn names_of(&self, r: u32) -> usize {
        self.names.values().filter(|&&n| n == r).count()
    }

    /// Whether a window passes over a record: it has a fork or a name on it.
    pub fn stays(&self, r: u32) -> bool {
        self.is_forked(r) || self.names_of(r) > 0
    }

    /// The sealed records of the line of r, oldest first.
    pub fn sealed(&self, r: u32) -> Vec<u32> {
        let line = &self.lines[self.line_of(r)];
        line.records.iter().copied().filter(|n| !self.records[n].open).collect()
    }

    fn on_a_page(&self, b: u32) -> bool {
        self.records.values().any(|r| r.pages.contains(&Some(b)))
    }

    /// For each block, whether a page of a record has it.
    fn on_pages(&self) -> Vec<bool> {
        let mut on = vec![false; self.g.blocks() as usize];
        self.records.values().flat_map(|r| r.pages.iter().flatten()).for_each(|&b| on[b as usize] = true);
        on
    }

    fn may_be_given(&self, b: u32) -> bool {
        !self.births.contains_key(&b) && !self.waiting.contains(&b)
    }

    fn choose(&self, kind: u32) -> Option<(u32, u32)> {
        let first = (self.counter + kind) % self.g.arenas;
        for i in 0..self.g.arenas {
            let arena = (first + i) % self.g.arenas;
            let mark = self.marks[arena as usize];
            let free = |o: &u32| self.may_be_given(arena * self.g.per + o);
            if let Some(o) = (mark..self.g.per).find(free).or_else(|| (0..mark).find(free)) {
                return Some((arena, o));
            }
        }
        None
    }

    pub fn unused(&self) -> u32 {
        self.g.words - self.log.len() as u32
    }

    /// The block waits from now on. Gives it and the birth that it had.
    fn free(&mut self, b: u32) -> [u32; 2] {
        assert!(!self.on_a_page(b), "a freed block is on no page");
        let birth = self.births.remove(&b).expect("a freed block was held");
        assert!(self.waiting.insert(b), "a held block does not wait");
        self.freed.push(b);
        self.log.push(word(b, 2));
        [b, birth]
    }

    /// An accepted Y or C: nothing waits any more.
    fn release(&mut self) {
        self.waiting.clear();
        self.freed.clear();
    }

    /// Held blocks are those on pages and in the queue, in one of the two; those that wait are others. None is queued twice, and none waits twice.
    fn check_blocks(&self) {
        let mut held = self.on_pages();
        for &b in &self.queue {
            assert!(!std::mem::replace(&mut held[b as usize], true), "a queued block is on no page, and queued once");
        }
        assert!((0..self.g.blocks()).all(|b| held[b as usize] == self.births.contains_key(&b)), "held blocks are on pages or in the queue");
        assert!(self.waiting.iter().all(|&b| !held[b as usize]), "a waiting block is not held");
        assert_eq!(self.freed.len(), self.waiting.len(), "each block waits once");
    }

    /// 13: each block is on a page, queued or waiting.
    fn check_full(&self) {
        let mut kept = self.on_pages();
        self.queue.iter().chain(&self.waiting).for_each(|&b| kept[b as usize] = true);
        assert!(kept.into_iter().all(|kept| kept), "13 with a block that may be given");
    }

    /// Would emptying this page free its block? The crude way: no other page of any record has it.
    fn would_free(&self, r: u32, page: u32) -> Option<u32> {
        let b = self.records[&r].pages[page as usize]?;
        let others = self.records.iter().any(|(&n, rec)| rec.pages.iter().enumerate().any(|(x, &p)| p == Some(b) && (n != r || x as u32 != page)));
        if others {
            None
        } else {
            Some(b)
        }
    }

    /// The block has left the page; it is freed, or stands on the deadlist of r, or another line keeps it. Gives a freed block and its birth.
    fn kill(&mut self, r: u32, b: u32) -> Vec<u32> {
        if !self.on_a_page(b) {
            return self.free(b).to_vec();
        }
        let birth = self.births[&b];
        let base = self.lines[self.line_of(r)].base;
        if birth > base {
            self.records.get_mut(&r).unwrap().dead.entry(birth).or_default().push(b);
        }
        vec![]
    }

    fn room(&self) -> Result<(), u32> {
        if self.records.len() as u32 >= self.g.records {
            return Err(11);
        }
        if self.last >= 999_999 {
            return Err(12);
        }
        Ok(())
    }

    fn open_record(&mut self, pages: Vec<Option<u32>>) -> u32 {
        self.last += 1;
        self.records.insert(self.last, Record { open: true, pages, dead: BTreeMap::new() });
        self.last
    }

    /// An open record in a line of its own, which has no window.
    fn open_line(&mut self, base: u32, pages: Vec<Option<u32>>) -> u32 {
        let n = self.open_record(pages);
        self.lines.push(Line { base, window: 0, records: vec![n] });
        n
    }

    fn open(&self, r: u32) -> Result<bool, u32> {
        self.records.get(&r).map(|x| x.open).ok_or(8)
    }

    /// A call. What a Q said is held to a D of the same record straight after it.
    pub fn call<'n>(&mut self, c: impl Into<Command<'n>>) -> Reply {
        let (asked, unused, queued) = (self.asked.take(), self.unused(), self.queue.len());
        let (c, reply) = match c.into() {
            Command::Unnamed(c) => (Some(c), self.perform(c)),
            Command::Naming(naming, name) => (None, self.perform_on(naming, name)),
        };
        match (c, asked) {
            (Some(Call::Estimate(r)), _) => self.asked = Some((r, reply.clone())),
            (Some(Call::Delete(r)), Some((n, said))) if n == r => kept(&said, &reply, self.queue.len() - queued, unused - self.unused()),
            _ => {}
        }
        match reply {
            Ok(_) => {
                self.check_blocks();
                self.check_names();
            }
            Err(13) => self.check_full(),
            _ => {}
        }
        reply
    }

    /// A call with a name, which is any bytes.
    fn perform_on(&mut self, naming: Naming, name: &[u8]) -> Reply {
        if !is_name(name) {
            return Err(16);
        }
        match naming {
            Naming::Attach(r) => {
                let second = self.open(r)? && self.names_of(r) > 0;
                if self.names.contains_key(name) || second || self.names.len() == NAMES {
                    return Err(17);
                }
                self.names.insert(name.to_vec(), r);
                Ok(vec![])
            }
            Naming::Detach => self.names.remove(name).map(|_| vec![]).ok_or(17),
            Naming::Resolve => self.names.get(name).map(|&r| vec![r]).ok_or(17),
        }
    }

    /// There are not too many names, each is one and on a record in the store, and an open record has one at most.
    fn check_names(&self) {
        assert!(self.names.len() <= NAMES && self.names.keys().all(|name| is_name(name)), "names are few");
        let mut open: Vec<u32> = self.names.values().copied().filter(|r| self.records[r].open).collect();
        open.sort();
        assert!(open.windows(2).all(|two| two[0] != two[1]), "an open record has one name at most");
    }

    fn perform(&mut self, c: Call) -> Reply {
        match c {
            Call::Begin => {
                self.room()?;
                Ok(vec![self.open_line(0, vec![None; self.g.pages as usize])])
            }
            Call::Write(r, page, kind) => self.write(r, page, kind),
            Call::Erase(r, page) => self.erase(r, page),
            Call::Seal(r) => self.seal(r),
            Call::Fork(r) => self.fork(r),
            Call::Delete(r) => self.delete(r),
            Call::Read(r, page) => {
                if page >= self.g.pages {
                    return Err(5);
                }
                self.open(r)?;
                Ok(self.records[&r].pages[page as usize].into_iter().flat_map(|b| [b, self.births[&b]]).collect())
            }
            Call::Barrier => {
                if self.unused() < 1 {
                    return Err(14);
                }
                self.log.push(3);
                self.release();
                Ok(vec![])
            }
            Call::Compress => Ok(vec![self.compress()]),
            Call::FreeList => Ok(self.runs(|b| self.may_be_given(b)).into_iter().flat_map(|(b, n)| [b, n]).collect()),
            Call::Estimate(r) => self.estimate(r),
            Call::Retain(r, most) => self.retain(r, most),
            Call::Reclaim(most) => self.reclaim(most),
        }
    }

    fn retain(&mut self, r: u32, most: u32) -> Reply {
        if !(1..=62).contains(&most) {
            return Err(15);
        }
        if !self.open(r)? {
            return Err(9);
        }
        let line = self.line_of(r);
        self.lines[line].window = most;
        Ok(vec![])
    }

    fn seal(&mut self, r: u32) -> Reply {
        if !self.open(r)? {
            return Err(9);
        }
        self.room()?;
        let n = self.seal_in_steps(r, |_| ());
        self.check_window(r);
        Ok(vec![n])
    }

    /// The seal of an open r, then the deletes of the window; the store is shown after each. Gives the new number.
    pub fn seal_in_steps(&mut self, r: u32, mut shown: impl FnMut(&Store)) -> u32 {
        let n = self.seal_record(r);
        shown(self);
        while let Some(old) = self.too_old(r) {
            self.take_out(old);
            shown(self);
        }
        n
    }

    /// r is sealed, and an open record follows it, which gets its name. Gives the new number.
    fn seal_record(&mut self, r: u32) -> u32 {
        let pages = self.records[&r].pages.clone();
        self.records.get_mut(&r).unwrap().open = false;
        let n = self.open_record(pages);
        let line = self.line_of(r);
        self.lines[line].records.push(n);
        self.names.values_mut().filter(|on| **on == r).for_each(|on| *on = n);
        n
    }

    /// While more sealed records are in the line than its window has: the oldest of them that may go. A forked or a named one may not, nor the newest, r.
    fn too_old(&self, r: u32) -> Option<u32> {
        let (sealed, window) = (self.sealed(r), self.lines[self.line_of(r)].window);
        if window == 0 || sealed.len() as u32 <= window {
            return None;
        }
        sealed.into_iter().find(|&s| s != r && !self.stays(s))
    }

    /// At most as many sealed records as the window has are left in the line of r, which was just sealed, or only forked or named ones and r.
    fn check_window(&self, r: u32) {
        let (sealed, window) = (self.sealed(r), self.lines[self.line_of(r)].window);
        assert_eq!(sealed.last(), Some(&r), "the newest sealed record stays");
        let few = window == 0 || sealed.len() as u32 <= window;
        assert!(few || sealed.iter().all(|&s| s == r || self.stays(s)), "a window leaves no more than it may");
    }

    fn fork(&mut self, r: u32) -> Reply {
        if self.open(r)? {
            return Err(9);
        }
        self.room()?;
        let pages = self.records[&r].pages.clone();
        Ok(vec![self.open_line(r, pages)])
    }

    fn write(&mut self, r: u32, page: u32, kind: u32) -> Reply {
        if page >= self.g.pages {
            return Err(5);
        }
        if kind > 2 {
            return Err(6);
        }
        if !self.open(r)? {
            return Err(9);
        }
        let (arena, o) = self.choose(kind).ok_or(13u32)?;
        let frees = self.would_free(r, page).is_some() as u32;
        if self.unused() < 1 + frees {
            return Err(14);
        }
        let b = arena * self.g.per + o;
        self.marks[arena as usize] = (o + 1) % self.g.per;
        self.writes += 1;
        if self.writes == self.g.turn {
            self.writes = 0;
            self.counter = (self.counter + 1) % self.g.arenas;
        }
        assert!(self.births.insert(b, r).is_none());
        self.log.push(word(b, 1));
        let old = self.records.get_mut(&r).unwrap().pages[page as usize].replace(b);
        let mut given = vec![b, r];
        if let Some(old) = old {
            given.extend(self.kill(r, old));
        }
        Ok(given)
    }

    fn erase(&mut self, r: u32, page: u32) -> Reply {
        if page >= self.g.pages {
            return Err(5);
        }
        if !self.open(r)? {
            return Err(9);
        }
        if self.unused() < self.would_free(r, page).is_some() as u32 {
            return Err(14);
        }
        let old = self.records.get_mut(&r).unwrap().pages[page as usize].take();
        Ok(old.map_or(vec![], |b| self.kill(r, b)))
    }

    /// The blocks that only r has, the crude way.
    fn only_on(&self, r: u32) -> Vec<u32> {
        let mine = self.records[&r].pages.iter().flatten().copied();
        mine.filter(|b| !self.records.iter().any(|(&n, x)| n != r && x.pages.contains(&Some(*b)))).collect()
    }

    /// What refuses a D or Q of r.
    fn may_go(&self, r: u32) -> Result<(), u32> {
        self.open(r)?;
        if self.is_forked(r) {
            return Err(10);
        }
        if self.names_of(r) > 0 {
            return Err(18);
        }
        Ok(())
    }

    fn delete(&mut self, r: u32) -> Reply {
        self.may_go(r)?;
        self.take_out(r);
        Ok(vec![])
    }

    /// r leaves the store, and the blocks that only r has join the queue: those of the follower's shards by rising birth, or of r's pages by rising page.
    fn take_out(&mut self, r: u32) {
        let p = self.pred(r);
        let follower = self.follower(r);
        let bare: Vec<u32> = match follower {
            Some(n) => {
                let shards = &self.records[&n].dead;
                shards.range(p + 1..).flat_map(|(_, l)| l.iter().copied()).collect()
            }
            None => {
                let mine = self.records[&r].pages.iter().flatten().copied();
                mine.filter(|b| self.births[b] > p).collect()
            }
        };
        let (mut a, mut b) = (bare.clone(), self.only_on(r));
        a.sort();
        b.sort();
        assert_eq!(a, b, "deadlists and the crude walk agree");
        let gone = self.records.remove(&r).unwrap();
        let line = self.line_of(r);
        self.lines[line].records.retain(|&x| x != r);
        if self.lines[line].records.is_empty() {
            self.lines.remove(line);
        }
        if let Some(n) = follower {
            let dead = &mut self.records.get_mut(&n).unwrap().dead;
            dead.split_off(&(p + 1));
            for (birth, list) in gone.dead {
                dead.entry(birth).or_default().extend(list);
            }
        }
        self.queue.extend(bare);
    }

    /// The first blocks of the queue are freed, so many or all.
    fn reclaim(&mut self, most: u32) -> Reply {
        if !(1..=TURN).contains(&most) {
            return Err(19);
        }
        let count = self.queue.len().min(most as usize);
        if self.unused() < count as u32 {
            return Err(14);
        }
        let first: Vec<u32> = self.queue.drain(..count).collect();
        Ok(first.into_iter().flat_map(|b| self.free(b)).collect())
    }

    /// Blocks the crude way: each that only r has would be queued. No words. Shards: the births above r's pred that blocks on the deadlist of the record
    /// that follows r have.
    fn estimate(&self, r: u32) -> Reply {
        self.may_go(r)?;
        let (p, mine) = (self.pred(r), self.only_on(r));
        let births = |blocks: &[u32]| blocks.iter().map(|b| self.births[b]).filter(|&v| v > p).collect::<BTreeSet<u32>>();
        let shards = self.follower(r).map_or(0, |n| {
            let dead: Vec<u32> = self.records[&n].dead.values().flatten().copied().collect();
            assert_eq!(births(&dead), births(&mine), "the shards above the pred are of the blocks that only r has");
            births(&dead).len()
        });
        Ok([mine.len(), 0, shards].map(|n| n as u32).to_vec())
    }

    /// The longest runs, inside arenas, of the blocks that are meant.
    fn runs(&self, meant: impl Fn(u32) -> bool) -> Vec<(u32, u32)> {
        let mut runs: Vec<(u32, u32)> = Vec::new();
        for b in (0..self.g.blocks()).filter(|&b| meant(b)) {
            match runs.last_mut() {
                Some((at, n)) if *at + *n == b && b % self.g.per != 0 => *n += 1,
                _ => runs.push((b, 1)),
            }
        }
        runs
    }

    fn compress(&mut self) -> u32 {
        self.log.clear();
        self.release();
        for (b, n) in self.runs(|b| self.births.contains_key(&b)) {
            if n == 1 {
                self.log.push(word(b, 1));
            } else {
                self.log.push(word(b, 4));
                self.log.push(word(n, 0));
            }
        }
        self.log.push(3);
        self.log.len() as u32
    }
}

/// A word of the log: a block's address, or the length of a run, and a code.
pub fn word(blocks: u32, code: u64) -> u64 {
    u64::from(blocks) * 16384 + code
}

/// A D straight after a Q of its record has the Q's refusal, or queues so many blocks and writes so many words as the Q said, and gives nothing.
fn kept(said: &Reply, reply: &Reply, queued: usize, written: u32) {
    let done = reply.as_ref().map(|given| (given.len(), queued as u32, written));
    let expected = said.as_ref().map(|numbers| (0, numbers[0], numbers[1]));
    assert_eq!(done, expected, "D straight after Q does what Q said");
}
