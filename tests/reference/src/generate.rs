//! Scripts made at random from a seed: forks of forks, deletes in the middle of a line, lines that lose their first record again and again, by deletes
//! and by windows, windows with forks and names in them, long deadlists, long queues and queues that are freed in turns, full stores, stores that are full
//! of blocks that wait or are queued, many barriers and few, full logs, full record tables, as many names as there can be, estimates of deletes, bad lines
//! and bad names, scripts longer than what is read.
//! `reference reached` counts them.
use crate::store::{Geometry, Store};
use calls::{Call, Command, Naming};
pub use names::naming;
use names::{any_name, name_on};

mod names;

/// A small generator of numbers (xorshift).
pub struct Dice(u64);

impl Dice {
    pub fn new(seed: u64) -> Dice {
        Dice(seed.wrapping_mul(0x9E37_79B9_7F4A_7C15) | 1)
    }

    fn next(&mut self) -> u64 {
        self.0 ^= self.0 << 13;
        self.0 ^= self.0 >> 7;
        self.0 ^= self.0 << 17;
        self.0 >> 11
    }

    pub fn below(&mut self, n: u32) -> u32 {
        (self.next() % u64::from(n)) as u32
    }

    pub fn one_of<T: Copy>(&mut self, all: &[T]) -> T {
        all[self.below(all.len() as u32) as usize]
    }
}

pub fn geometry(d: &mut Dice) -> [u32; 6] {
    let (arenas, per) = match d.below(8) {
        0 => (1, 1 + d.below(3)),
        1 => (16, 128),
        2 => (2, 1024),
        _ => (1 + d.below(4), 1 + d.below(12)),
    };
    let n = arenas * per;
    let pages = if d.below(10) == 0 { 256 } else { 1 + d.below(6) };
    let records = if d.below(6) == 0 { 64 } else { 1 + d.below(12) };
    let turn = 1 + d.below(5);
    let words = if d.below(2) == 0 { 2 * n + 2 } else { (2 * n + 2 + d.below(60)).min(8192) };
    [arenas, per, pages, records, turn, words]
}

/// Many pages and blocks.
fn large(d: &mut Dice) -> [u32; 6] {
    let (arenas, per) = d.one_of(&[(16, 128), (2, 1024), (3, 200), (1, 300), (5, 60)]);
    let records = if d.below(6) == 0 { 64 } else { 1 + d.below(12) };
    [arenas, per, 64 + d.below(193), records, 1 + d.below(5), 2 * arenas * per + 2 + d.below(60)]
}

const BAD: [&str; 17] = [
    "",
    "B ",
    " B",
    "W 1 0",
    "W 1 0 0 0",
    "E 01 0",
    "Q",
    "b",
    "store",
    "store 1 4 2 4 8",
    "D 12345678",
    "R 1  0",
    "H 3",
    "K 1",
    "K 1 01",
    "T",
    "T 3 1",
];

/// A record to ask for: mostly one of those in the store, by rising numbers, most often a new one.
pub fn record(d: &mut Dice, numbers: &[u32]) -> u32 {
    if numbers.is_empty() || d.below(25) == 0 {
        return d.below(12);
    }
    let n = numbers.len() as u32;
    let at = if d.below(3) == 0 { d.below(n) } else { n - 1 - d.below(n.min(4)) };
    numbers[at as usize]
}

/// How many sealed records a window is to leave: mostly few, so that seals delete; some that leave all that a table holds, some that are refused.
pub fn most(d: &mut Dice) -> u32 {
    match d.below(12) {
        0..=5 => 1 + d.below(3),
        6..=8 => 1 + d.below(11),
        9..=10 => d.one_of(&[61, 62]),
        _ => d.one_of(&[0, 63, 64, 9_999_999]),
    }
}

/// How many blocks a T is to free: mostly few, so that a queue takes several turns; as many as there can be, and some that are refused.
pub fn turn(d: &mut Dice) -> u32 {
    match d.below(16) {
        0..=6 => 1 + d.below(3),
        7..=9 => 1 + d.below(16),
        10..=14 => d.one_of(&[32, 63, 64, 64]),
        _ => d.one_of(&[0, 65, 66, 9_999_999]),
    }
}

/// A call on a store with these records, with weights: `grow` leans towards new records and writes, else towards deletes. It sets no window and has no
/// name.
pub fn call(d: &mut Dice, g: &[u32; 6], numbers: &[u32], grow: bool) -> Call {
    let r = record(d, numbers);
    let page = if d.below(40) == 0 { g[2] + d.below(2) } else { d.below(g[2]) };
    let kind = if d.below(60) == 0 { 3 } else { d.below(3) };
    let delete = if grow { 4 } else { 30 };
    match d.below(91 + delete) {
        0..=4 => Call::Begin,
        5..=39 => Call::Write(r, page, kind),
        40..=50 => Call::Erase(r, page),
        51..=64 => Call::Seal(r),
        65..=74 => Call::Fork(r),
        75..=79 => Call::Read(r, page),
        80 => Call::Barrier,
        81..=82 => Call::Compress,
        83..=85 => Call::FreeList,
        86..=90 => Call::Reclaim(turn(d)),
        _ => Call::Delete(r),
    }
}

/// What the calls lean towards for a while.
#[derive(Clone, Copy)]
enum Mood {
    /// any call, few deletes
    Grow,
    /// any call, many deletes
    Shrink,
    /// writes and seals in one line, whose first record goes when the line is long
    Roll,
    /// writes and seals in a line whose window changes, forks of its records
    Window,
    /// every page written in turn, then a seal
    Fill,
    /// the youngest sealed record forked, the fork written and sealed
    Fork,
    /// the pages of one open record written again and again, until each block is on a page or waits
    Rewrite,
    /// names for one sealed record, until there are as many as there can be
    Name,
    /// records deleted and the queue freed by turns
    Sweep,
}

const MOODS: [Mood; 12] = [
    Mood::Grow,
    Mood::Grow,
    Mood::Grow,
    Mood::Shrink,
    Mood::Shrink,
    Mood::Roll,
    Mood::Fill,
    Mood::Fill,
    Mood::Fork,
    Mood::Rewrite,
    Mood::Rewrite,
    Mood::Sweep,
];
/// Those of a store with windows.
const WITH_WINDOWS: [Mood; 10] =
    [Mood::Grow, Mood::Shrink, Mood::Window, Mood::Window, Mood::Window, Mood::Fill, Mood::Fill, Mood::Fork, Mood::Rewrite, Mood::Sweep];

/// How often a barrier is put in front of a call: one in so many times, or never, so that there are only those that the calls lean to.
const BARRIERS: [Option<u32>; 5] = [None, None, Some(3), Some(8), Some(30)];

/// The same of a T: queues are short, or so long that a store is full of them.
const TURNS: [Option<u32>; 5] = [None, Some(4), Some(8), Some(8), Some(30)];

/// Of the calls with a name one in so many takes one off, or there are none: names are few, or so many that there is no room for another.
const UNNAMES: [Option<u32>; 7] = [None, None, None, None, Some(2), Some(3), Some(16)];

/// A store, whether its lines get windows and its records names, and whether its last call was refused.
struct Course {
    g: [u32; 6],
    barriers: Option<u32>,
    turns: Option<u32>,
    windows: bool,
    unnames: Option<u32>,
    store: Store,
    refused: bool,
}

impl Course {
    fn new(d: &mut Dice, shape: fn(&mut Dice) -> [u32; 6]) -> Course {
        let g = shape(d);
        let store = Store::new(Geometry::new(g).expect("inside the limits"));
        let (barriers, turns) = (d.one_of(&BARRIERS), d.one_of(&TURNS));
        Course { g, barriers, turns, windows: d.below(2) == 0, unnames: d.one_of(&UNNAMES), store, refused: false }
    }

    fn mood(&self, d: &mut Dice) -> Mood {
        if self.unnames.is_some() && d.below(12) == 0 {
            Mood::Name
        } else if self.windows {
            d.one_of(&WITH_WINDOWS)
        } else {
            d.one_of(&MOODS)
        }
    }

    /// Makes a call, after those that are to come before it, and adds the lines.
    fn add(&mut self, d: &mut Dice, asks: &mut Dice, c: Command<'static>, lines: &mut Vec<Vec<u8>>) {
        let before = if let Command::Unnamed(c) = c { self.before(d, asks, c) } else { vec![] };
        for next in before.into_iter().chain([c]) {
            self.refused = self.store.call(next).is_err();
            lines.push(next.line());
        }
    }

    /// A barrier, a T, a K, a call with a name and a Q, each where it is its time; or what makes a T meet the end of the log.
    fn before(&self, d: &mut Dice, asks: &mut Dice, c: Call) -> Vec<Command<'static>> {
        let barrier = self.barriers.filter(|&n| d.below(n) == 0).map(|_| Call::Barrier);
        let reclaim = self.turns.filter(|&n| d.below(n) == 0).and_then(|_| self.turned(d));
        let window = if self.windows { self.retained(d, c) } else { None };
        let named = self.unnames.and_then(|n| self.named(d, c, n));
        let asked = self.asked(asks, c).map(Command::from);
        let cornered = if let Call::Reclaim(most) = c { self.cornered(d, most) } else { None };
        cornered.unwrap_or_else(|| barrier.into_iter().chain(reclaim).chain(window).map(Command::from).chain(named).chain(asked).collect())
    }

    /// A T where something is queued, and now and then where nothing is.
    fn turned(&self, d: &mut Dice) -> Option<Call> {
        (!self.store.queue.is_empty() || d.below(12) == 0).then(|| Call::Reclaim(turn(d)))
    }

    /// In front of a T, now and then where few log words are left: barriers until fewer are left than it is to write, or none.
    fn cornered(&self, d: &mut Dice, most: u32) -> Option<Vec<Command<'static>>> {
        let (unused, written) = (self.store.unused(), most.min(self.store.queue.len() as u32));
        if unused > 32 || written == 0 || d.below(3) > 0 {
            return None;
        }
        Some(vec![Call::Barrier.into(); unused.saturating_sub(d.below(written)) as usize])
    }

    /// The open records, by rising numbers.
    fn open(&self) -> Vec<u32> {
        self.store.records.iter().filter(|(_, record)| record.open).map(|(&n, _)| n).collect()
    }

    fn line(&self, n: u32) -> &[u32] {
        &self.store.lines[self.store.line_of(n)].records
    }

    fn next(&self, d: &mut Dice, mood: Mood, at: u32) -> Command<'static> {
        match (mood, self.unnames) {
            (Mood::Name, Some(unnames)) => {
                let sealed = self.store.records.iter().filter(|(_, record)| !record.open).map(|(&n, _)| n);
                let most = sealed.max_by_key(|&s| self.store.names_of(s));
                naming(d, &self.store, most.unwrap_or(self.store.last), unnames)
            }
            _ => self.next_unnamed(d, mood, at).into(),
        }
    }

    fn next_unnamed(&self, d: &mut Dice, mood: Mood, at: u32) -> Call {
        let youngest = self.open().last().copied();
        match (mood, youngest) {
            (Mood::Roll, Some(n)) => self.room(d, 6, 1).unwrap_or_else(|| self.roll(d, n)),
            // less often, so that seals meet full logs and full tables
            (Mood::Window, Some(n)) => self.room(d, 14, 0).unwrap_or_else(|| self.window(d, n)),
            (Mood::Fill, Some(n)) => self.room(d, 6, 1).unwrap_or_else(|| self.fill(d, n, at)),
            (Mood::Sweep, Some(n)) => self.sweep(d, n),
            (Mood::Fork, Some(n)) => self.fork(d, n),
            (Mood::Rewrite, Some(n)) => self.released(d).unwrap_or_else(|| self.rewrite(d, n)),
            (Mood::Shrink, _) => call(d, &self.g, &self.store.numbers(), false),
            _ => call(d, &self.g, &self.store.numbers(), true),
        }
    }

    /// What makes room, some of the time, where a call was refused: five of `sides`, from the side `first` on, are a C, a Y, a T and twice a D.
    fn room(&self, d: &mut Dice, sides: u32, first: u32) -> Option<Call> {
        match d.below(sides).checked_sub(first).filter(|_| self.refused)? {
            0 => Some(Call::Compress),
            1 => Some(Call::Barrier),
            2 => Some(Call::Reclaim(turn(d))),
            3..=4 => Some(Call::Delete(record(d, &self.store.numbers()))),
            _ => None,
        }
    }

    /// What ends the waiting, some of the time, where a call was refused.
    fn released(&self, d: &mut Dice) -> Option<Call> {
        match d.below(7) {
            0..=1 if self.refused => Some(Call::Barrier),
            2 if self.refused => Some(Call::Compress),
            3 if self.refused => Some(Call::Reclaim(turn(d))),
            _ => None,
        }
    }

    /// Of the calls between, some are in the youngest open record, to be deleted later.
    fn sweep(&self, d: &mut Dice, n: u32) -> Call {
        let page = d.below(self.g[2]);
        match d.below(12) {
            0..=2 => Call::Delete(record(d, &self.store.numbers())),
            3..=5 => Call::Reclaim(turn(d)),
            6..=7 => Call::Seal(n),
            8 => Call::Erase(n, page),
            _ => Call::Write(n, page, d.below(3)),
        }
    }

    fn rewrite(&self, d: &mut Dice, n: u32) -> Call {
        let page = d.below(self.g[2].min(3));
        match d.below(16) {
            0 => Call::Erase(n, page),
            1 => Call::FreeList,
            _ => Call::Write(n, page, d.below(3)),
        }
    }

    fn roll(&self, d: &mut Dice, n: u32) -> Call {
        let line = self.line(n);
        match d.below(8) {
            0 if 2 * line.len() as u32 > self.g[3] => Call::Delete(line[0]),
            0 => Call::Seal(n),
            1 => Call::Erase(n, d.below(self.g[2])),
            _ => Call::Write(n, d.below(self.g[2]), d.below(3)),
        }
    }

    /// Mostly in the longest line that is open, else in that of the youngest open record. A fork is on one of the line's sealed records, and what is
    /// deleted is most often a fork.
    fn window(&self, d: &mut Dice, youngest: u32) -> Call {
        let longest = self.open().into_iter().max_by_key(|&n| self.line(n).len()).unwrap_or(youngest);
        let n = if d.below(4) == 0 { youngest } else { longest };
        let (sealed, page) = (self.store.sealed(n), d.below(self.g[2]));
        match d.below(24) {
            0 => Call::Retain(n, most(d)),
            1..=5 => Call::Seal(n),
            6..=7 if !sealed.is_empty() => Call::Fork(d.one_of(&sealed)),
            8 => Call::Delete(youngest),
            9 => Call::Delete(record(d, &self.store.numbers())),
            10..=12 => Call::Erase(n, page),
            _ => Call::Write(n, page, d.below(3)),
        }
    }

    /// A K in front of a call: some of the time on the record that is to be sealed, most often the least window where the log is nearly full, so that
    /// several deletes are made that have no words to write; else now and then on any record, or on a number that may have none.
    fn retained(&self, d: &mut Dice, next: Call) -> Option<Call> {
        match next {
            Call::Seal(r) if self.store.unused() < 8 && d.below(3) > 0 => Some(Call::Retain(r, 1)),
            Call::Seal(r) if d.below(8) == 0 => Some(Call::Retain(r, most(d))),
            _ if d.below(60) == 0 => Some(Call::Retain(record(d, &self.store.numbers()), most(d))),
            _ => None,
        }
    }

    /// A call with a name in front of a call. Some of the time it is on the record of the call: before a D a name is taken off it or put on; before an S one
    /// is put on it, to move, or on a sealed record of its line, to be passed over; before an F on the base. Else now and then on any.
    fn named(&self, d: &mut Dice, next: Call, unnames: u32) -> Option<Command<'static>> {
        let any = record(d, &self.store.numbers());
        let on = match (next, d.below(24)) {
            (Call::Delete(r), 0..=17) if self.store.names_of(r) > 0 => {
                return name_on(&self.store, r).map(|name| Command::Naming(Naming::Detach, name))
            }
            (Call::Seal(r), 0..=2) if !self.sealed_before(r).is_empty() => d.one_of(&self.sealed_before(r)),
            (Call::Seal(r) | Call::Fork(r) | Call::Delete(r), 18..=20) => r,
            (_, 21) => return Some(naming(d, &self.store, any, unnames)),
            _ => return None,
        };
        Some(Command::Naming(Naming::Attach(on), any_name(d, &self.store, false)))
    }

    /// The sealed records in the line of r, oldest first; none where r is not in the store.
    fn sealed_before(&self, r: u32) -> Vec<u32> {
        if self.store.records.contains_key(&r) {
            self.store.sealed(r)
        } else {
            vec![]
        }
    }

    /// A Q in front of a call: every other time of the record that a D is to delete; else now and then, more often where the log is nearly full, of
    /// any record, or of a number that may have none.
    fn asked(&self, d: &mut Dice, next: Call) -> Option<Call> {
        if let Call::Delete(r) = next {
            return (d.below(2) == 0).then_some(Call::Estimate(r));
        }
        if d.below(if self.store.unused() < 4 { 4 } else { 16 }) > 0 {
            return None;
        }
        let numbers = self.store.numbers();
        let last = numbers.last().copied().unwrap_or(0);
        let r = if last == 0 || d.below(8) == 0 { d.below(last + 2) } else { d.one_of(&numbers) };
        Some(Call::Estimate(r))
    }

    fn fill(&self, d: &mut Dice, n: u32, at: u32) -> Call {
        let page = at % (self.g[2] + 1);
        if page < self.g[2] {
            Call::Write(n, page, d.below(3))
        } else {
            Call::Seal(n)
        }
    }

    fn fork(&self, d: &mut Dice, n: u32) -> Call {
        let sealed = self.store.records.iter().rev().find(|(_, record)| !record.open).map(|(&n, _)| n);
        match (d.below(8), sealed) {
            (0, Some(r)) => Call::Fork(r),
            (1, _) => Call::Seal(n),
            (2, _) => Call::Delete(record(d, &self.store.numbers())),
            (3, _) => Call::Erase(n, d.below(self.g[2])),
            _ => Call::Write(n, d.below(self.g[2]), d.below(3)),
        }
    }
}

/// A line with one of its bytes replaced by any byte.
fn spoiled(d: &mut Dice, mut line: Vec<u8>) -> Vec<u8> {
    let at = d.below(line.len() as u32) as usize;
    line[at] = d.below(256) as u8;
    line
}

/// How many times a line or a call with those before it is added: one script in twenty is longer than what the runner reads.
fn length(d: &mut Dice, is_large: bool) -> u32 {
    if is_large {
        2_000 + d.below(2_000)
    } else if d.below(20) == 0 {
        12_000
    } else {
        40 + d.below(1500)
    }
}

/// Lines before there is a store.
const EARLY: [&str; 8] = ["B", "N a 1", "N A 1", "U", "M a", "K 1 0", "T 1", "T 0"];

/// A script; one in twenty has many pages and blocks, and one in twenty lines before there is a store. Its Qs, which change nothing, have dice of their
/// own.
pub fn script(seed: u64) -> Vec<u8> {
    let (mut d, mut asks) = (Dice::new(seed), Dice::new(!seed));
    let is_large = d.below(20) == 0;
    let mut course = Course::new(&mut d, if is_large { large } else { geometry });
    let mut lines: Vec<Vec<u8>> = if d.below(20) == 0 { EARLY.map(Vec::from).into() } else { vec![] };
    lines.push(store_line(&course.g).into_bytes());
    let mut mood = Mood::Grow;
    for at in 0..length(&mut d, is_large) {
        if d.below(if is_large { 300 } else { 40 }) == 0 {
            mood = course.mood(&mut d);
        }
        match d.below(200) {
            0..=1 => lines.push(d.one_of(&BAD).into()),
            2 => lines.push("W 1 0 0".repeat(1 + d.below(20) as usize).into_bytes()),
            3 => lines.push(store_line(&[1, 4, 2, 4, 8, 9]).into_bytes()),
            5 => lines.push(spoiled(&mut d, b"W 1 0 0".to_vec())),
            6 => lines.push(names::no_call(&mut d)),
            7 => lines.push(spoiled(&mut d, b"N easter 1".to_vec())),
            4 if !is_large && d.below(6) == 0 => {
                course = Course::new(&mut d, geometry);
                lines.push(store_line(&course.g).into_bytes());
            }
            _ => {
                let c = course.next(&mut d, mood, at);
                course.add(&mut d, &mut asks, c, &mut lines);
            }
        }
    }
    let mut text = lines.join(&b'\n');
    if d.below(3) > 0 {
        text.push(b'\n');
    }
    text
}

pub fn store_line(six: &[u32; 6]) -> String {
    six.iter().fold(String::from("store"), |line, n| format!("{line} {n}"))
}
