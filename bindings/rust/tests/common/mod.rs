//! What the tests share: memory full of marks, calls by number, stored scripts, numbers at random.
#![allow(dead_code)]
use sogvect::{raw, Block, Call, Command, Geometry, Kind, Naming, Record, Refusal, Space, Store, SCRIPT_LOG, SCRIPT_OUT, SCRIPT_TABLES};
use std::fs::{read, read_to_string};

/// What marks bytes that no call may change.
pub const MARK: u8 = 0xa5;
pub const MARKS: u32 = 0xa5a5_a5a5;

/// Memory of exactly the least lengths, full of marks.
pub fn marked(g: Geometry) -> Space {
    Space { tables: vec![MARKS; g.tables_len()], log: vec![MARK; g.log_len()], out: vec![MARKS; g.out_len()] }
}

/// Memory that is long enough for every geometry, full of marks.
pub fn marked_for_any() -> Space {
    Space { tables: vec![MARKS; SCRIPT_TABLES], log: vec![MARK; SCRIPT_LOG], out: vec![MARKS; SCRIPT_OUT] }
}

pub fn geometry(six: [usize; 6]) -> Geometry {
    let [arenas, per, pages, records, turn, words] = six;
    Geometry { arenas, per, pages, records, turn, words }
}

/// A fresh store.
pub fn made(g: Geometry) -> Space {
    let mut m = marked(g);
    m.make(g).expect("a store is made");
    m
}

/// What tests do with memory.
pub trait Tested {
    fn make(&mut self, g: Geometry) -> Result<(), Refusal>;
    fn store(&mut self, g: Geometry) -> Store<'_>;
    /// The used bytes of the log.
    fn used(&self) -> &[u8];
    /// The used words of the log.
    fn words(&self) -> Vec<u64> {
        self.used().chunks_exact(8).map(|w| u64::from_be_bytes(w.try_into().unwrap())).collect()
    }
}

impl Tested for Space {
    fn make(&mut self, g: Geometry) -> Result<(), Refusal> {
        Store::make(g, self.lend()).map(|_| ())
    }

    fn store(&mut self, g: Geometry) -> Store<'_> {
        Store::on(g, self.lend())
    }

    fn used(&self) -> &[u8] {
        &self.log[..8 * self.tables[9] as usize]
    }
}

/// Each call without a name once, on a record and a page.
pub fn every_unnamed(n: u32, page: u32) -> [Call; Call::LETTERS.len()] {
    Call::LETTERS.map(|letter| Call::of(letter, [n, page, 1]).expect("the letter of a call"))
}

/// A name of the small store, and one that it has not.
pub const EASTER: &[u8] = b"easter";
pub const NEW: &[u8] = b"new";

/// Each call once: a new name on the record, and a name that the small store has.
pub fn every_call(n: u32, page: u32) -> Vec<Command<'static>> {
    let namings = [(Naming::Attach(n), NEW), (Naming::Detach, EASTER), (Naming::Resolve, EASTER)];
    every_unnamed(n, page).map(Command::from).into_iter().chain(namings.map(|(naming, name)| Command::Naming(naming, name))).collect()
}

/// The numbers of blocks: two each.
fn pairs(blocks: impl IntoIterator<Item = Block>) -> Vec<u32> {
    blocks.into_iter().flat_map(|b| [b.number, b.birth.0]).collect()
}

/// The result's numbers, from what the typed function gave.
pub fn numbers<'n>(store: &mut Store<'_>, call: impl Into<Command<'n>>) -> Result<Vec<u32>, Refusal> {
    match call.into() {
        Command::Unnamed(call) => numbers_unnamed(store, call),
        Command::Naming(Naming::Attach(n), name) => store.name(name, Record(n)).map(|()| vec![]),
        Command::Naming(Naming::Detach, name) => store.unname(name).map(|()| vec![]),
        Command::Naming(Naming::Resolve, name) => store.resolve(name).map(|record| vec![record.0]),
    }
}

fn numbers_unnamed(store: &mut Store<'_>, call: Call) -> Result<Vec<u32>, Refusal> {
    Ok(match call {
        Call::Begin => vec![store.begin()?.0],
        Call::Write(n, page, kind) => {
            let Some(&kind) = [Kind::Data, Kind::Pivot, Kind::Leaf].get(kind as usize) else {
                return store.call(call).map(<[u32]>::to_vec);
            };
            let w = store.write(Record(n), page, kind)?;
            pairs([w.block].into_iter().chain(w.freed))
        }
        Call::Erase(n, page) => pairs(store.erase(Record(n), page)?),
        Call::Seal(n) => vec![store.seal(Record(n))?.0],
        Call::Fork(n) => vec![store.fork(Record(n))?.0],
        Call::Delete(n) => store.delete(Record(n)).map(|()| vec![])?,
        Call::Read(n, page) => pairs(store.read(Record(n), page)?),
        Call::Barrier => store.barrier().map(|()| vec![])?,
        Call::Compress => vec![store.compress()?],
        Call::FreeList => store.free_list()?.into_iter().flat_map(|(first, length)| [first, length]).collect(),
        Call::Estimate(n) => {
            let e = store.estimate(Record(n))?;
            vec![e.blocks, e.words, e.shards]
        }
        Call::Retain(n, most) => store.retain(Record(n), most).map(|()| vec![])?,
        Call::Reclaim(most) => pairs(store.reclaim(most)?),
    })
}

/// The bare function, with a letter and numbers of any kind and the count that it is lent.
pub fn bare_letter(m: &mut Space, g: Geometry, letter: u32, [x, y, z]: [u32; 3], count: &mut usize) -> u32 {
    // SAFETY: three vectors and a count, each lent once.
    unsafe {
        raw::sogvect_call(
            g.arenas,
            g.per,
            g.pages,
            g.records,
            g.turn,
            g.words,
            m.tables.as_mut_ptr(),
            m.tables.len(),
            m.log.as_mut_ptr(),
            m.log.len(),
            m.out.as_mut_ptr(),
            m.out.len(),
            letter,
            x,
            y,
            z,
            count,
        )
    }
}

/// The bare function of a call with a name; the first two have no count.
fn bare_naming(m: &mut Space, g: Geometry, naming: Naming, name: &[u8], count: &mut usize) -> u32 {
    let Geometry { arenas, per, pages, records, turn, words } = g;
    let (t, l, o, n) = (m.tables.len(), m.log.len(), m.out.len(), name.len());
    let (tables, log, out, name) = (m.tables.as_mut_ptr(), m.log.as_ptr(), m.out.as_mut_ptr(), name.as_ptr());
    // SAFETY: three vectors, a slice and a count, each lent once.
    unsafe {
        match naming {
            Naming::Attach(record) => raw::sogvect_name(arenas, per, pages, records, turn, words, tables, t, log, l, out, o, name, n, record),
            Naming::Detach => raw::sogvect_unname(arenas, per, pages, records, turn, words, tables, t, log, l, out, o, name, n),
            Naming::Resolve => raw::sogvect_resolve(arenas, per, pages, records, turn, words, tables, t, log, l, out, o, name, n, count),
        }
    }
}

/// A call on the bare function.
pub fn bare<'n>(m: &mut Space, g: Geometry, call: impl Into<Command<'n>>, count: &mut usize) -> u32 {
    match call.into() {
        Command::Unnamed(call) => bare_letter(m, g, u32::from(call.letter()), call.numbers(), count),
        Command::Naming(naming, name) => bare_naming(m, g, naming, name, count),
    }
}

/// The call is refused with this number and changes nothing, not even the count.
pub fn refused<'n>(m: &mut Space, g: Geometry, call: impl Into<Command<'n>>, number: u32) {
    let call = call.into();
    let before = m.clone();
    let mut count = usize::MAX - 5;
    assert_eq!(bare(m, g, call, &mut count), number, "{call:?} of {g:?}");
    assert_eq!(count, usize::MAX - 5, "{call:?} changed the count");
    assert_eq!(*m, before, "{call:?} changed memory");
    assert_eq!(numbers(&mut m.store(g), call).map_err(Refusal::number), Err(number));
    assert_eq!(*m, before, "{call:?} changed memory");
}

/// Six different numbers of a small store.
pub const SMALL: Geometry = Geometry { arenas: 2, per: 4, pages: 5, records: 6, turn: 7, words: 20 };

/// A small store with a fork, two deletes, deadlists and free blocks: records 1 (sealed, forked), 2 (sealed), 4 (open, after 2), 5 (open, fork of 1).
/// Block 5 was freed after the last barrier, so that it waits; blocks 3 and 6, born in 6, are queued, and 7 is free. The line of 4 has a window of 2: its
/// seal deletes 2. 1 has the name easter, and 5 a.
pub fn small() -> Space {
    let mut m = made(SMALL);
    let s = &mut m.store(SMALL);
    for call in [
        Call::Begin,
        Call::Write(1, 0, 0),
        Call::Write(1, 4, 1),
        Call::Seal(1),
        Call::Write(2, 0, 0),
        Call::Seal(2),
        Call::Erase(3, 0),
        Call::Seal(3),
        Call::Delete(3),
        Call::Write(4, 2, 2),
        Call::Write(4, 1, 1),
        Call::Barrier,
        Call::Erase(4, 1),
        Call::Fork(1),
        Call::Erase(5, 4),
        Call::Begin,
        Call::Write(6, 0, 0),
        Call::Write(6, 1, 1),
        Call::Delete(6),
        Call::Retain(4, 2),
    ] {
        numbers(s, call).unwrap_or_else(|e| panic!("{call:?}: {e}"));
    }
    s.name(EASTER, Record(1)).expect("a name is put on 1");
    s.name(b"a", Record(5)).expect("a name is put on 5");
    m
}

/// A script that the gate runs, as far as the runner reads it, with the replies that it expects.
pub struct Stored {
    pub name: String,
    pub text: Vec<u8>,
    pub replies: String,
}

impl Stored {
    /// The lines; the last one may have no line feed.
    pub fn lines(&self) -> impl Iterator<Item = &[u8]> {
        self.text.split_inclusive(|&b| b == b'\n').map(|line| line.strip_suffix(b"\n").unwrap_or(line))
    }
}

/// All of them: crates/vectors has the scripts, and their names and replies in one file.
pub fn stored() -> Vec<Stored> {
    let folder = concat!(env!("CARGO_MANIFEST_DIR"), "/../../crates/vectors");
    let mut all: Vec<Stored> = Vec::new();
    for line in read_to_string(format!("{folder}/stdout")).expect("the expected replies").lines() {
        if let Some(name) = line.strip_suffix(".script") {
            let mut text = read(format!("{folder}/data/{line}")).expect("a script");
            text.truncate(65_536);
            all.push(Stored { name: name.into(), text, replies: String::new() });
        } else {
            let replies = &mut all.last_mut().expect("a name comes first").replies;
            replies.push_str(line);
            replies.push('\n');
        }
    }
    all
}

/// Numbers at random, the same in every run.
pub struct Random(u64);

impl Random {
    pub fn new(seed: u64) -> Random {
        Random(seed.wrapping_mul(0x9e37_79b9_7f4a_7c15) | 1)
    }

    pub fn next(&mut self) -> u64 {
        self.0 ^= self.0 << 13;
        self.0 ^= self.0 >> 7;
        self.0 ^= self.0 << 17;
        self.0.wrapping_mul(0x2545_f491_4f6c_dd1d)
    }

    pub fn below(&mut self, n: u64) -> u64 {
        (self.next() >> 11) % n
    }
}
