//! Scripts of several kinds, each as near to 65,536 bytes as whole lines allow.
use crate::composed::{Composed, LIMIT};
use calls::{Call, Command, Naming};
use reference::generate::{call, geometry, record, script, Dice};

const PER_KIND: u64 = 6;

pub struct Kind {
    pub name: &'static str,
    pub scripts: Vec<Vec<u8>>,
}

fn small(d: &mut Dice) -> [u32; 6] {
    let (arenas, per) = (1 + d.below(4), 1 + d.below(12));
    [arenas, per, 1 + d.below(6), 1 + d.below(12), 1 + d.below(5), 2 * arenas * per + 2 + d.below(60)]
}

fn largest(d: &mut Dice) -> [u32; 6] {
    let (arenas, per) = if d.below(2) == 0 { (16, 128) } else { (2, 1024) };
    [arenas, per, 256, 64, 1 + d.below(64), 8192]
}

fn any(d: &mut Dice) -> [u32; 6] {
    if d.below(2) == 0 {
        largest(d)
    } else {
        geometry(d)
    }
}

/// A store of a shape, and calls until the script is full.
fn composed(seed: u64, shape: fn(&mut Dice) -> [u32; 6], begin: fn(&mut Composed), go_on: fn(&mut Composed)) -> Vec<u8> {
    let mut d = Dice::new(seed);
    let six = shape(&mut d);
    let mut c = Composed::new(d, six);
    begin(&mut c);
    while !c.full {
        go_on(&mut c);
    }
    c.text()
}

fn nothing(_: &mut Composed) {}

/// A call of the reference's generator; for some hundred calls it leans towards new records, then for as many towards deletes. A barrier where all that
/// is free waits, and a T where nothing is free but some is queued, here and in the next two: small stores are full of blocks on pages often enough.
fn random(c: &mut Composed) {
    let grow = c.dice.below(2) == 0;
    for _ in 0..1 + c.dice.below(400) {
        c.release(1);
        let next = call(&mut c.dice, &c.six, &c.store.numbers(), grow);
        c.call(next);
    }
}

fn deletes(c: &mut Composed) {
    c.release(1);
    let next = match c.dice.below(10) {
        0..=2 => Call::Delete(record(&mut c.dice, &c.store.numbers())),
        3..=4 => Call::Seal(record(&mut c.dice, &c.store.numbers())),
        _ => call(&mut c.dice, &c.six, &c.store.numbers(), false),
    };
    c.call(next);
}

fn reads(c: &mut Composed) {
    c.release(1);
    let next = match c.dice.below(10) {
        0..=7 => Call::Read(record(&mut c.dice, &c.store.numbers()), c.dice.below(c.six[2])),
        _ => call(&mut c.dice, &c.six, &c.store.numbers(), true),
    };
    c.call(next);
}

/// One record with all pages written.
fn written(c: &mut Composed) {
    c.call(Call::Begin);
    let r = c.newest();
    c.write_many(r, c.six[2]);
}

/// A line of eight records, each with its own block on every page: the newest is sealed and rewritten, the oldest goes. They have all 2,048 blocks, so
/// that the next one's are those that the delete queued: four Ts and a barrier after each delete.
fn listed(c: &mut Composed) {
    let all = c.store.numbers();
    if all.len() == 8 {
        c.room(1024);
        c.call(Call::Delete(all[0]));
        c.sweep();
        c.release(256);
    }
    c.call(Call::Seal(c.newest()));
    let r = c.newest();
    c.write_many(r, c.six[2]);
}

/// A seal and a few writes, and a T for each 64 blocks that deletes have queued. These would use up the store before the log is full: a barrier where the
/// few writes have no blocks left, which is every few thousand calls.
fn sealed(c: &mut Composed) {
    c.room(1024);
    c.sweep();
    c.release(8);
    c.call(Call::Seal(c.newest()));
    for _ in 0..c.dice.below(8) {
        c.write_any(c.newest());
    }
}

/// A line of 32 records: a seal, a few writes, and the oldest goes.
fn window(c: &mut Composed) {
    sealed(c);
    let all = c.store.numbers();
    if all.len() > 32 {
        c.call(Call::Delete(all[0]));
    }
}

/// The window of a line is set once, and its seals delete.
fn written_and_kept(c: &mut Composed) {
    written(c);
    c.call(Call::Retain(1, 32));
}

/// A name for a record.
fn name(r: u32) -> [u8; 6] {
    let letter = |n: u32| b'a' + (n % 26) as u8;
    [b'n', b'a', b'm', b'e', letter(r / 26), letter(r)]
}

/// Seals in a line with a window, and 24 names: every other record that is sealed gets one, and the oldest name comes off; until then the window passes over
/// its record. Two names are asked for after each seal.
fn named(c: &mut Composed) {
    let r = c.newest();
    sealed(c);
    if r.is_multiple_of(2) {
        c.call(Command::Naming(Naming::Attach(r), &name(r)));
        if c.store.name_count() > 24 {
            c.call(Command::Naming(Naming::Detach, &name(r - 48)));
        }
    }
    for _ in 0..2 {
        let asked = (r & !1).saturating_sub(2 * c.dice.below(24));
        c.call(Command::Naming(Naming::Resolve, &name(asked)));
    }
}

/// 64 records in lines that fork: where the table is full one goes, else a seal or a fork; writes and reads between. A T for each 64 blocks that are queued,
/// and a barrier where the two writes have no blocks left.
fn forks(c: &mut Composed) {
    c.room(1024);
    c.sweep();
    c.release(2);
    let all = c.store.numbers();
    match c.dice.below(3) {
        _ if all.is_empty() => c.call(Call::Begin),
        _ if all.len() == 64 => {
            let r = c.dice.one_of(&all);
            c.call(Call::Delete(r));
        }
        0 => {
            let r = c.any(true);
            c.call(Call::Seal(r));
        }
        _ => {
            let r = c.any(false);
            c.call(Call::Fork(r));
        }
    }
    for _ in 0..2 {
        let r = c.any(true);
        c.write_any(r);
    }
    let r = all.get(c.dice.below(64) as usize).copied().unwrap_or(1);
    let page = c.dice.below(c.six[2]);
    c.call(Call::Read(r, page));
}

fn written_and_sealed(c: &mut Composed) {
    written(c);
    c.call(Call::Seal(1));
}

/// Deletes where all of 256 pages are written: of a record in a line, and of a fork. A T for each 64 blocks that are queued, and a barrier where the writes
/// between have no blocks left.
fn wide_deletes(c: &mut Composed) {
    c.room(1024);
    c.sweep();
    c.release(32);
    let r = c.any(true);
    let count = c.dice.one_of(&[1, 4, 32]);
    if c.dice.below(2) == 0 {
        c.call(Call::Seal(r));
        let next = c.newest();
        c.write_many(next, count);
        c.call(Call::Delete(r));
    } else {
        c.call(Call::Fork(1));
        let fork = c.newest();
        c.write_many(fork, count);
        c.call(Call::Delete(fork));
    }
}

/// Forks of the first record that get a few blocks and go again, each with a T for as many as its D queues. A barrier where the writes have no blocks left.
fn turns(c: &mut Composed) {
    c.room(64);
    c.release(4);
    c.call(Call::Fork(1));
    let (fork, count) = (c.newest(), c.dice.one_of(&[1, 2, 4]));
    c.write_many(fork, count);
    c.call(Call::Delete(fork));
    c.call(Call::Reclaim(count));
}

/// The same behind a queue of 1,024 blocks, so that it is never shorter.
fn written_and_queued(c: &mut Composed) {
    written_and_sealed(c);
    for _ in 0..4 {
        c.call(Call::Fork(1));
        c.write_many(c.newest(), 256);
        c.call(Call::Delete(c.newest()));
    }
}

fn four_records(c: &mut Composed) {
    for _ in 0..4 {
        c.call(Call::Begin);
    }
}

/// Each write but the first ones frees a block: a barrier where none is left to give, which is every thousand writes or more.
fn writes(c: &mut Composed) {
    c.room(3);
    c.release(1);
    let r = 1 + c.dice.below(4);
    c.write_any(r);
}

/// Eight records with a block on every page, but for one to eight blocks that are free.
fn nearly_all(c: &mut Composed) {
    written(c);
    while c.store.numbers().len() < 8 {
        c.call(Call::Seal(c.newest()));
        let few = if c.newest() == 8 { 1 + c.dice.below(8) } else { 0 };
        c.write_many(c.newest(), 256 - few);
    }
}

/// A write to one of the newest record's own pages, or one is emptied and written again. Each takes one of the few free blocks and frees another, which
/// waits: a barrier once none is left, so that one to eight are free at each search, as before.
fn far(c: &mut Composed) {
    c.room(4);
    c.release(1);
    let (r, page) = (c.newest(), c.dice.below(256));
    if c.store.free_blocks() > 1 && c.dice.below(4) == 0 {
        c.call(Call::Erase(r, page));
    }
    c.write(r, page);
}

/// The generator's own scripts, one after another, cut after a whole line.
fn joined(seed: u64) -> Vec<u8> {
    let mut text: Vec<u8> = Vec::new();
    let mut part = 1000 * seed;
    while text.len() < LIMIT {
        text.extend(script(part));
        if text.last() != Some(&b'\n') {
            text.push(b'\n');
        }
        part += 1;
    }
    text.truncate(LIMIT);
    let end = text.iter().rposition(|&b| b == b'\n').expect("a line is short");
    text.truncate(end + 1);
    text
}

fn several(name: &'static str, make: impl Fn(u64) -> Vec<u8>) -> Kind {
    Kind { name, scripts: (1..=PER_KIND).map(make).collect() }
}

pub fn kinds() -> Vec<Kind> {
    vec![
        several("mixed", joined),
        several("small stores", |s| composed(s, small, nothing, random)),
        several("largest stores", |s| composed(s, largest, nothing, random)),
        several("many deletes", |s| composed(s, any, nothing, deletes)),
        several("many reads", |s| composed(s, any, nothing, reads)),
        several("writes only", |s| composed(s, largest, four_records, writes)),
        several("listed writes, 1,792 blocks dead", |s| composed(s, largest, written, listed)),
        several("window of 32 snapshots", |s| composed(s, largest, written, window)),
        several("window of 32 snapshots, by K", |s| composed(s, largest, written_and_kept, sealed)),
        several("window of 32 by K, 24 names", |s| composed(s, largest, written_and_kept, named)),
        several("64 records with forks", |s| composed(s, largest, written_and_sealed, forks)),
        several("deletes at 256 pages", |s| composed(s, largest, written_and_sealed, wide_deletes)),
        several("deletes and turns", |s| composed(s, largest, written_and_sealed, turns)),
        several("deletes and turns, 1,024 queued", |s| composed(s, largest, written_and_queued, turns)),
        several("nearly full stores", |s| composed(s, largest, nearly_all, far)),
    ]
}
