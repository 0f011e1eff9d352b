//! Every call on valid memory: the listing (section 11 of the rules), stored scripts, and arguments that would show a wrong declaration.
mod common;
use common::{
    bare, bare_letter, every_call, every_unnamed, geometry, made, marked, marked_for_any, numbers, refused, small, stored, Stored, Tested, EASTER,
    MARK, MARKS, NEW, SMALL,
};
use reference::generate;
use reference::script::{parse, Line};
use sogvect::{raw, Block, Call, Command, Estimate, Geometry, Kind, Naming, Record, Refusal, Space, Store, Written};

const fn block(number: u32, birth: u32) -> Block {
    Block { number, birth: Record(birth) }
}

/// A write that frees nothing.
const fn given(number: u32, birth: u32) -> Written {
    Written { block: block(number, birth), freed: None }
}

/// The listing (section 11 of the rules), with typed results.
#[test]
fn listing() {
    let g = Geometry { arenas: 1, per: 4, pages: 2, records: 4, turn: 8, words: 10 };
    let mut m = marked(g);
    assert_eq!(m.make(g), Ok(()));
    let mut s = m.store(g);
    assert_eq!(s.begin(), Ok(Record(1)));
    assert_eq!(s.write(Record(1), 0, Kind::Data), Ok(given(0, 1)));
    assert_eq!(s.seal(Record(1)), Ok(Record(2)));
    assert_eq!(s.write(Record(2), 0, Kind::Data), Ok(given(1, 2)));
    assert_eq!(s.write(Record(2), 0, Kind::Data), Ok(Written { block: block(2, 2), freed: Some(block(1, 2)) }));
    assert_eq!(s.fork(Record(1)), Ok(Record(3)));
    assert_eq!(s.delete(Record(1)), Err(Refusal::FORKED));
    assert_eq!(s.erase(Record(3), 0), Ok(None));
    assert_eq!((s.delete(Record(3)), s.reclaim(64)), (Ok(()), Ok(vec![])));
    assert_eq!((s.delete(Record(1)), s.reclaim(64)), (Ok(()), Ok(vec![block(0, 1)])));
    assert_eq!(m.words(), [0x1, 0x4001, 0x8001, 0x4002, 0x2]);
    let mut s = m.store(g);
    assert_eq!(s.compress(), Ok(2));
    assert_eq!(m.words(), [0x8001, 0x3]);
    let mut s = m.store(g);
    assert_eq!(s.write(Record(2), 1, Kind::Data), Ok(given(3, 2)));
    assert_eq!(s.free_list(), Ok(vec![(0, 2)]));
    assert_eq!(s.delete(Record(9)), Err(Refusal::NO_RECORD));
    assert_eq!(s.write(Record(2), 2, Kind::Data), Err(Refusal::NO_PAGE));
    assert_eq!(s.read(Record(2), 1), Ok(Some(block(3, 2))));
    assert_eq!(s.erase(Record(2), 1), Ok(Some(block(3, 2))));
    assert_eq!(s.read(Record(2), 1), Ok(None));
    assert_eq!(s.barrier(), Ok(()));
}

/// A block has the birth that it was given with, whichever record names or frees it: record 3 frees a block of 2, which is gone.
#[test]
fn births() {
    let g = Geometry { arenas: 1, per: 8, pages: 3, records: 3, turn: 8, words: 18 };
    let mut m = made(g);
    let mut s = m.store(g);
    assert_eq!(s.begin(), Ok(Record(1)));
    assert_eq!(s.write(Record(1), 0, Kind::Data), Ok(given(0, 1)));
    assert_eq!(s.seal(Record(1)), Ok(Record(2)));
    assert_eq!(s.write(Record(2), 1, Kind::Data), Ok(given(1, 2)));
    assert_eq!(s.write(Record(2), 2, Kind::Data), Ok(given(2, 2)));
    assert_eq!(s.seal(Record(2)), Ok(Record(3)));
    assert_eq!((s.delete(Record(2)), s.reclaim(1)), (Ok(()), Ok(vec![])));
    assert_eq!(s.read(Record(3), 0), Ok(Some(block(0, 1))));
    assert_eq!(s.read(Record(3), 1), Ok(Some(block(1, 2))));
    assert_eq!(s.write(Record(3), 1, Kind::Data), Ok(Written { block: block(3, 3), freed: Some(block(1, 2)) }));
    assert_eq!(s.erase(Record(3), 2), Ok(Some(block(2, 2))));
    assert_eq!(s.write(Record(3), 2, Kind::Data), Ok(given(4, 3)));
    assert_eq!(s.erase(Record(3), 0), Ok(None));
    assert_eq!((s.delete(Record(1)), s.delete(Record(3))), (Ok(()), Ok(())));
    assert_eq!(s.reclaim(64), Ok(vec![block(0, 1), block(3, 3), block(4, 3)]));
    assert_eq!(block(2047, 999_999).to_string(), "2047:999999");
}

/// A stored script by the typed functions: each reply is the stored one.
fn run(script: &Stored) {
    let (mut space, mut g) = (marked_for_any(), None);
    let mut replies = script.replies.lines();
    for (i, line) in script.lines().enumerate() {
        let reply = match (parse(line), g) {
            (None, _) => Err(1),
            (Some(Line::Store(six)), _) => {
                let asked = geometry(six.map(|n| n as usize));
                let made = space.make(asked);
                g = made.map(|()| asked).ok().or(g);
                made.map(|()| String::new()).map_err(Refusal::number)
            }
            (Some(Line::Call(_)), None) => Err(4),
            (Some(Line::Call(call)), Some(g)) => {
                let given = numbers(&mut space.store(g), call).map_err(Refusal::number);
                given.map(|numbers| call.spelling().text(&numbers))
            }
        };
        let reply = reply.map_or_else(|number| format!("- {number}"), |result| format!("+{result}"));
        assert_eq!(Some(reply.as_str()), replies.next(), "{}, line {}", script.name, i + 1);
    }
    assert_eq!(replies.next(), None, "{}", script.name);
}

#[test]
fn stored_scripts() {
    stored().iter().for_each(run);
}

/// A line is the call that `tests/reference` takes it for, or none; and a call's line is the one that it is read from.
#[test]
fn lines() {
    let (mut calls, mut namings) = (0, 0);
    for text in stored().into_iter().map(|script| script.text).chain((1..=30).map(generate::script)) {
        for line in text.split(|&b| b == b'\n') {
            let expected = if let Some(Line::Call(call)) = parse(line) { Some(call) } else { None };
            let command = Command::parse(line).ok();
            assert_eq!(command, expected, "{}", String::from_utf8_lossy(line));
            let call = std::str::from_utf8(line).ok().and_then(|line| line.parse::<Call>().ok());
            assert_eq!(call.map(Command::from), command.filter(|command| matches!(command, Command::Unnamed(_))));
            if let Some(command) = command {
                assert_eq!(command.line(), line);
                calls += 1;
                namings += usize::from(matches!(command, Command::Naming(..)));
            }
        }
    }
    assert!(calls > 10_000 && namings > 1_000, "only {calls} calls, {namings} with a name");
}

/// An estimate says what the delete then does, and changes nothing but its three numbers in the result buffer: blocks, no words, and shards.
/// Record 3 is followed by 4, whose deadlist has a block born in 1, two in 2 and one in 3; 2 is gone, so the pred of 3 is 1.
#[test]
fn estimates() {
    let g = Geometry { arenas: 2, per: 8, pages: 4, records: 5, turn: 3, words: 34 };
    let mut m = made(g);
    let first = [
        Call::Begin,
        Call::Write(1, 0, 0),
        Call::Write(1, 1, 0),
        Call::Write(1, 2, 0),
        Call::Write(1, 3, 0),
        Call::Seal(1),
        Call::Write(2, 0, 0),
        Call::Write(2, 1, 0),
    ];
    let then = [
        Call::Seal(2),
        Call::Write(3, 2, 0),
        Call::Seal(3),
        Call::Delete(2),
        Call::Erase(4, 1),
        Call::Write(4, 2, 0),
        Call::Write(4, 0, 0),
        Call::Erase(4, 3),
    ];
    for call in first.into_iter().chain(then) {
        numbers(&mut m.store(g), call).unwrap_or_else(|e| panic!("{call:?}: {e}"));
    }
    for (n, blocks, shards) in [(3, 3, 2), (4, 2, 0), (1, 3, 1)] {
        m.out.fill(MARKS);
        let before = m.clone();
        assert_eq!(m.store(g).estimate(Record(n)), Ok(Estimate { blocks, words: 0, shards }), "record {n}");
        assert_eq!((&m.tables, &m.log, &m.out[3..]), (&before.tables, &before.log, &before.out[3..]), "record {n}");
    }
    for n in [3, 1, 4] {
        let said = m.store(g).estimate(Record(n)).unwrap();
        let (used, queued) = (m.words().len(), m.tables[10]);
        assert_eq!(m.store(g).delete(Record(n)), Ok(()), "record {n}");
        assert_eq!((m.tables[10] - queued, m.words().len()), (said.blocks, used), "record {n}");
        assert_eq!(m.store(g).estimate(Record(n)), Err(Refusal::NO_RECORD), "record {n}");
    }
}

/// A window: a seal gives the new number, queues the blocks of the oldest records one after another, and passes over a forked one; it writes no word, so
/// that a full log does not matter. Record 2 is forked by 5, and the window of the line is handed on.
#[test]
fn windows() {
    let g = Geometry { arenas: 1, per: 8, pages: 2, records: 6, turn: 8, words: 18 };
    let mut m = made(g);
    let mut s = m.store(g);
    assert_eq!(s.begin(), Ok(Record(1)));
    assert_eq!(s.retain(Record(1), 62), Ok(()));
    for n in 1..4 {
        assert_eq!(s.write(Record(n), 0, Kind::Data), Ok(given(n - 1, n)));
        assert_eq!(s.seal(Record(n)), Ok(Record(n + 1)));
    }
    assert_eq!(s.write(Record(4), 0, Kind::Data), Ok(given(3, 4)));
    assert_eq!(s.fork(Record(2)), Ok(Record(5)));
    assert_eq!(s.retain(Record(5), 1), Ok(()));
    assert_eq!(s.retain(Record(4), 2), Ok(()));
    // the windows stand with the open records, in slots 3 and 4; the others have what the seals left
    assert_eq!(m.tables[576..582], [62, 62, 62, 2, 1, 0]);
    for (n, most, number) in [(9, 0, 15), (9, 63, 15), (1, 0, 15), (1, 63, 15), (4, 0, 15), (4, 63, 15), (9, 1, 8), (1, 1, 9), (3, 62, 9)] {
        refused(&mut m, g, Call::Retain(n, most), number);
    }
    while m.words().len() < 18 {
        m.store(g).barrier().unwrap();
    }
    // 1 and 3 are to go, each with a block of its own
    let mut s = m.store(g);
    assert_eq!(s.seal(Record(4)), Ok(Record(6)));
    assert_eq!((s.reclaim(2), s.reclaim(1)), (Err(Refusal::LOG_FULL), Err(Refusal::LOG_FULL)));
    assert_eq!((s.compress(), s.reclaim(2)), (Ok(3), Ok(vec![block(0, 1), block(2, 3)])));
    assert_eq!(s.read(Record(1), 0), Err(Refusal::NO_RECORD));
    assert_eq!(s.read(Record(2), 0), Ok(Some(block(1, 2))));
    assert_eq!(s.read(Record(3), 0), Err(Refusal::NO_RECORD));
    assert_eq!(m.words()[3..], [0x2, 0x8002]);
    assert_eq!(m.tables[576 + 5], 2);
    // 2 counts: with one of its own to go, 4, the next seal leaves 2 and 6
    assert_eq!(m.store(g).seal(Record(6)), Ok(Record(7)));
    assert_eq!(m.store(g).read(Record(4), 0), Err(Refusal::NO_RECORD));
    // a full table, though the window would make room
    assert_eq!(m.store(g).begin(), Ok(Record(8)));
    assert_eq!(m.store(g).begin(), Ok(Record(9)));
    refused(&mut m, g, Call::Seal(7), 11);
}

fn naming(naming: Naming, name: &[u8]) -> Command<'_> {
    Command::Naming(naming, name)
}

/// A row of the names: the link, the length, and the first letters.
fn title(m: &Space, i: usize) -> (u32, u32, &[u32]) {
    let row = &m.tables[768 + 40 * i..][..40];
    (row[0], row[1], &row[8..][..row[1] as usize])
}

/// Names and their rows: the first empty row is taken, a seal leads one on, and a name that is taken off leaves its letters. The records are in slots 0, 1
/// and so on, and number 640 on are the counts.
#[test]
fn names() {
    let g = Geometry { arenas: 1, per: 8, pages: 2, records: 4, turn: 8, words: 18 };
    let (mut m, longest) = (made(g), [b'z'; 32]);
    let mut s = m.store(g);
    assert_eq!(s.begin(), Ok(Record(1)));
    assert_eq!(s.name(EASTER, Record(1)), Ok(()));
    assert_eq!(s.name(NEW, Record(1)), Err(Refusal::WRONG_NAME));
    assert_eq!(s.seal(Record(1)), Ok(Record(2)));
    assert_eq!(s.resolve(EASTER), Ok(Record(2)));
    assert_eq!(s.name(&longest, Record(1)), Ok(()));
    assert_eq!(s.name(b"a", Record(1)), Ok(()));
    assert_eq!(s.fork(Record(1)), Ok(Record(3)));
    assert_eq!(m.tables[640..644], [2, 1, 0, 0]);
    assert_eq!(title(&m, 0), (2, 6, &EASTER.iter().map(|&b| u32::from(b)).collect::<Vec<_>>()[..]));
    assert_eq!(title(&m, 1), (1, 32, &[122; 32][..]));
    assert_eq!((title(&m, 2), title(&m, 3)), ((1, 1, &[97][..]), (0, 0, &[][..])));
    assert_eq!(m.store(g).unname(&longest), Ok(()));
    assert_eq!((title(&m, 1), m.tables[640]), ((0, 32, &[122; 32][..]), 1));
    assert_eq!(m.store(g).name(b"bc", Record(3)), Ok(()));
    assert_eq!((title(&m, 1), m.tables[768 + 40 + 10], m.tables[640 + 2]), ((3, 2, &[98, 99][..]), 122, 1));
    for (name, record) in [(EASTER, 2), (b"a", 1), (b"bc", 3)] {
        assert_eq!(m.store(g).resolve(name), Ok(Record(record)));
        for on in 1..4 {
            refused(&mut m, g, naming(Naming::Attach(on), name), 17);
        }
    }
    // 1 is forked and named
    for (call, number) in [(Call::Delete(1), 10), (Call::Estimate(1), 10), (Call::Delete(2), 18), (Call::Estimate(3), 18)] {
        refused(&mut m, g, call, number);
    }
    let mut s = m.store(g);
    assert_eq!((s.unname(b"bc"), s.delete(Record(3))), (Ok(()), Ok(())));
    assert_eq!((s.delete(Record(1)), s.unname(b"a"), s.delete(Record(1))), (Err(Refusal::NAMED), Ok(()), Ok(())));
}

/// Bytes that are no name are refused by 16 before everything else, names that no record has by 17; N of a record that is not there by 8 before 17.
#[test]
fn names_that_are_none() {
    let mut m = small();
    let (letters, long) = ([b'a'; 32], [b'a'; 4_000]);
    let none: [&[u8]; 16] =
        [b"", b"A", b"easteR", b"1", b"a b", b" a", b"a\n", b"\t", b"a\0", b"\0", b"`", b"{", b"a\x80", &[255; 32], &long[..33], &long];
    for name in none {
        for on in [0, 1, 4, 9] {
            refused(&mut m, SMALL, naming(Naming::Attach(on), name), 16);
        }
        refused(&mut m, SMALL, naming(Naming::Detach, name), 16);
        refused(&mut m, SMALL, naming(Naming::Resolve, name), 16);
    }
    for name in [NEW, b"e", b"easte", b"easters", b"eastes", b"z", &letters, &letters[..31]] {
        refused(&mut m, SMALL, naming(Naming::Detach, name), 17);
        refused(&mut m, SMALL, naming(Naming::Resolve, name), 17);
        refused(&mut m, SMALL, naming(Naming::Attach(9), name), 8);
        let mut one = m.clone();
        assert_eq!(one.store(SMALL).name(name, Record(2)), Ok(()));
        assert_eq!(one.store(SMALL).resolve(name), Ok(Record(2)));
        assert_eq!(one.store(SMALL).resolve(EASTER), Ok(Record(1)));
    }
    refused(&mut m, SMALL, naming(Naming::Attach(9), EASTER), 8);
    refused(&mut m, SMALL, naming(Naming::Attach(5), NEW), 17);
}

/// A store has 32 names, and no more.
#[test]
fn names_enough() {
    let mut m = small();
    let all: Vec<[u8; 2]> = (0..30).map(|i| [b'a' + i % 26, b'x' + i / 26]).collect();
    for name in &all {
        assert_eq!(m.store(SMALL).name(name, Record(2)), Ok(()));
    }
    assert_eq!((m.tables[640], m.tables[641]), (1, 30));
    for on in [1, 2, 4, 5] {
        refused(&mut m, SMALL, naming(Naming::Attach(on), NEW), 17);
    }
    assert_eq!(m.store(SMALL).unname(&all[7]), Ok(()));
    assert_eq!(m.store(SMALL).name(NEW, Record(4)), Ok(()));
    refused(&mut m, SMALL, naming(Naming::Attach(1), &all[7]), 17);
    assert_eq!(m.store(SMALL).seal(Record(4)), Ok(Record(7)));
    assert_eq!(m.store(SMALL).resolve(NEW), Ok(Record(7)));
}

/// A window passes over named records as over forked ones: they count, and stay. The names of the open record move on, and what is queued are the blocks of
/// the deletes alone.
#[test]
fn names_and_windows() {
    let g = Geometry { arenas: 1, per: 8, pages: 1, records: 8, turn: 8, words: 18 };
    let mut m = made(g);
    let mut s = m.store(g);
    assert_eq!(s.begin(), Ok(Record(1)));
    for n in 1..5 {
        assert_eq!(s.write(Record(n), 0, Kind::Data), Ok(given(n - 1, n)));
        assert_eq!(s.seal(Record(n)), Ok(Record(n + 1)));
    }
    assert_eq!(s.write(Record(5), 0, Kind::Data), Ok(given(4, 5)));
    assert_eq!((s.name(EASTER, Record(2)), s.name(NEW, Record(5)), s.retain(Record(5), 2)), (Ok(()), Ok(()), Ok(())));
    // 1, 3 and 4 are to go, each with a block of its own
    assert_eq!(s.seal(Record(5)), Ok(Record(6)));
    assert_eq!(s.reclaim(64), Ok(vec![block(0, 1), block(2, 3), block(3, 4)]));
    assert_eq!((m.store(g).resolve(EASTER), m.store(g).resolve(NEW)), (Ok(Record(2)), Ok(Record(6))));
    // 2 is named and 5 is forked: the seal of 6 stops above the window
    assert_eq!(m.store(g).fork(Record(5)), Ok(Record(7)));
    assert_eq!(m.store(g).seal(Record(6)), Ok(Record(8)));
    for n in [2, 5, 6] {
        assert!(m.store(g).read(Record(n), 0).is_ok());
    }
}

/// The six numbers reach the store in their order: the header has them, and any two swapped are no longer those of the store.
#[test]
fn six_numbers_in_order() {
    let mut m = small();
    assert_eq!(m.tables[..6], [2, 4, 5, 6, 7, 20]);
    let mut long = m.clone();
    long.tables.resize(40_000, 0);
    long.log.resize(70_000, 0);
    long.out.resize(5_000, 0);
    for i in 0..6 {
        for j in 0..i {
            let mut n = [2, 4, 5, 6, 7, 20];
            n.swap(i, j);
            let inside = long.clone().make(geometry(n)).is_ok();
            for call in every_call(1, 0) {
                refused(&mut long, geometry(n), call, if inside { 4 } else { 2 });
            }
        }
        let mut n = [2, 4, 5, 6, 7, 20];
        n[i] += 1 << 32;
        for call in every_call(1, 0) {
            refused(&mut m, geometry(n), call, 2);
        }
        assert_eq!(m.make(geometry(n)), Err(Refusal::OUTSIDE_LIMITS));
    }
}

/// A call's own numbers reach it in their order and whole: another number in one place is refused for that place.
#[test]
fn own_numbers_whole() {
    let mut m = small();
    for high in [1 << 8, 1 << 16, 1 << 31] {
        for call in [
            Call::Write(4 + high, 2, 1),
            Call::Erase(4 + high, 2),
            Call::Seal(4 + high),
            Call::Fork(1 + high),
            Call::Delete(4 + high),
            Call::Read(1 + high, 0),
            Call::Estimate(4 + high),
            Call::Retain(4 + high, 2),
        ] {
            refused(&mut m, SMALL, call, 8);
        }
        for call in [Call::Write(4, 2 + high, 1), Call::Erase(4, 2 + high), Call::Read(1, high)] {
            refused(&mut m, SMALL, call, 5);
        }
        refused(&mut m, SMALL, naming(Naming::Attach(4 + high), NEW), 8);
        refused(&mut m, SMALL, Call::Write(4, 2, 1 + high), 6);
        refused(&mut m, SMALL, Call::Retain(4, 2 + high), 15);
        refused(&mut m, SMALL, Call::Reclaim(1 + high), 19);
    }
    refused(&mut m, SMALL, Call::Write(2, 4, 1), 9);
    refused(&mut m, SMALL, Call::Read(3, 0), 8);
    let mut s = m.store(SMALL);
    // block 5 waits, 3 and 6 are queued
    assert_eq!(s.write(Record(4), 3, Kind::Pivot), Ok(given(7, 4)));
    assert_eq!(s.read(Record(4), 3), Ok(Some(block(7, 4))));
    assert_eq!(s.read(Record(4), 1), Ok(None));
    assert_eq!(s.erase(Record(4), 3), Ok(Some(block(7, 4))));
}

/// The queue and its births in the tables of a store of 8 blocks and 4 records: how long it is, its entries beyond that too, and the births by block.
fn queue(m: &Space) -> (u32, [u32; 4], [u32; 8]) {
    let at = 2048 + 512 * 4 + 8;
    (m.tables[10], m.tables[at..at + 4].try_into().unwrap(), m.tables[at + 8..at + 16].try_into().unwrap())
}

/// A delete queues its blocks and writes no word; the queue is freed from its front, in turns, and what is left is moved there. A queued block is held: it is
/// not listed, a compressed log has it, and it is given to no write. What is freed then waits.
#[test]
fn turns() {
    let g = Geometry { arenas: 1, per: 8, pages: 4, records: 4, turn: 8, words: 18 };
    let mut m = made(g);
    let mut s = m.store(g);
    assert_eq!((s.begin(), s.begin()), (Ok(Record(1)), Ok(Record(2))));
    for (n, record, page) in [(0, 1, 0), (1, 2, 3), (2, 1, 1), (3, 2, 0), (4, 1, 2)] {
        assert_eq!(s.write(Record(record), page, Kind::Data), Ok(given(n, record)));
    }
    assert_eq!((s.delete(Record(2)), s.delete(Record(1)), s.begin()), (Ok(()), Ok(()), Ok(Record(3))));
    // by rising page, record after record
    assert_eq!((queue(&m), m.words().len()), ((5, [3, 1, 0, 2], [1, 2, 1, 2, 1, 0, 0, 0]), 5));
    assert_eq!(m.store(g).free_list(), Ok(vec![(5, 3)]));
    for most in [0, 65, u32::MAX] {
        refused(&mut m, g, Call::Reclaim(most), 19);
    }
    assert_eq!(m.store(g).reclaim(2), Ok(vec![block(3, 2), block(1, 2)]));
    assert_eq!((queue(&m), m.tables[11]), ((3, [0, 2, 4, 2], [1, 0, 1, 0, 1, 0, 0, 0]), 2));
    assert_eq!(m.words()[5..], [0xc002, 0x4002]);
    let mut s = m.store(g);
    assert_eq!(s.free_list(), Ok(vec![(5, 3)]));
    assert_eq!((s.compress(), s.free_list()), (Ok(4), Ok(vec![(1, 1), (3, 1), (5, 3)])));
    assert_eq!(m.words(), [0x1, 0x8001, 0x10001, 0x3]);
    // 5, 6, 7 and then 1 are given; 3 is the last that is free
    let mut s = m.store(g);
    for (n, page) in [(5, 0), (6, 1), (7, 2), (1, 3)] {
        assert_eq!(s.write(Record(3), page, Kind::Data), Ok(given(n, 3)));
    }
    assert_eq!((s.begin(), s.write(Record(4), 0, Kind::Data)), (Ok(Record(4)), Ok(given(3, 4))));
    refused(&mut m, g, Call::Write(4, 1, 0), 13);
    while m.words().len() < 17 {
        m.store(g).barrier().unwrap();
    }
    // two words lack where one is left
    refused(&mut m, g, Call::Reclaim(2), 14);
    refused(&mut m, g, Call::Reclaim(65), 19);
    assert_eq!(m.store(g).reclaim(1), Ok(vec![block(0, 1)]));
    // nothing is left: a delete needs no word
    refused(&mut m, g, Call::Reclaim(1), 14);
    refused(&mut m, g, Call::Write(4, 1, 0), 13);
    let mut s = m.store(g);
    assert_eq!((s.delete(Record(4)), s.compress()), (Ok(()), Ok(3)));
    assert_eq!(s.reclaim(64), Ok(vec![block(2, 1), block(4, 1), block(3, 4)]));
    assert_eq!(queue(&m), (0, [2, 4, 3, 2], [0; 8]));
    assert_eq!((m.store(g).reclaim(1), m.store(g).free_list()), (Ok(vec![]), Ok(vec![(0, 1)])));
}

/// A freed block waits: it is not given and not listed until a barrier or a compression is done, and a refused barrier ends nothing.
#[test]
fn waiting() {
    let g = Geometry { arenas: 1, per: 3, pages: 2, records: 2, turn: 1, words: 8 };
    let mut m = made(g);
    let mut s = m.store(g);
    let again = |number: u32, old: u32| Ok(Written { block: block(number, 1), freed: Some(block(old, 1)) });
    assert_eq!(s.begin(), Ok(Record(1)));
    assert_eq!(s.write(Record(1), 0, Kind::Data), Ok(given(0, 1)));
    assert_eq!(s.write(Record(1), 0, Kind::Data), again(1, 0));
    assert_eq!(s.free_list(), Ok(vec![(2, 1)]));
    assert_eq!(s.write(Record(1), 0, Kind::Data), again(2, 1));
    assert_eq!(s.free_list(), Ok(vec![]));
    assert_eq!(m.tables[11], 2);
    // 13 with one block on a page and two that wait
    refused(&mut m, g, Call::Write(1, 0, 0), 13);
    let mut s = m.store(g);
    assert_eq!(s.barrier(), Ok(()));
    assert_eq!(s.free_list(), Ok(vec![(0, 2)]));
    assert_eq!(s.write(Record(1), 0, Kind::Data), again(0, 2));
    // the log is full: the barrier is refused, and block 2 waits as before
    refused(&mut m, g, Call::Barrier, 14);
    assert_eq!(m.tables[11], 1);
    let mut s = m.store(g);
    assert_eq!(s.free_list(), Ok(vec![(1, 1)]));
    assert_eq!(s.compress(), Ok(2));
    assert_eq!(s.free_list(), Ok(vec![(1, 2)]));
    assert_eq!(m.tables[11], 0);
}

/// The count is written whole, and nothing beside it; the result buffer beyond the result stays.
#[test]
fn count_and_buffer() {
    let unnamed = [
        Call::Begin,
        Call::Write(4, 1, 0),
        Call::Erase(4, 2),
        Call::Seal(4),
        Call::Fork(2),
        Call::Delete(4),
        Call::Read(4, 2),
        Call::Barrier,
        Call::Compress,
        Call::FreeList,
        Call::Estimate(4),
        Call::Retain(4, 1),
        Call::Reclaim(1),
        Call::Reclaim(2),
        Call::Reclaim(64),
    ];
    let namings = [naming(Naming::Attach(4), NEW), naming(Naming::Detach, EASTER), naming(Naming::Resolve, EASTER)];
    for call in unnamed.into_iter().map(Command::from).chain(namings) {
        let (mut m, mut other) = (small(), small());
        m.out.fill(MARKS);
        let mut counts = [usize::MAX; 3];
        assert_eq!(bare(&mut m, SMALL, call, &mut counts[1]), 0, "{call:?}");
        let given = numbers(&mut other.store(SMALL), call).unwrap();
        // N and U have no count
        let counted = !matches!(call, Command::Naming(Naming::Attach(_) | Naming::Detach, _));
        assert_eq!(counts, [usize::MAX, if counted { given.len() } else { usize::MAX }, usize::MAX], "{call:?}");
        assert_eq!(m.out[..given.len()], given[..], "{call:?}");
        assert!(m.out[given.len()..].iter().all(|x| *x == MARKS), "{call:?} wrote after its result");
        assert_eq!((m.tables, m.log), (other.tables, other.log), "{call:?}");
    }
}

/// Memory beyond what the geometry needs stays as it is.
#[test]
fn beyond_stays() {
    let mut m = marked(SMALL);
    let ends = (m.tables.len(), m.log.len(), m.out.len());
    m.tables.resize(ends.0 + 50, MARKS);
    m.log.resize(ends.1 + 50, MARK);
    m.out.resize(ends.2 + 50, MARKS);
    m.make(SMALL).unwrap();
    let unnamed = [
        Call::Begin,
        Call::Write(1, 4, 2),
        Call::Seal(1),
        Call::Write(2, 4, 2),
        Call::Fork(1),
        Call::Delete(3),
        Call::Estimate(1),
        Call::Delete(1),
        Call::Reclaim(1),
        Call::Barrier,
        Call::Compress,
        Call::FreeList,
    ];
    let namings = [naming(Naming::Attach(2), NEW), naming(Naming::Resolve, NEW), naming(Naming::Detach, NEW)];
    for call in unnamed.into_iter().map(Command::from).chain(namings) {
        numbers(&mut m.store(SMALL), call).unwrap();
    }
    assert!(m.tables[ends.0..].iter().chain(&m.out[ends.2..]).all(|x| *x == MARKS));
    assert!(m.log[ends.1..].iter().all(|x| *x == MARK));
}

/// Every refusal of a call that has a sound store under it.
#[test]
fn refusals_by_state() {
    let mut m = small();
    for (call, number) in [
        (Call::Write(1, 0, 0), 9),
        (Call::Erase(2, 0), 9),
        (Call::Seal(1), 9),
        (Call::Retain(1, 1), 9),
        (Call::Fork(4), 9),
        (Call::Delete(1), 10),
        (Call::Estimate(1), 10),
        (Call::Write(4, 9, 9), 5),
        (Call::Write(4, 0, 9), 6),
        (Call::Write(9, 0, 0), 8),
        (Call::Estimate(9), 8),
        (Call::Retain(9, 62), 8),
        (Call::Retain(9, 63), 15),
        (Call::Retain(1, 0), 15),
        (Call::Delete(5), 18),
        (Call::Estimate(5), 18),
        (Call::Reclaim(0), 19),
        (Call::Reclaim(65), 19),
    ] {
        refused(&mut m, SMALL, call, number);
    }
    assert_eq!(m.store(SMALL).begin(), Ok(Record(7)));
    assert_eq!(m.store(SMALL).begin(), Ok(Record(8)));
    for (call, number) in [(Call::Begin, 11), (Call::Seal(4), 11), (Call::Fork(2), 11), (Call::Fork(4), 9), (Call::Seal(9), 8)] {
        refused(&mut m, SMALL, call, number);
    }
}

/// All blocks given: 13; the log full: 14, until it is compressed; the last number given: 12.
#[test]
fn refusals_at_the_end() {
    let g = Geometry { arenas: 1, per: 2, pages: 3, records: 2, turn: 1, words: 6 };
    let mut m = made(g);
    for call in [Call::Begin, Call::Write(1, 0, 0), Call::Write(1, 1, 0)] {
        numbers(&mut m.store(g), call).unwrap();
    }
    refused(&mut m, g, Call::Write(1, 2, 0), 13);
    for _ in 0..4 {
        numbers(&mut m.store(g), Call::Barrier).unwrap();
    }
    refused(&mut m, g, Call::Barrier, 14);
    refused(&mut m, g, Call::Erase(1, 0), 14);
    assert_eq!(m.store(g).reclaim(64), Ok(vec![]));
    assert_eq!(m.store(g).estimate(Record(1)), Ok(Estimate { blocks: 2, words: 0, shards: 0 }));
    assert_eq!(m.store(g).compress(), Ok(3));
    assert_eq!(m.store(g).erase(Record(1), 0), Ok(Some(block(0, 1))));
    assert_eq!((m.store(g).delete(Record(1)), m.store(g).begin()), (Ok(()), Ok(Record(2))));
    while m.words().len() < 6 {
        m.store(g).barrier().unwrap();
    }
    refused(&mut m, g, Call::Reclaim(1), 14);
    m.tables[6] = 999_999;
    refused(&mut m, g, Call::Begin, 12);
    refused(&mut m, g, Call::Seal(2), 12);
}

/// A letter that no call of numbers has is refused by 1 whatever else is wrong, and changes nothing; N, U and M are none. Numbers that a call does not take
/// are passed over.
#[test]
fn letters() {
    let mut m = small();
    let before = m.clone();
    let calls = Call::LETTERS.map(u32::from);
    let outside = Geometry { arenas: 17, ..SMALL };
    let mut empty = Space { tables: vec![], log: vec![], out: vec![] };
    for letter in (0..1_000).chain([u32::MAX, u32::MAX - 0xff + 66, 66 << 8, 66 << 24]).filter(|letter| !calls.contains(letter)) {
        let mut count = 77;
        for g in [SMALL, outside] {
            assert_eq!(bare_letter(&mut m, g, letter, [4, 2, 1], &mut count), 1, "{letter}");
            assert_eq!(bare_letter(&mut empty, g, letter, [4, 2, 1], &mut count), 1, "{letter}");
        }
        assert_eq!((count, &m), (77, &before), "{letter}");
    }
    for call in every_unnamed(4, 2) {
        let (mut one, mut other, mut counts) = (small(), small(), [0; 2]);
        let mut more = [u32::MAX; 3];
        more[..call.takes()].copy_from_slice(&call.numbers()[..call.takes()]);
        let letter = u32::from(call.letter());
        assert_eq!(bare(&mut one, SMALL, call, &mut counts[0]), bare_letter(&mut other, SMALL, letter, more, &mut counts[1]), "{call}");
        assert_eq!((one, counts[0]), (other, counts[1]), "{call}");
    }
}

/// A look gives what the call gives, with tables and log that are only read; any other letter is refused by 1.
#[test]
fn looks() {
    let mut m = small();
    m.out.fill(MARKS);
    for letter in (0..300).chain([u32::MAX]) {
        for (x, y) in [(4, 2), (1, 0), (9, 9), (1 << 31, 0), (4, 1 << 31)] {
            let (mut called, mut counts, mut out) = (m.clone(), [77; 2], m.out.clone());
            let (g, tables, log): (Geometry, &[u32], &[u8]) = (SMALL, &m.tables, &m.log);
            // SAFETY: two shared slices, a vector and a count.
            let code = unsafe {
                let (t, l, o) = (tables.len(), log.len(), out.len());
                let out = out.as_mut_ptr();
                raw::sogvect_look(
                    g.arenas,
                    g.per,
                    g.pages,
                    g.records,
                    g.turn,
                    g.words,
                    tables.as_ptr(),
                    t,
                    log.as_ptr(),
                    l,
                    out,
                    o,
                    letter,
                    x,
                    y,
                    &mut counts[0],
                )
            };
            if b"RLQ".iter().any(|&look| u32::from(look) == letter) {
                assert_eq!(code, bare_letter(&mut called, g, letter, [x, y, 7], &mut counts[1]), "{letter} {x} {y}");
            } else {
                assert_eq!(code, 1, "{letter}");
            }
            assert_eq!((&out, counts[0]), (&called.out, counts[1]), "{letter} {x} {y}");
            assert_eq!((&m.tables, &m.log), (&called.tables, &called.log), "{letter} {x} {y}");
        }
    }
}

/// Threads look at one store at once, each with a result buffer of its own.
#[test]
fn looks_at_once() {
    let mut m = small();
    let calls = every_call(1, 0).into_iter().chain(every_call(4, 2));
    let expected: Vec<_> = calls.map(|call| (call, m.clone().store(SMALL).call(call).map(<[u32]>::to_vec))).collect();
    let store = &m.store(SMALL);
    std::thread::scope(|scope| {
        for _ in 0..4 {
            scope.spawn(|| {
                let mut out = vec![MARKS; SMALL.out_len()];
                for (call, numbers) in &expected {
                    let looks = match call {
                        Command::Unnamed(call) => matches!(call, Call::Read(..) | Call::FreeList | Call::Estimate(_)),
                        Command::Naming(naming, _) => *naming == Naming::Resolve,
                    };
                    let numbers = if looks { numbers.as_deref().map_err(|refusal| *refusal) } else { Err(Refusal::NO_CALL) };
                    assert_eq!(store.look(*call, &mut out), numbers, "{call:?}");
                }
            });
        }
    });
}

/// What any call gives is what its typed function gives.
#[test]
fn calls_and_functions() {
    for call in every_call(4, 2).into_iter().chain(every_call(1, 0)).chain(every_call(5, 4)) {
        let (mut one, mut other) = (small(), small());
        assert_eq!(one.store(SMALL).call(call).map(<[u32]>::to_vec), numbers(&mut other.store(SMALL), call), "{call:?}");
        assert_eq!(one, other, "{call:?}");
    }
    assert!(Store::make(Geometry { turn: 0, ..SMALL }, small().lend()).is_err());
}

/// Each refusal has its own sentence.
#[test]
fn sentences() {
    let all = [
        Refusal::NO_CALL,
        Refusal::OUTSIDE_LIMITS,
        Refusal::TOO_SHORT,
        Refusal::NOT_SOUND,
        Refusal::NO_PAGE,
        Refusal::NO_KIND,
        Refusal::NO_LOG,
        Refusal::NO_RECORD,
        Refusal::WRONG_STATE,
        Refusal::FORKED,
        Refusal::TABLE_FULL,
        Refusal::NO_NUMBER,
        Refusal::NO_BLOCK,
        Refusal::LOG_FULL,
        Refusal::NO_WINDOW,
        Refusal::NO_NAME,
        Refusal::WRONG_NAME,
        Refusal::NAMED,
        Refusal::NO_AMOUNT,
    ];
    assert!(all.iter().map(|r| r.number()).eq(1..=19));
    for (i, r) in all.iter().enumerate() {
        assert!(!r.to_string().starts_with("refused"), "{}", r.number());
        assert!(all[..i].iter().all(|other| other.to_string() != r.to_string()), "{}", r.number());
    }
    assert_eq!(small().store(SMALL).delete(Record(1)).unwrap_err().to_string(), "delete or estimate of a record with a fork on it");
}
