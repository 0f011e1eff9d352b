//! Memory that is short, damaged or random, and geometries outside their limits: refused by number, and nothing is changed.
mod common;
use common::{every_call, marked, numbers, refused, small, Random, Tested, SMALL};
use sogvect::{Call, Command, Geometry, Record, Refusal, Space};

/// Each piece of memory one element short is refused with 3, by every call and by the making; with that element it is not.
#[test]
fn one_short() {
    for piece in 0..3 {
        let mut m = small();
        match piece {
            0 => drop(m.tables.pop()),
            1 => drop(m.log.pop()),
            _ => drop(m.out.pop()),
        }
        for call in every_call(4, 2) {
            refused(&mut m, SMALL, call, 3);
        }
        let before = m.clone();
        assert_eq!(m.make(SMALL), Err(Refusal::TOO_SHORT));
        assert_eq!(m, before);
    }
    assert_eq!(small().make(SMALL), Ok(()));
    assert!(small().store(SMALL).begin().is_ok());
}

#[test]
fn empty() {
    let mut m = Space { tables: vec![], log: vec![], out: vec![] };
    for call in every_call(1, 0) {
        refused(&mut m, SMALL, call, 3);
    }
    assert_eq!(m.make(SMALL), Err(Refusal::TOO_SHORT));
}

/// Each number just inside its limits is accepted and just outside is refused with 2, on memory that is long enough for all.
#[test]
fn limits() {
    type Change = fn(&mut Geometry, usize);
    let inside = Geometry { arenas: 2, per: 3, pages: 5, records: 4, turn: 7, words: 20 };
    let mut m = Space { tables: vec![7; 43_008], log: vec![7; 65_536], out: vec![7; 4_160] };
    let with = |change: Change, x: usize| {
        let mut g = inside;
        change(&mut g, x);
        g
    };
    let cases: [(Change, [usize; 2], [usize; 3]); 6] = [
        (|g, x| g.arenas = x, [1, 3], [0, 17, usize::MAX]),
        (|g, x| (g.per, g.words) = (x, 4_096), [1, 1_024], [0, 1_025, usize::MAX]),
        (|g, x| g.pages = x, [1, 256], [0, 257, usize::MAX]),
        (|g, x| g.records = x, [1, 64], [0, 65, usize::MAX]),
        (|g, x| g.turn = x, [1, 4_096], [0, 4_097, usize::MAX]),
        (|g, x| g.words = x, [14, 8_192], [13, 8_193, usize::MAX]),
    ];
    for (i, (change, good, bad)) in cases.into_iter().enumerate() {
        for x in bad {
            let g = with(change, x);
            for call in every_call(1, 0) {
                refused(&mut m, g, call, 2);
            }
            let before = m.clone();
            assert_eq!(m.make(g), Err(Refusal::OUTSIDE_LIMITS), "{g:?}");
            assert_eq!(m, before);
        }
        for x in good {
            let mut g = with(change, x);
            g.words = if i == 1 { 2 * g.blocks() + 2 } else { g.words };
            assert_eq!(m.make(g), Ok(()), "{g:?}");
            assert_eq!(m.store(g).begin(), Ok(Record(1)), "{g:?}");
        }
    }
    let product = Geometry { arenas: 3, per: 683, pages: 1, records: 1, turn: 1, words: 4_100 };
    refused(&mut m, product, Call::FreeList, 2);
    let largest = Geometry { arenas: 16, per: 128, pages: 256, records: 64, turn: 4_096, words: 8_192 };
    assert_eq!(m.make(largest), Ok(()));
    assert_eq!(m.store(largest).free_list().unwrap().len(), 16);
}

/// Numbers of the small store's tables that the layout does not name.
fn spare(at: usize) -> bool {
    let births = 2048 + 512 * SMALL.records;
    match at {
        0..=63 => (12..16).contains(&at) || at >= 16 + SMALL.arenas,
        64..=127 => false,
        192..=511 | 576..=703 => at % 64 >= SMALL.records,
        768..=2047 => spare_in_name((at - 768) / 40, (at - 768) % 40),
        128..=767 => true,
        // rows of pages and of deadlists; a deadlist has no more blocks than a record has pages
        _ if at < births => at % 256 >= SMALL.pages,
        // births, the queue and its births, the waiting list
        _ => false,
    }
}

/// The same of a row of the names. Two are in use, by easter and a: their length and their letters mean something. Each has a link.
fn spare_in_name(row: usize, at: usize) -> bool {
    let length = [6, 1].get(row).copied();
    match at {
        0 => false,
        1 => length.is_none(),
        2..=7 => true,
        _ => length.map_or(true, |length| at - 8 >= length),
    }
}

/// What every call answers on a copy of the memory. Refused ones change nothing, accepted ones leave a sound store.
fn answers(m: &Space) -> Vec<Result<Vec<u32>, Refusal>> {
    let records = [1, 2, 5].into_iter().flat_map(|n| [Call::Fork(n), Call::Delete(n), Call::Estimate(n)]);
    let reads = [1, 2, 4, 5].into_iter().flat_map(|n| (0..5).map(move |page| Call::Read(n, page)));
    every_call(4, 2)
        .into_iter()
        .chain(records.chain(reads).map(Command::from))
        .map(|call| {
            let mut copy = m.clone();
            let answer = numbers(&mut copy.store(SMALL), call);
            match &answer {
                Err(_) => assert_eq!(copy, *m, "{call:?} was refused and changed memory"),
                Ok(_) => assert!(copy.store(SMALL).free_list().is_ok(), "{call:?} left memory that is not sound"),
            }
            answer
        })
        .collect()
}

/// Each number of the tables, changed: every call answers 4, or the change is one that a sound store can have. A spare number, changed in one way of
/// the six, changes no answer.
#[test]
fn each_number_damaged() {
    let sound = small();
    let before = answers(&sound);
    let list = small().store(SMALL).free_list().unwrap();
    let (mut unsound, mut kept) = (0, 0);
    for at in 0..sound.tables.len() {
        let old = sound.tables[at];
        for (way, new) in [old ^ 1, u32::MAX, old.wrapping_add(1), old.wrapping_sub(1), 0, old ^ (1 << 31)].into_iter().enumerate() {
            if new == old || spare(at) && way != at % 2 {
                continue;
            }
            let mut m = sound.clone();
            m.tables[at] = new;
            let after = answers(&m);
            if spare(at) {
                assert_eq!(after, before, "spare number {at} is {new}");
                kept += 1;
            } else if m.clone().store(SMALL).free_list() == Err(Refusal::NOT_SOUND) {
                assert!(after.iter().all(|a| *a == Err(Refusal::NOT_SOUND)), "number {at} is {new}");
                unsound += 1;
            } else {
                assert!(!after.contains(&Err(Refusal::NOT_SOUND)), "number {at} is {new}");
                assert_eq!(m.store(SMALL).free_list().as_ref(), Ok(&list), "number {at} is {new}");
                kept += 1;
            }
        }
    }
    assert!(unsound > 300 && kept > 300, "{unsound} refused, {kept} taken");
}

/// Each used byte of the log, changed: 4, or a log that holds the same blocks. A byte after the used ones changes no answer.
#[test]
fn each_log_byte_damaged() {
    let sound = small();
    let before = answers(&sound);
    let used = sound.used().len();
    for at in 0..sound.log.len() {
        for new in [sound.log[at] ^ 1, sound.log[at] ^ 0x80, 0xff] {
            let mut m = sound.clone();
            m.log[at] = new;
            if at >= used {
                assert_eq!(answers(&m), before, "unused byte {at} is {new}");
            } else if m.log != sound.log {
                assert!(answers(&m).iter().all(|a| *a == Err(Refusal::NOT_SOUND)), "byte {at} is {new}");
            }
        }
    }
}

/// Random memory: every call answers 4 and changes nothing; the making takes it.
#[test]
fn random_memory() {
    for seed in 0..200 {
        let mut r = Random::new(seed);
        let mut m = marked(SMALL);
        let small_numbers = seed % 2 == 0;
        m.tables.fill_with(|| if small_numbers { r.below(4) as u32 } else { r.next() as u32 });
        m.log.fill_with(|| r.next() as u8);
        m.out.fill_with(|| r.next() as u32);
        m.tables[..6].copy_from_slice(&[2, 4, 5, 6, 7, 20]);
        for call in every_call(r.below(5) as u32, r.below(6) as u32) {
            refused(&mut m, SMALL, call, 4);
        }
        let (log, out) = (m.log.clone(), m.out.clone());
        assert_eq!(m.make(SMALL), Ok(()));
        assert_eq!((&m.log, &m.out), (&log, &out));
        assert_eq!(m.store(SMALL).free_list(), Ok(vec![(0, 4), (4, 4)]));
    }
}

/// Random calls on a sound store with a few numbers changed before each, most of them with a meaning: what is refused changes nothing, what is
/// accepted leaves a sound store.
#[test]
fn random_damage() {
    let mut r = Random::new(77);
    let (mut refusals, mut accepted) = (0, 0);
    let named: Vec<usize> = (0..SMALL.tables_len()).filter(|&at| !spare(at)).collect();
    for _ in 0..2_000 {
        let mut m = small();
        for _ in 0..1 + r.below(3) {
            let any = r.below(m.tables.len() as u64) as usize;
            let at = if r.below(4) == 0 { any } else { named[r.below(named.len() as u64) as usize] };
            m.tables[at] = r.below(8) as u32;
        }
        let calls = every_call(1 + r.below(5) as u32, r.below(5) as u32);
        let call = calls[r.below(calls.len() as u64) as usize];
        let before = m.clone();
        match numbers(&mut m.store(SMALL), call) {
            Err(_) => {
                assert_eq!(m, before, "{call:?}");
                refusals += 1;
            }
            Ok(_) => {
                assert!(m.store(SMALL).free_list().is_ok(), "{call:?}");
                accepted += 1;
            }
        }
    }
    assert!(refusals > 100 && accepted > 100, "{refusals} refused, {accepted} accepted");
}
