//! Reading, comparing and compressing logs: good ones, bad ones, empty ones and ones of odd lengths.
mod common;
use common::{marked, numbers, small, Random, Tested, MARK, MARKS, SMALL};
use sogvect::{log_compact, log_compare, log_read, raw, Call, Geometry, Refusal};

const BLOCK: u64 = 16_384;

fn bytes(words: &[u64]) -> Vec<u8> {
    words.iter().flat_map(|w| w.to_be_bytes()).collect()
}

fn read(log: &[u8]) -> Result<Vec<u32>, Refusal> {
    log_read(SMALL, log, &mut vec![0; SMALL.out_len()]).map(<[u32]>::to_vec)
}

/// What words give with a barrier after them, so that they count.
fn held(words: &[u64]) -> Result<Vec<u32>, Refusal> {
    read(&bytes(&[words, &[3]].concat()))
}

#[test]
fn good() {
    assert_eq!(held(&[]), Ok(vec![]));
    assert_eq!(held(&[3]), Ok(vec![]));
    assert_eq!(held(&[1, 3, BLOCK * 4 + 1]), Ok(vec![0, 4]));
    assert_eq!(held(&[BLOCK * 4 + 1, 1]), Ok(vec![0, 4]));
    assert_eq!(held(&[4, BLOCK * 3]), Ok(vec![0, 1, 2]));
    assert_eq!(held(&[4, BLOCK * 3, BLOCK + 2]), Ok(vec![0, 2]));
    assert_eq!(held(&[BLOCK * 4 + 4, BLOCK * 3, BLOCK * 5 + 5, BLOCK * 2]), Ok(vec![4]));
}

/// What stands up to the last whole word equal to 3 counts; what is after it is not judged and records nothing.
#[test]
fn settled() {
    assert_eq!(read(&bytes(&[1])), Ok(vec![]));
    assert_eq!(read(&bytes(&[1, 1])), Ok(vec![]));
    assert_eq!(read(&bytes(&[1, 3, BLOCK * 4 + 1])), Ok(vec![0]));
    assert_eq!(read(&bytes(&[1, 3, 2])), Ok(vec![0]));
    assert_eq!(read(&bytes(&[1, 3, 1, 6, u64::MAX])), Ok(vec![0]));
    assert_eq!(read(&bytes(&[1, 3, BLOCK + 1, 3, 4])), Ok(vec![0, 1]));
    // a word equal to 3 in the place of a run's length is the last barrier, and the part before it no log
    assert_eq!(read(&bytes(&[1, 3, BLOCK + 4, 3])), Err(Refusal::NO_LOG));
    assert_eq!(read(&bytes(&[1, 3, BLOCK + 4, 3, 3])), Err(Refusal::NO_LOG));
    assert_eq!(read(&bytes(&[1, 3, BLOCK + 3])), Ok(vec![0]));
    let mut tail = bytes(&[1, 3]);
    for byte in [0, 0, 0, 0, 0, 0, 0] {
        tail.push(byte);
        assert_eq!(read(&tail), Ok(vec![0]));
    }
    // the same seven bytes in front: no whole word is 3
    assert_eq!(read(&[&[0; 7][..], &bytes(&[1, 3])].concat()), Ok(vec![]));
}

/// Comparing and compressing read every word.
#[test]
fn every_word() {
    let tail = bytes(&[1, 3, 1]);
    let mut out = vec![MARK; SMALL.log_len()];
    assert_eq!(read(&tail), Ok(vec![0]));
    assert_eq!(log_compare(SMALL, &tail, &tail), Err(Refusal::NO_LOG));
    assert_eq!(log_compact(SMALL, &tail, &mut out), Err(Refusal::NO_LOG));
    let open = bytes(&[1, 3, BLOCK + 1]);
    assert_eq!(log_compare(SMALL, &open, &bytes(&[1])), Ok(false));
    assert_eq!(log_compare(SMALL, &open, &bytes(&[1, BLOCK + 1])), Ok(true));
    assert_eq!(log_compact(SMALL, &open, &mut out), Ok(&bytes(&[4, BLOCK * 2, 3])[..]));
    let again = log_compact(SMALL, &bytes(&[BLOCK + 1]), &mut out).map(<[u8]>::to_vec);
    assert_eq!(again, Ok(bytes(&[BLOCK + 1, 3])));
    assert_eq!(read(&again.unwrap()), Ok(vec![1]));
}

#[test]
fn bad() {
    for words in [
        &[0][..],
        &[6],
        &[BLOCK + 3],
        &[0x101],
        &[BLOCK * 8 + 1],
        &[u64::MAX],
        &[4],
        &[4, 0],
        &[4, 1],
        &[4, BLOCK * 5],
        &[BLOCK * 3 + 4, BLOCK * 2],
        &[1, 1],
        &[2],
        &[1, 4, BLOCK],
        &[5, BLOCK],
    ] {
        assert_eq!(held(words), Err(Refusal::NO_LOG), "{words:x?}");
        assert_eq!(read(&bytes(words)), Ok(vec![]), "{words:x?}");
        let (first, second) = (bytes(words), bytes(&[3]));
        assert_eq!(log_compare(SMALL, &first, &second), Err(Refusal::NO_LOG), "{words:x?}");
        assert_eq!(log_compare(SMALL, &second, &first), Err(Refusal::NO_LOG), "{words:x?}");
        let mut out = vec![MARK; SMALL.log_len()];
        assert_eq!(log_compact(SMALL, &first, &mut out), Err(Refusal::NO_LOG), "{words:x?}");
        assert!(out.iter().all(|&b| b == MARK), "{words:x?}");
    }
}

#[test]
fn odd_lengths() {
    let log = bytes(&[1, 3, 3]);
    for n in 0..=24 {
        assert_eq!(read(&log[..n]), Ok(if n < 16 { vec![] } else { vec![0] }), "{n} bytes");
        let alike = if n % 8 > 0 { Err(Refusal::NO_LOG) } else { Ok(n > 0) };
        assert_eq!(log_compare(SMALL, &log[..n], &log), alike, "{n} bytes");
    }
}

#[test]
fn compared() {
    let alike = |a: &[u64], b: &[u64]| log_compare(SMALL, &bytes(a), &bytes(b));
    assert_eq!(alike(&[], &[3, 3]), Ok(true));
    assert_eq!(alike(&[1, BLOCK + 1], &[4, 2 * BLOCK, 3]), Ok(true));
    assert_eq!(alike(&[1], &[BLOCK + 1]), Ok(false));
    assert_eq!(alike(&[BLOCK * 5 + 1], &[]), Ok(false));
    assert_eq!(alike(&[1, 2], &[]), Ok(true));
}

/// A store's own log, with a barrier at its end, reads to its held blocks, queued ones among them, before and after a compression, and the two are alike.
#[test]
fn own_log() {
    let mut m = small();
    // block 5 is held at the last barrier that there is, 3 and 6 were given after it
    assert_eq!(read(m.used()), Ok(vec![0, 1, 2, 4, 5]));
    numbers(&mut m.store(SMALL), Call::Barrier).unwrap();
    let old = m.used().to_vec();
    assert_eq!(m.store(SMALL).log(), old);
    let mut out = vec![0; SMALL.out_len()];
    let list = m.store(SMALL).free_list().unwrap();
    let free: Vec<u32> = list.iter().flat_map(|(first, length)| *first..first + length).collect();
    let held: Vec<u32> = (0..8).filter(|b| !free.contains(b)).collect();
    assert_eq!((&held[..], &m.tables[10]), (&[0, 1, 2, 3, 4, 6][..], &2));
    assert_eq!(log_read(SMALL, &old, &mut out), Ok(&held[..]));
    numbers(&mut m.store(SMALL), Call::Compress).unwrap();
    assert_ne!(m.used(), old);
    assert_eq!(log_read(SMALL, m.used(), &mut out), Ok(&held[..]));
    assert_eq!(log_compare(SMALL, m.used(), &old), Ok(true));
}

/// Tables that are not sound may say anything of the log's length; no more is given than there is.
#[test]
fn damaged_log_length() {
    let mut m = small();
    m.tables[9] = u32::MAX;
    assert_eq!(m.store(SMALL).log().len(), SMALL.log_len());
    m.tables.truncate(9);
    assert!(m.store(SMALL).log().is_empty());
}

/// The six numbers are checked, each in its place, and the result buffer's length.
#[test]
fn geometry_and_buffer() {
    let log = bytes(&[BLOCK * 5 + 1, 3]);
    let mut out = vec![MARKS; SMALL.out_len()];
    let short = SMALL.out_len() - 1;
    assert_eq!(log_read(SMALL, &log, &mut out[..short]), Err(Refusal::TOO_SHORT));
    assert!(out.iter().all(|x| *x == MARKS));
    for i in 0..6 {
        for x in [0, usize::MAX, 1 << 32] {
            let mut n = [2, 4, 5, 6, 7, 20];
            n[i] = x;
            let g = Geometry { arenas: n[0], per: n[1], pages: n[2], records: n[3], turn: n[4], words: n[5] };
            assert_eq!(log_read(g, &log, &mut out), Err(Refusal::OUTSIDE_LIMITS), "{g:?}");
            assert_eq!(log_compare(g, &log, &log), Err(Refusal::OUTSIDE_LIMITS), "{g:?}");
        }
    }
    for (six, inside) in [
        ([16, 128, 256, 64, 4_096, 8_192], true),
        ([128, 16, 256, 64, 4_096, 8_192], false),
        ([16, 256, 128, 64, 4_096, 8_192], false),
        ([16, 64, 256, 128, 4_096, 8_192], false),
        ([16, 128, 256, 4_096, 64, 8_192], false),
        ([16, 128, 256, 64, 8_192, 4_096], false),
    ] {
        let g = Geometry { arenas: six[0], per: six[1], pages: six[2], records: six[3], turn: six[4], words: six[5] };
        let mut out = vec![0; 10_000];
        assert_eq!(log_read(g, &log, &mut out).is_ok(), inside, "{g:?}");
        assert_eq!(log_compare(g, &log, &log).is_ok(), inside, "{g:?}");
    }
    let other = Geometry { arenas: 3, per: 2, ..SMALL };
    let run = bytes(&[4, BLOCK * 3, 3]);
    assert!(log_read(SMALL, &run, &mut out).is_ok());
    assert_eq!(log_read(other, &run, &mut out), Err(Refusal::NO_LOG));
}

/// Reading on the bare function, with the second number as its count.
fn bare_read(log: &[u8], out: &mut [u32], counts: &mut [usize; 3]) -> u32 {
    let (g, count) = (SMALL, &mut counts[1]);
    let (from, to) = (log.as_ptr(), out.as_mut_ptr());
    // SAFETY: a shared slice, an exclusive one and a count.
    unsafe { raw::sogvect_log_read(g.arenas, g.per, g.pages, g.records, g.turn, g.words, from, log.len(), to, out.len(), count) }
}

/// A comparison on the bare function, with the second number as its answer.
fn bare_compare(first: &[u8], second: &[u8], answers: &mut [u32; 3]) -> u32 {
    let (g, alike) = (SMALL, &mut answers[1]);
    let (one, other) = (first.as_ptr(), second.as_ptr());
    // SAFETY: two shared slices and a number.
    unsafe { raw::sogvect_log_compare(g.arenas, g.per, g.pages, g.records, g.turn, g.words, one, first.len(), other, second.len(), alike) }
}

/// What the bare functions write: the count and the answer whole and nothing beside them, the result and nothing after it; a refusal writes nothing.
#[test]
fn what_is_written() {
    let (good, bad) = (bytes(&[BLOCK * 3 + 1, BLOCK * 4 + 1, 3]), bytes(&[1, 1, 3]));
    let (mut out, mut counts, mut alike) = (vec![MARKS; SMALL.out_len()], [usize::MAX; 3], [MARKS; 3]);
    assert_eq!(bare_read(&bad, &mut out, &mut counts), 7);
    assert_eq!(bare_compare(&good, &bad, &mut alike), 7);
    assert_eq!((counts, alike), ([usize::MAX; 3], [MARKS; 3]));
    assert!(out.iter().all(|x| *x == MARKS));
    assert_eq!(bare_read(&good, &mut out, &mut counts), 0);
    assert_eq!(counts, [usize::MAX, 2, usize::MAX]);
    assert_eq!(out[..3], [3, 4, MARKS]);
    assert_eq!(bare_compare(&good, &good[..8], &mut alike), 0);
    assert_eq!(alike, [MARKS, 0, MARKS]);
    assert_eq!(bare_compare(&good, &good, &mut alike), 0);
    assert_eq!(alike, [MARKS, 1, MARKS]);
}

/// Random bytes are no log, but for the rare ones that a comparison takes. Reading them gives nothing, since no word is 3.
#[test]
fn random_bytes() {
    let mut refusals = 0;
    for seed in 0..500 {
        let mut r = Random::new(seed);
        let log: Vec<u8> = (0..r.below(40)).map(|_| r.below(6) as u8).collect();
        assert_eq!(read(&log), Ok(vec![]));
        refusals += (log_compare(SMALL, &log, &log) == Err(Refusal::NO_LOG)) as u32;
    }
    assert!(refusals > 400, "only {refusals} were refused");
}

/// Random words, barriers among them, and a few bytes after them: reading takes what a comparison takes of the part up to the last barrier, and gives what
/// its compressed log gives.
#[test]
fn random_words() {
    let (mut taken, mut refusals) = (0, 0);
    for seed in 0..2_000 {
        let mut r = Random::new(seed);
        let words: Vec<u64> = (0..r.below(8)).map(|_| [3, 1, BLOCK + 1, 2, BLOCK + 2, BLOCK * 3 + 4, BLOCK * 2, 7][r.below(8) as usize]).collect();
        let counted = words.iter().rposition(|&w| w == 3).map_or(0, |at| 8 * (at + 1));
        let log: Vec<u8> = bytes(&words).into_iter().chain((0..r.below(8)).map(|_| 0)).collect();
        let part = &log[..counted];
        let mut m = marked(SMALL);
        m.out.fill(MARKS);
        let given = log_read(SMALL, &log, &mut m.out).map(<[u32]>::to_vec);
        assert_eq!(given.as_ref().err(), log_compare(SMALL, part, part).as_ref().err(), "{words:x?}");
        match given {
            Ok(blocks) => {
                let again = log_compact(SMALL, part, &mut m.log).unwrap();
                assert_eq!(read(again), Ok(blocks), "{words:x?}");
                taken += 1;
            }
            Err(_) => {
                assert!(m.out.iter().all(|x| *x == MARKS));
                refusals += 1;
            }
        }
    }
    assert!(taken > 400 && refusals > 400, "{taken} taken, {refusals} refused");
}

#[test]
fn compacted() {
    let compact = |words: &[u64]| {
        let mut out = vec![MARK; SMALL.log_len() + 3];
        let n = log_compact(SMALL, &bytes(words), &mut out).unwrap().len();
        assert!(out[n..].iter().all(|&b| b == MARK));
        out.truncate(n);
        out
    };
    assert_eq!(compact(&[]), bytes(&[3]));
    assert_eq!(compact(&[3, 3]), bytes(&[3]));
    assert_eq!(compact(&[BLOCK + 1, 1]), bytes(&[4, BLOCK * 2, 3]));
    assert_eq!(compact(&[4, BLOCK * 4, BLOCK * 4 + 1]), bytes(&[4, BLOCK * 4, BLOCK * 4 + 1, 3]));
    assert_eq!(compact(&[4, BLOCK * 3, BLOCK + 2]), bytes(&[1, BLOCK * 2 + 1, 3]));
    let log = bytes(&[1]);
    for short in [0, 8, SMALL.log_len() - 1] {
        let mut out = vec![MARK; short];
        assert_eq!(log_compact(SMALL, &log, &mut out), Err(Refusal::TOO_SHORT));
        assert!(out.iter().all(|&b| b == MARK));
    }
    let outside = Geometry { arenas: 0, ..SMALL };
    assert_eq!(log_compact(outside, &log, &mut []), Err(Refusal::OUTSIDE_LIMITS));
}
