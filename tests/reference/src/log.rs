//! Logs as bytes: the blocks that they hold.
use crate::store::Geometry;
use std::collections::BTreeSet;

/// The whole words of some bytes.
pub fn words_of(bytes: &[u8]) -> Vec<u64> {
    bytes.chunks_exact(8).map(|w| u64::from_be_bytes(w.try_into().expect("whole words"))).collect()
}

pub fn bytes_of(words: &[u64]) -> Vec<u8> {
    words.iter().flat_map(|w| w.to_be_bytes()).collect()
}

/// The held blocks when every word is read, or nothing where the words are no log.
pub fn read_every(g: &Geometry, words: &[u64]) -> Option<BTreeSet<u32>> {
    let (blocks, per) = (u64::from(g.blocks()), u64::from(g.per));
    let mut held = BTreeSet::new();
    let mut at = words.iter();
    while let Some(&w) = at.next() {
        let (code, address) = (w % 256, w - w % 256);
        if code == 3 && address == 0 {
            continue;
        }
        if ![1, 2, 4, 5].contains(&code) || address % 16384 != 0 {
            return None;
        }
        let first = address / 16384;
        let length = if code < 4 { 16384 } else { *at.next()? };
        if length == 0 || length % 16384 != 0 || first >= blocks {
            return None;
        }
        let end = first.checked_add(length / 16384)?;
        if end > blocks || first / per != (end - 1) / per {
            return None;
        }
        for b in first as u32..end as u32 {
            let fine = if code == 1 || code == 4 { held.insert(b) } else { held.remove(&b) };
            if !fine {
                return None;
            }
        }
    }
    Some(held)
}

/// Reading a log: what stands up to the last whole word equal to 3 counts, and nothing where there is none.
pub fn read(g: &Geometry, bytes: &[u8]) -> Option<BTreeSet<u32>> {
    let words = words_of(bytes);
    let count = words.iter().rposition(|&w| w == 3).map_or(0, |at| at + 1);
    read_every(g, &words[..count])
}
