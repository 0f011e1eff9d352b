//! Replies as text: the digits of numbers stand in a table, and up to eight bytes are written in one store.
use crate::store::{birth, block, Reply};

/// The text of each number below 10,000: a space, its digits and a line feed, the first byte lowest. How long it is without the line feed stands in
/// the highest byte. A script of 65,536 bytes leads to no other numbers.
static SPELT: [u64; 10_000] = spelt();

const fn spelt() -> [u64; 10_000] {
    let mut table = [0; 10_000];
    let mut n = 0;
    while n < 10_000 {
        let mut text = b'\n' as u64;
        let mut len = 1;
        let mut rest = n;
        while len == 1 || rest > 0 {
            text = text << 8 | (b'0' as u64 + rest as u64 % 10);
            rest /= 10;
            len += 1;
        }
        table[n] = text << 8 | b' ' as u64 | len << 56;
        n += 1;
    }
    table
}

/// As in the table, for a number that is not in it, of at most six digits; the line feed may take the highest byte.
#[cold]
fn spelt_large(n: u32) -> (u64, usize) {
    let mut text = b'\n' as u64;
    let mut len = 1;
    let mut rest = n;
    while rest > 0 {
        text = text << 8 | (b'0' as u64 + rest as u64 % 10);
        rest /= 10;
        len += 1;
    }
    (text << 8 | b' ' as u64, len)
}

#[inline(always)]
fn text_of(n: u32) -> (u64, usize) {
    match SPELT.get(n as usize) {
        Some(&text) => (text, (text >> 56) as usize),
        None => spelt_large(n),
    }
}

#[inline(always)]
fn put_eight(out: &mut [u8], at: usize, bytes: u64) {
    out[at..at + 8].copy_from_slice(&bytes.to_le_bytes());
}

/// Writes a space, a number and a line feed; returns the position of the line feed. The same below.
#[inline(always)]
fn put_number(out: &mut [u8], at: usize, n: u32) -> usize {
    let (text, len) = text_of(n);
    put_eight(out, at, text);
    at + len
}

/// A block, a colon and its birth.
#[inline(always)]
fn put_block(out: &mut [u8], at: usize, entry: u32) -> usize {
    let between = put_number(out, at, block(entry));
    let (text, len) = text_of(birth(entry));
    put_eight(out, between, text ^ (b' ' ^ b':') as u64);
    between + len
}

#[inline(always)]
fn put_blocks(out: &mut [u8], at: usize, entries: &[u32]) -> usize {
    entries.iter().fold(at, |end, &entry| put_block(out, end, entry))
}

/// Writes a reply; returns the position after it.
#[inline(always)]
pub fn put_reply(out: &mut [u8], at: usize, reply: Reply, given: &[u32]) -> usize {
    out[at] = if let Reply::Refused(_) = reply { b'-' } else { b'+' };
    let at = at + 1;
    let end = match reply {
        Reply::Refused(n) | Reply::Number(n) => put_number(out, at, n),
        Reply::Block(entry) => put_block(out, at, entry),
        Reply::Two(entry, old) => {
            let between = put_block(out, at, entry);
            put_block(out, between, old)
        }
        Reply::Nothing | Reply::Numbers(0) | Reply::Blocks(0) => {
            out[at] = b'\n';
            at
        }
        Reply::Numbers(count) => given[..count].iter().fold(at, |end, &n| put_number(out, end, n)),
        Reply::Blocks(count) => put_blocks(out, at, &given[..count]),
    };
    end + 1
}
