//! Names for scripts made at random: more than a store can have, names that begin others or differ in their last letters alone, bytes that are no name,
//! and lines that are no call.
use super::Dice;
use crate::store::Store;
use calls::{Command, Naming};

/// What names are cut from. All of it is as long as a name can be in a line.
const LETTERS: &[u8; 78] = b"abcdefghijklmnopqrstuvwxyzabcdefghijklmnopqrstuvwxyzabcdefghijklmnopqrstuvwxyz";
/// The same, for names that differ in their last letters alone.
const ALIKE: &[u8; 34] = b"aaaaaaaaaaaaaaaaaaaaaaaaaaaaaaaabb";

/// How many names there are to choose from: half as many again as a store can have.
const COUNT: u32 = 48;

/// One of the names. Each of 1 letter begins others, each of 31 one of 32.
fn name(i: u32) -> &'static [u8] {
    let i = i as usize;
    match i {
        0..=25 => &LETTERS[i..][..1],
        26..=35 => &LETTERS[i - 26..][..2],
        36..=39 => &LETTERS[i - 36..][..31],
        40..=44 => &LETTERS[i - 40..][..32],
        _ => &ALIKE[i - 45..][..32],
    }
}

/// Bytes that are no name, a space between: other letters, digits, the neighbours of a and z, tabs, carriage returns, zeros, bytes above 127.
const NO_NAMES: &[u8] = b"A Easter easteR 1 easter2 a-b ` { a` a{ \t a\tb \r a\r \0 a\0 \x80 a\xff \xe1 \xc3\xa9";

fn no_name(d: &mut Dice) -> &'static [u8] {
    if d.below(3) == 0 {
        return &LETTERS[..d.one_of(&[33, 33, 34, 64, 76, 78])];
    }
    d.one_of(&NO_NAMES.split(|&b| b == b' ').collect::<Vec<_>>())
}

/// Lines that are no call, for what stands around a name or in its place.
const NO_CALLS: [&str; 18] =
    ["N", "N ", "N a", "N a ", "N  1", "N a  1", "N a 1 ", "N a 01", "N a 12345678", "N a b 1", "U", "U ", "U  a", "U a ", "U a 1", "M", "M ", "Ma"];

/// One of those, or a line with a name that is a byte too long.
pub fn no_call(d: &mut Dice) -> Vec<u8> {
    if d.below(8) == 0 {
        return [b"M a", &LETTERS[..]].concat();
    }
    d.one_of(&NO_CALLS).into()
}

/// A name that is in use, or one that is not, if there is one.
fn name_of(d: &mut Dice, store: &Store, in_use: bool) -> &'static [u8] {
    let first = d.below(COUNT);
    let found = (0..COUNT).map(|i| name((first + i) % COUNT)).find(|name| store.names.contains_key(*name) == in_use);
    found.unwrap_or(name(first))
}

/// The first of the names on a record.
pub fn name_on(store: &Store, r: u32) -> Option<&'static [u8]> {
    (0..COUNT).map(name).find(|name| store.names.get(*name) == Some(&r))
}

/// A name that is in use, or one that is not; but now and then the other way round, or no name at all.
pub fn any_name(d: &mut Dice, store: &Store, in_use: bool) -> &'static [u8] {
    match d.below(16) {
        0 => no_name(d),
        1..=2 => name_of(d, store, !in_use),
        _ => name_of(d, store, in_use),
    }
}

/// A call with a name, on record r if it is an N: one in so many takes a name off.
pub fn naming(d: &mut Dice, store: &Store, r: u32, unnames: u32) -> Command<'static> {
    let naming = match (d.below(unnames), d.below(3)) {
        (0, _) => Naming::Detach,
        (_, 0) => Naming::Resolve,
        _ => Naming::Attach(r),
    };
    Command::Naming(naming, any_name(d, store, !matches!(naming, Naming::Attach(_))))
}
