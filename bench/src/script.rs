//! Scripts: each call is done and its reply written as soon as its line is read.
use crate::line::{after_letter, line_end, naming, numbers};
use crate::reply::put_reply;
use crate::store::{Geometry, Reply, Store};
use calls::Call;

/// Where the reading and the writing stand.
#[derive(Clone, Copy)]
struct Places {
    at: usize,
    used: usize,
}

/// Does the call on a line and writes its reply; none for a line that is no call.
#[inline(always)]
fn call(store: &mut Store, text: &[u8], out: &mut [u8], p: Places) -> Option<Places> {
    macro_rules! done {
        ($call:ident($($n:ident),*)) => {{
            let ([$($n),*], end) = after_letter(text, p.at)?;
            let reply = store.$call($($n),*);
            Some(Places { at: end + 1, used: put_reply(out, p.used, reply, &store.out) })
        }};
    }
    match text[p.at] {
        b'W' => done!(write(r, page, kind)),
        b'R' => done!(read(r, page)),
        b'E' => done!(erase(r, page)),
        b'S' => done!(seal(r)),
        b'F' => done!(fork(r)),
        b'D' => done!(delete(r)),
        b'B' => done!(begin()),
        b'Y' => done!(barrier()),
        b'C' => done!(compress()),
        b'L' => done!(free_list()),
        b'Q' => done!(estimate(r)),
        b'K' => done!(retain(r, most)),
        b'T' => done!(reclaim(most)),
        _ => None,
    }
}

/// Does the call with a name on a line. It stands apart from the others, so that they are no slower for it.
fn named(store: &mut Store, text: &[u8], at: usize) -> Option<(Reply, usize)> {
    let (naming, name, end) = naming(text, at)?;
    Some((store.call_naming(naming, name), end))
}

/// Before there is a store every call is refused.
#[cold]
fn too_early(text: &[u8], at: usize) -> Option<(Reply, usize)> {
    let end = match Call::of(text[at], [0; 3]).map(Call::takes) {
        None => naming(text, at)?.2,
        Some(0) => numbers::<0>(text, at + 1)?.1,
        Some(1) => numbers::<1>(text, at + 1)?.1,
        Some(2) => numbers::<2>(text, at + 1)?.1,
        Some(_) => numbers::<3>(text, at + 1)?.1,
    };
    Some((Reply::Refused(4), end))
}

/// A line that makes a store, if its numbers are inside the limits.
fn make(store: &mut Store, made: &mut bool, text: &[u8], at: usize) -> Option<(Reply, usize)> {
    if !text[at..].starts_with(b"store") {
        return None;
    }
    let (n, end) = numbers::<6>(text, at + 5)?;
    let Some(g) = Geometry::new(n) else {
        return Some((Reply::Refused(2), end));
    };
    store.start(g);
    *made = true;
    Some((Reply::Nothing, end))
}

/// A line that is no call of numbers on a store: it is one with a name, or makes a store, or comes too early, or is passed over.
#[cold]
fn other(store: &mut Store, made: &mut bool, text: &[u8], out: &mut [u8], p: Places) -> Places {
    let called = if *made { named(store, text, p.at) } else { too_early(text, p.at) };
    let said = called.or_else(|| make(store, made, text, p.at));
    let (reply, end) = said.unwrap_or_else(|| (Reply::Refused(1), line_end(text, p.at)));
    Places { at: end + 1, used: put_reply(out, p.used, reply, &[]) }
}

/// The replies to a script, written to the start of `out`; how many bytes there are.
pub fn run(store: &mut Store, text: &[u8], out: &mut [u8]) -> usize {
    let mut made = false;
    let mut p = Places { at: 0, used: 0 };
    while p.at < text.len() {
        let next = if made { call(store, text, out, p) } else { None };
        p = match next {
            Some(next) => next,
            None => other(store, &mut made, text, out, p),
        };
    }
    p.used
}
