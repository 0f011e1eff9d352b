//! Scripts: lines, calls, replies.
use crate::store::{Geometry, Reply, Store};
use calls::{Call, Command, Naming};

/// What a line asks for.
pub enum Line<'t> {
    Store([u32; 6]),
    Call(Command<'t>),
}

fn number(word: &[u8]) -> Option<u32> {
    let digits = !word.is_empty() && word.len() <= 7 && word.iter().all(|b| b.is_ascii_digit());
    if !digits || (word[0] == b'0' && word.len() > 1) {
        return None;
    }
    std::str::from_utf8(word).ok()?.parse().ok()
}

pub fn parse(line: &[u8]) -> Option<Line<'_>> {
    if line.is_empty() || line.len() > 80 {
        return None;
    }
    if let [b'N' | b'U' | b'M', b' ', rest @ ..] = line {
        return naming_of(line[0], rest).map(Line::Call);
    }
    let mut words = line.split(|&b| b == b' ');
    let head = words.next()?;
    let numbers: Vec<u32> = words.map(number).collect::<Option<_>>()?;
    match *head {
        [letter] => call_of(letter, &numbers).map(|c| Line::Call(c.into())),
        _ if head == b"store" => numbers.try_into().ok().map(Line::Store),
        _ => None,
    }
}

/// The call of a letter that has just these numbers.
fn call_of(letter: u8, numbers: &[u32]) -> Option<Call> {
    let mut three = [0; 3];
    three.get_mut(..numbers.len())?.copy_from_slice(numbers);
    Call::of(letter, three).filter(|c| c.takes() == numbers.len())
}

/// The call of a letter that has a name, which ends at a space or at the line's end, and what follows its first space. N alone has a number too.
fn naming_of(letter: u8, rest: &[u8]) -> Option<Command<'_>> {
    let end = rest.iter().position(|&b| b == b' ').unwrap_or(rest.len());
    let (name, after) = rest.split_at(end);
    let naming = match (letter, after) {
        (b'N', [b' ', digits @ ..]) => Naming::Attach(number(digits)?),
        (b'U', []) => Naming::Detach,
        (b'M', []) => Naming::Resolve,
        _ => return None,
    };
    (!name.is_empty()).then_some(Command::Naming(naming, name))
}

/// The replies to a script.
pub fn run(text: &[u8]) -> Vec<u8> {
    let mut out = Vec::new();
    each_reply(text, |_, call, reply| put(&mut out, call, reply));
    out
}

/// The words of the log after each line of a script, a line each.
pub fn logs(text: &[u8]) -> Vec<u8> {
    let mut out = Vec::new();
    each_reply(text, |store, _, _| {
        let words: Vec<String> = store.iter().flat_map(|s| &s.log).map(|w| format!("{w:x}")).collect();
        out.extend(words.join(" ").bytes().chain([b'\n']));
    });
    out
}

/// Runs a script; `seen` gets the store after each line, if there is one, the call and the reply.
pub fn each_reply(text: &[u8], mut seen: impl FnMut(Option<&Store>, Option<Command>, &Reply)) {
    let text = &text[..text.len().min(65_536)];
    let mut store: Option<Store> = None;
    let mut lines: Vec<&[u8]> = text.split(|&b| b == b'\n').collect();
    if lines.last().is_some_and(|l| l.is_empty()) {
        lines.pop();
    }
    for line in lines {
        let mut call = None;
        let reply = match parse(line) {
            None => Err(1),
            Some(Line::Store(n)) => match Geometry::new(n) {
                None => Err(2),
                Some(g) => {
                    store = Some(Store::new(g));
                    Ok(vec![])
                }
            },
            Some(Line::Call(c)) => {
                call = Some(c);
                store.as_mut().map_or(Err(4), |s| s.call(c))
            }
        };
        seen(store.as_ref(), call, &reply);
    }
}

/// A reply as a line; a block and its birth have a colon between them. W, E, R and T give blocks.
fn put(out: &mut Vec<u8>, call: Option<Command>, reply: &Reply) {
    let blocks = matches!(call, Some(Command::Unnamed(Call::Write(..) | Call::Erase(..) | Call::Read(..) | Call::Reclaim(_))));
    match reply {
        Ok(numbers) => {
            out.push(b'+');
            for (i, n) in numbers.iter().enumerate() {
                let separator = if blocks && i % 2 == 1 { ':' } else { ' ' };
                out.extend(format!("{separator}{n}").bytes());
            }
        }
        Err(n) => out.extend(format!("- {n}").bytes()),
    }
    out.push(b'\n');
}
