//! Scripts in memory through the library: the replies are the stored ones, however long the buffer is and however the text arrives, and what is lent
//! is refused in order and left as it was.
mod common;

use common::{stored, Random, MARK, MARKS};
use sogvect::{script_part, Memory, Part, Refusal, Script, SCRIPT_LOG, SCRIPT_OUT, SCRIPT_REPLIES, SCRIPT_RUN, SCRIPT_TABLES};

fn served(mut script: Script, text: &[u8]) -> Vec<u8> {
    let (mut at, mut replies) = (0, Vec::new());
    while let Some(part) = script.part(text, &mut at) {
        replies.extend_from_slice(part);
    }
    replies
}

#[test]
fn replies_are_the_stored_ones() {
    let all = stored();
    assert!(all.len() > 10);
    for script in &all {
        for length in [65_536, 0, 1 << 20] {
            let replies = served(Script::with_buffer(length), &script.text);
            assert!(replies == script.replies.as_bytes(), "{}, with a buffer of {length}", script.name);
        }
    }
}

#[test]
fn a_text_may_arrive_line_by_line() {
    for stored in &stored() {
        let text = &stored.text;
        let (mut script, mut at, mut got, mut random) = (Script::new(), 0, Vec::new(), Random::new(7));
        let mut there = 0;
        while there < text.len() {
            there += 1 + random.below(200) as usize;
            while there < text.len() && text[there - 1] != b'\n' {
                there += 1;
            }
            there = there.min(text.len());
            while let Some(part) = script.part(&text[..there], &mut at) {
                got.extend_from_slice(part);
            }
        }
        assert!(got == stored.replies.as_bytes(), "{}", stored.name);
    }
}

/// All that a host lends.
#[derive(Clone, Debug, PartialEq, Eq)]
struct Lent {
    run: Vec<u32>,
    tables: Vec<u32>,
    log: Vec<u8>,
    out: Vec<u32>,
    replies: Vec<u8>,
}

impl Lent {
    /// Memory full of marks, of the least lengths but for the reply buffer, and a run of zeros.
    fn new() -> Lent {
        Lent {
            run: vec![0; SCRIPT_RUN],
            tables: vec![MARKS; SCRIPT_TABLES],
            log: vec![MARK; SCRIPT_LOG],
            out: vec![MARKS; SCRIPT_OUT],
            replies: vec![MARK; REPLIES],
        }
    }

    fn part(&mut self, text: &[u8], at: usize) -> Result<Part, Refusal> {
        let mut memory = Memory { tables: &mut self.tables, log: &mut self.log, out: &mut self.out };
        script_part(text, at, &mut self.run, &mut memory, &mut self.replies)
    }

    /// The part is refused, and nothing is changed.
    fn refuses(mut self, refusal: Refusal) {
        let before = self.clone();
        assert_eq!(self.part(b"L\n", 0), Err(refusal));
        assert_eq!(self, before);
    }
}

/// A reply buffer for more than one line a part.
const REPLIES: usize = 65_536;

const BEGINNING: &[u8] = b"store 1 4 2 4 8 10\nB\nW 1 0 0\n";

/// A store with a record and a block, as a first part leaves it.
fn begun() -> Lent {
    let mut lent = Lent::new();
    assert_eq!(lent.part(BEGINNING, 0), Ok(Part { at: BEGINNING.len(), count: 12 }));
    assert_eq!(&lent.replies[..12], b"+\n+ 1\n+ 0:1\n");
    assert!(lent.replies[12..].iter().all(|&b| b == MARK));
    assert_eq!(lent.run, [1, 1, 4, 2, 4, 8, 10]);
    lent
}

#[test]
fn a_script_has_a_log() {
    let (mut script, mut at) = (Script::new(), 0);
    assert!(script.log().is_empty());
    while script.part(BEGINNING, &mut at).is_some() {}
    assert_eq!(script.log(), [0, 0, 0, 0, 0, 0, 0, 1]);
}

#[test]
fn a_second_part_goes_on() {
    let mut lent = begun();
    assert_eq!(lent.part(b"R 1 0\nL", 0), Ok(Part { at: 8, count: 12 }));
    assert_eq!(&lent.replies[..12], b"+ 0:1\n+ 1 3\n");
}

#[test]
fn the_least_buffer_has_one_line_a_part() {
    let mut lent = Lent::new();
    lent.replies.truncate(SCRIPT_REPLIES);
    for (at, end, count) in [(0, 19, 2), (19, 21, 4), (21, 29, 6)] {
        assert_eq!(lent.part(BEGINNING, at), Ok(Part { at: end, count }));
    }
    assert_eq!(&lent.replies[..6], b"+ 0:1\n");
}

/// Births of one to six digits: the next record has the number after the last one given.
#[test]
fn births_of_any_length() {
    for n in [2, 9, 10, 99, 100, 999, 1000, 9_999, 10_000, 99_999, 100_000, 999_999] {
        let mut lent = begun();
        lent.tables[6] = n - 1;
        let text = format!("B\nW {n} 1 0\nW {n} 1 0\nR {n} 1\nR 1 0\nE {n} 1\nW {n} 0 0\nD {n}\nT 64\n");
        let said = format!("+ {n}\n+ 1:{n}\n+ 2:{n} 1:{n}\n+ 2:{n}\n+ 0:1\n+ 2:{n}\n+ 3:{n}\n+\n+ 3:{n}\n");
        let part = lent.part(text.as_bytes(), 0).unwrap();
        assert_eq!(String::from_utf8_lossy(&lent.replies[..part.count]), said);
    }
}

/// A seal that deletes prints its number alone, and a T then what was queued, however long the numbers are.
#[test]
fn windows_with_numbers_of_any_length() {
    for first in [2, 8, 9, 98, 99, 998, 999, 9_998, 9_999, 99_998, 99_999, 999_997] {
        let (mut lent, second, third) = (begun(), first + 1, first + 2);
        lent.tables[6] = first - 1;
        let text = format!("B\nW {first} 1 0\nK {first} 1\nS {first}\nE {second} 1\nS {second}\nR {first} 1\nT 1\nT 1\n");
        let said = format!("+ {first}\n+ 1:{first}\n+\n+ {second}\n+\n+ {third}\n- 8\n+ 1:{first}\n+\n");
        let part = lent.part(text.as_bytes(), 0).unwrap();
        assert_eq!(String::from_utf8_lossy(&lent.replies[..part.count]), said);
    }
}

/// A T takes 1 to 64.
#[test]
fn turns_of_any_length() {
    for most in [0, 1, 2, 9, 10, 63, 64, 65, 99, 100, 6_400, 9_999_999] {
        let mut lent = begun();
        let said = if (1..=64).contains(&most) { "+\n" } else { "- 19\n" };
        let part = lent.part(format!("T {most}\n").as_bytes(), 0).unwrap();
        assert_eq!(String::from_utf8_lossy(&lent.replies[..part.count]), said, "{most}");
    }
}

/// Any bytes but a space may be a name's: those that are no letters a to z are refused by 16.
#[test]
fn names_of_any_byte() {
    for byte in (0..=u8::MAX).filter(|byte| !b" \n".contains(byte)) {
        let mut lent = begun();
        let text = [b"N a", &[byte][..], b" 1\nM a", &[byte], b"\nU a", &[byte], b"\n"].concat();
        let said = if byte.is_ascii_lowercase() { "+\n+ 1\n+\n" } else { "- 16\n- 16\n- 16\n" };
        let part = lent.part(&text, 0).unwrap();
        assert_eq!(String::from_utf8_lossy(&lent.replies[..part.count]), said, "{byte}");
    }
}

/// A name moves with a seal, and its record's number is printed whole.
#[test]
fn names_of_records_of_any_number() {
    for n in [2, 8, 9, 98, 99, 998, 999, 9_998, 9_999, 99_998, 99_999, 999_998] {
        let (mut lent, next) = (begun(), n + 1);
        lent.tables[6] = n - 1;
        let text = format!("B\nN a {n}\nM a\nS {n}\nM a\nD {next}\n");
        let said = format!("+ {n}\n+\n+ {n}\n+ {next}\n+ {next}\n- 18\n");
        let part = lent.part(text.as_bytes(), 0).unwrap();
        assert_eq!(String::from_utf8_lossy(&lent.replies[..part.count]), said);
    }
}

#[test]
fn nothing_is_served_after_the_end() {
    let mut lent = begun();
    let before = lent.clone();
    assert_eq!(lent.part(BEGINNING, BEGINNING.len()), Ok(Part { at: BEGINNING.len(), count: 0 }));
    assert_eq!(lent.part(BEGINNING, usize::MAX), Ok(Part { at: usize::MAX, count: 0 }));
    assert_eq!(lent, before);
}

#[test]
fn foreign_numbers_are_refused_by_2() {
    for (place, number) in [(1, 0), (1, 17), (2, 1025), (3, 257), (4, 65), (5, 4097), (6, 9), (6, 8193), (6, u32::MAX)] {
        let mut lent = begun();
        lent.run[place] = number;
        // 2 comes before 3 and 4
        lent.tables[9] = MARKS;
        lent.replies.truncate(9);
        lent.refuses(Refusal::OUTSIDE_LIMITS);
    }
}

#[test]
fn short_memory_is_refused_by_3() {
    let short: [fn(&mut Lent); 5] = [
        |l| l.run.truncate(SCRIPT_RUN - 1),
        |l| l.tables.truncate(SCRIPT_TABLES - 1),
        |l| l.log.truncate(SCRIPT_LOG - 1),
        |l| l.out.truncate(SCRIPT_OUT - 1),
        |l| l.replies.truncate(SCRIPT_REPLIES - 1),
    ];
    for cut in short {
        let mut fresh = Lent::new();
        cut(&mut fresh);
        fresh.refuses(Refusal::TOO_SHORT);
    }
    for cut in &short[1..] {
        let mut lent = begun();
        // 3 comes before 4
        lent.tables[9] = MARKS;
        cut(&mut lent);
        lent.refuses(Refusal::TOO_SHORT);
    }
}

#[test]
fn damaged_memory_is_refused_by_4() {
    for place in [0, 5, 6, 8, 9, 16] {
        let mut lent = begun();
        lent.tables[place] ^= 1 << 20;
        lent.refuses(Refusal::NOT_SOUND);
    }
    let mut lent = begun();
    lent.log[7] = 2;
    lent.refuses(Refusal::NOT_SOUND);
    let mut lent = begun();
    lent.run[6] = 11;
    lent.refuses(Refusal::NOT_SOUND);
}

#[test]
fn before_the_first_store_line_tables_are_of_no_matter() {
    let mut lent = Lent::new();
    lent.run = vec![0, u32::MAX, 0, 7, MARKS, 1, 2];
    let before = lent.clone();
    assert_eq!(lent.part(b"B\n", 0), Ok(Part { at: 2, count: 4 }));
    assert_eq!(&lent.replies[..4], b"- 4\n");
    lent.replies[..4].fill(MARK);
    assert_eq!(lent, before);
}
