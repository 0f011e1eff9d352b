//! Calls on damaged memory, through the library: tens of thousands of cases (each single number of a sound store changed in turn, among others)
//! whose replies, and what accepted calls leave, must be those that `tests/reference` predicts and `damaged.expected` there holds.
mod common;

use common::geometry;
use reference::damaged::{printed, Answers};
use reference::layout::Memory;
use reference::store::Reply;
use sogvect::{Command, Store};

/// The proved library.
struct Library;

impl Answers for Library {
    fn make(&mut self, six: &[u64; 6], memory: &mut Memory) {
        let g = geometry(six.map(|n| n as usize));
        let mut out = vec![0; g.out_len()];
        let lent = sogvect::Memory { tables: &mut memory.tables, log: &mut memory.log, out: &mut out };
        assert!(Store::make(g, lent).is_ok());
    }

    fn call(&mut self, six: &[u64; 6], memory: &mut Memory, lent: [usize; 3], c: Command) -> Reply {
        let before = memory.clone();
        let marks: Vec<u32> = (0..lent[2] as u32).map(|i| 1000 + i).collect();
        let mut out = marks.clone();
        let lent = sogvect::Memory { tables: &mut memory.tables[..lent[0]], log: &mut memory.log[..lent[1]], out: &mut out };
        let reply = Store::on(geometry(six.map(|n| n as usize)), lent).call(c).map(<[u32]>::len);
        match reply {
            Ok(count) => {
                assert_eq!(out[count..], marks[count..], "the result buffer beyond the result");
                Ok(out[..count].to_vec())
            }
            Err(refusal) => {
                assert!(*memory == before && out == marks, "a refusal altered what was lent");
                Err(refusal.number())
            }
        }
    }
}

#[test]
fn as_predicted() {
    let printed = printed(&mut Library);
    for (i, (got, expected)) in printed.lines().zip(include_str!("../../../tests/reference/damaged.expected").lines()).enumerate() {
        assert_eq!(got, expected, "line {}", i + 1);
    }
    assert_eq!(printed, include_str!("../../../tests/reference/damaged.expected"));
}
