//! Why a call was refused.
use std::fmt;

/// The number of the reason why a call was refused. A refused call changed nothing.
///
/// Where several reasons are true of a call, it is the first in the order of docs/RULES.md, 7.1.
#[derive(Clone, Copy, Debug, PartialEq, Eq, Hash)]
pub struct Refusal(u32);

impl Refusal {
    /// 1: a look that is no call that only looks ([`crate::Store::look`]).
    pub const NO_CALL: Refusal = Refusal(1);
    /// 2: a geometry outside its limits.
    pub const OUTSIDE_LIMITS: Refusal = Refusal(2);
    /// 3: memory shorter than the geometry needs.
    pub const TOO_SHORT: Refusal = Refusal(3);
    /// 4: tables and log that are not those of a store of this geometry.
    pub const NOT_SOUND: Refusal = Refusal(4);
    /// 5: a page not below the page count.
    pub const NO_PAGE: Refusal = Refusal(5);
    /// 6: a kind above 2.
    pub const NO_KIND: Refusal = Refusal(6);
    /// 7: bytes that are no log.
    pub const NO_LOG: Refusal = Refusal(7);
    /// 8: a record that is not in the store.
    pub const NO_RECORD: Refusal = Refusal(8);
    /// 9: a write, an erase, a seal or a retain of a sealed record, or a fork of an open one.
    pub const WRONG_STATE: Refusal = Refusal(9);
    /// 10: a delete, or the estimate of one, of a record with a fork on it.
    pub const FORKED: Refusal = Refusal(10);
    /// 11: a full record table.
    pub const TABLE_FULL: Refusal = Refusal(11);
    /// 12: no record number is left.
    pub const NO_NUMBER: Refusal = Refusal(12);
    /// 13: no free block: each is on a page, queued ([`crate::Store::reclaim`]) or waiting for a barrier ([`crate::Store::barrier`],
    /// [`crate::Store::compress`]).
    pub const NO_BLOCK: Refusal = Refusal(13);
    /// 14: too few unused log words; [`crate::Store::compress`] makes room.
    pub const LOG_FULL: Refusal = Refusal(14);
    /// 15: a window outside 1 to 62.
    pub const NO_WINDOW: Refusal = Refusal(15);
    /// 16: bytes that are no name: 1 to 32 letters a to z.
    pub const NO_NAME: Refusal = Refusal(16);
    /// 17: a name in use, a second one on an open record or a thirty-third in the store; or a name that no record has.
    pub const WRONG_NAME: Refusal = Refusal(17);
    /// 18: a delete, or the estimate of one, of a record with a name on it.
    pub const NAMED: Refusal = Refusal(18);
    /// 19: a number of blocks to reclaim outside 1 to 64.
    pub const NO_AMOUNT: Refusal = Refusal(19);

    /// The number, as include/sogvect.h has it.
    pub const fn number(self) -> u32 {
        self.0
    }

    /// What a function's code says: 0 is done, any other the number of a refusal.
    pub(crate) fn check(code: u32) -> Result<(), Refusal> {
        match code {
            0 => Ok(()),
            number => Err(Refusal(number)),
        }
    }
}

impl fmt::Display for Refusal {
    fn fmt(&self, f: &mut fmt::Formatter<'_>) -> fmt::Result {
        let reason = match self.0 {
            1 => "no such call",
            2 => "a geometry outside its limits",
            3 => "memory shorter than the geometry needs",
            4 => "tables that are not sound",
            5 => "page not below the page count",
            6 => "kind above 2",
            7 => "bytes that are no log",
            8 => "the record is not in the store",
            9 => "write, erase, seal or retain of a sealed record, or fork of an open one",
            10 => "delete or estimate of a record with a fork on it",
            11 => "the record table is full",
            12 => "no record number is left",
            13 => "no free block: each is on a page, queued or waiting for a barrier",
            14 => "the log is too full: compressing makes room",
            15 => "window outside 1 to 62",
            16 => "no name: 1 to 32 letters a to z",
            17 => "name in use, a second on an open record, a thirty-third, or on no record",
            18 => "delete or estimate of a record with a name on it",
            19 => "number of blocks to reclaim outside 1 to 64",
            number => return write!(f, "refused by {number}"),
        };
        f.write_str(reason)
    }
}

impl std::error::Error for Refusal {}
