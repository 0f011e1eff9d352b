//! A store on lent memory, and its calls.
use crate::{Block, Call, Command, Geometry, Naming, Record, Refusal};

/// The memory that a store lives in. Longer memory is taken; what lies beyond the least lengths is never changed.
///
/// Tables and log have to come back to each call as the last one left them. The result buffer holds nothing between calls.
#[derive(Debug)]
pub struct Memory<'a> {
    /// The store's state, at least [`Geometry::tables_len`] numbers.
    pub tables: &'a mut [u32],
    /// The store's log, at least [`Geometry::log_len`] bytes.
    pub log: &'a mut [u8],
    /// The result buffer, at least [`Geometry::out_len`] numbers.
    pub out: &'a mut [u32],
}

/// Memory of its own, for a store that lives nowhere else.
#[derive(Clone, Debug, PartialEq, Eq)]
pub struct Space {
    /// As [`Memory::tables`].
    pub tables: Vec<u32>,
    /// As [`Memory::log`].
    pub log: Vec<u8>,
    /// As [`Memory::out`].
    pub out: Vec<u32>,
}

impl Space {
    /// Memory of exactly the least lengths, all 0.
    pub fn new(g: Geometry) -> Space {
        Space { tables: vec![0; g.tables_len()], log: vec![0; g.log_len()], out: vec![0; g.out_len()] }
    }

    /// The memory, lent to a store.
    pub fn lend(&mut self) -> Memory<'_> {
        Memory { tables: &mut self.tables, log: &mut self.log, out: &mut self.out }
    }
}

/// The kind of a write: each looks for a block in another arena first.
#[derive(Clone, Copy, Debug, PartialEq, Eq, Hash)]
pub enum Kind {
    /// Data.
    Data = 0,
    /// A pivot; it looks for a block one arena further.
    Pivot = 1,
    /// A leaf; it looks for a block two arenas further.
    Leaf = 2,
}

/// What a write gave and freed.
#[derive(Clone, Copy, Debug, PartialEq, Eq, Hash)]
pub struct Written {
    /// The block that is on the page now. Its birth is the record.
    pub block: Block,
    /// The block that was there before, if it was freed.
    pub freed: Option<Block>,
}

/// What a delete would do.
#[derive(Clone, Copy, Debug, PartialEq, Eq, Hash)]
pub struct Estimate {
    /// How many blocks it would put in the queue.
    pub blocks: u32,
    /// How many log words it would write: none.
    pub words: u32,
    /// How many non-empty shards with a birth above the record's pred the record that follows it in its line has; 0 where none follows
    /// (docs/RULES.md, 1.5, 1.8 and 3.12).
    pub shards: u32,
}

/// A store: the six numbers that it was made from, and the memory that it lives in.
///
/// Nothing is trusted: each call checks numbers, lengths, tables and log in full. A refused call changes nothing.
#[derive(Debug)]
pub struct Store<'a> {
    /// The six numbers.
    pub geometry: Geometry,
    /// The memory.
    pub memory: Memory<'a>,
}

/// A call of a name that writes the tables alone: the memory and the name are lent, then comes what else is given.
macro_rules! named {
    ($function:ident, $g:ident, $m:ident, $name:ident $(, $argument:expr)*) => {
        bare!(
            $function,
            $g,
            $m.tables.as_mut_ptr(),
            $m.tables.len(),
            $m.log.as_ptr(),
            $m.log.len(),
            $m.out.as_ptr(),
            $m.out.len(),
            $name.as_ptr(),
            $name.len()
            $(, $argument)*
        )
    };
}

impl<'a> Store<'a> {
    /// Makes a fresh store, whatever the memory held before.
    ///
    /// # Errors
    ///
    /// Refused by 2 or 3; see [`Refusal`].
    pub fn make(geometry: Geometry, memory: Memory<'a>) -> Result<Store<'a>, Refusal> {
        let (g, m) = (geometry, memory);
        // SAFETY: the pointers and lengths are those of three slices that are lent once; the function writes the first of them alone.
        let code =
            unsafe { bare!(sogvect_make, g, m.tables.as_mut_ptr(), m.tables.len(), m.log.as_ptr(), m.log.len(), m.out.as_ptr(), m.out.len(),) };
        Refusal::check(code).map(|()| Store { geometry: g, memory: m })
    }

    /// The store that the memory holds; its calls say whether there is one of these six numbers.
    pub fn on(geometry: Geometry, memory: Memory<'a>) -> Store<'a> {
        Store { geometry, memory }
    }

    /// The used bytes of the store's log, as its tables say: what [`crate::log_read`] is to be given.
    pub fn log(&self) -> &[u8] {
        used(self.memory.tables, self.memory.log)
    }

    /// Makes a call, and gives the result's numbers, which stand at the start of the result buffer. A block is two numbers, the block and its birth;
    /// [`Command::spelling`] says which numbers are blocks.
    ///
    /// # Errors
    ///
    /// Refused by the numbers that the function of the call names; see [`Refusal`].
    pub fn call<'n>(&mut self, call: impl Into<Command<'n>>) -> Result<&[u32], Refusal> {
        let count = match call.into() {
            Command::Unnamed(call) => self.call_unnamed(call)?,
            Command::Naming(Naming::Attach(record), name) => self.attach(name, record)?,
            Command::Naming(Naming::Detach, name) => self.detach(name)?,
            Command::Naming(Naming::Resolve, name) => {
                let m = &mut self.memory;
                resolved(self.geometry, m.tables, m.log, m.out, name)?
            }
        };
        Ok(&self.memory.out[..count])
    }

    /// How many numbers the result of a call has; the same below.
    fn call_unnamed(&mut self, call: Call) -> Result<usize, Refusal> {
        let (g, m) = (self.geometry, &mut self.memory);
        let [x, y, z] = call.numbers();
        let mut count: usize = 0;
        // SAFETY: the pointers and lengths are those of three exclusive slices, and of a local for the count, so each is valid and none overlaps another.
        // The function asks for nothing else: it is proved to stay inside the lengths whatever the numbers and the content are.
        let code = unsafe {
            bare!(
                sogvect_call,
                g,
                m.tables.as_mut_ptr(),
                m.tables.len(),
                m.log.as_mut_ptr(),
                m.log.len(),
                m.out.as_mut_ptr(),
                m.out.len(),
                u32::from(call.letter()),
                x,
                y,
                z,
                &mut count,
            )
        };
        Refusal::check(code).map(|()| count)
    }

    fn attach(&mut self, name: &[u8], record: u32) -> Result<usize, Refusal> {
        let (g, m) = (self.geometry, &mut self.memory);
        // SAFETY: the pointers and lengths are those of three exclusive slices, of which the first alone is written, and of a shared one.
        let code = unsafe { named!(sogvect_name, g, m, name, record) };
        Refusal::check(code).map(|()| 0)
    }

    fn detach(&mut self, name: &[u8]) -> Result<usize, Refusal> {
        let (g, m) = (self.geometry, &mut self.memory);
        // SAFETY: the pointers and lengths are those of three exclusive slices, of which the first alone is written, and of a shared one.
        let code = unsafe { named!(sogvect_unname, g, m, name) };
        Refusal::check(code).map(|()| 0)
    }

    /// Makes a call that only looks ([`Call::Read`], [`Call::FreeList`], [`Call::Estimate`], [`Naming::Resolve`]), with a result buffer of the caller's, at
    /// least [`Geometry::out_len`] numbers. Tables and log are only read, so several threads may look at once.
    ///
    /// # Errors
    ///
    /// Refused by [`Refusal::NO_CALL`] for any other call, else by the numbers that the function of the call names; see [`Refusal`].
    pub fn look<'n, 'o>(&self, call: impl Into<Command<'n>>, out: &'o mut [u32]) -> Result<&'o [u32], Refusal> {
        let (g, tables, log): (Geometry, &[u32], &[u8]) = (self.geometry, self.memory.tables, self.memory.log);
        let count = match call.into() {
            Command::Unnamed(call) => looked(g, tables, log, out, call)?,
            Command::Naming(Naming::Resolve, name) => resolved(g, tables, log, out, name)?,
            Command::Naming(..) => return Err(Refusal::NO_CALL),
        };
        Ok(&out[..count])
    }

    /// Begins a line: an open record with every page empty. Gives the record.
    ///
    /// # Errors
    ///
    /// Refused by 2, 3, 4, 11 or 12; see [`Refusal`].
    pub fn begin(&mut self) -> Result<Record, Refusal> {
        Ok(Record(self.call(Call::Begin)?[0]))
    }

    /// Puts a free block on a page of an open record.
    ///
    /// # Errors
    ///
    /// Refused by 2, 3, 4, 5, 8, 9, 13 or 14; see [`Refusal`].
    pub fn write(&mut self, record: Record, page: u32, kind: Kind) -> Result<Written, Refusal> {
        let numbers = self.call(Call::Write(record.0, page, kind as u32))?;
        Ok(Written { block: Block::of(&numbers[..2]), freed: numbers.get(2..4).map(Block::of) })
    }

    /// Empties a page of an open record. Gives the block that was there, if it was freed.
    ///
    /// # Errors
    ///
    /// Refused by 2, 3, 4, 5, 8, 9 or 14; see [`Refusal`].
    pub fn erase(&mut self, record: Record, page: u32) -> Result<Option<Block>, Refusal> {
        Ok(self.call(Call::Erase(record.0, page))?.get(..2).map(Block::of))
    }

    /// Seals an open record; an open one with the same pages follows it in its line, and gets its name if it has one. Where the line has a window
    /// ([`Store::retain`]), its oldest sealed records without a fork or a name are then deleted, one after another, until no more sealed ones are left than
    /// the window says, or only forked or named ones and the newest; their blocks join the queue ([`Store::reclaim`]). Gives the new record.
    ///
    /// # Errors
    ///
    /// Refused by 2, 3, 4, 8, 9, 11 or 12; see [`Refusal`]. 11 is judged before the deletes.
    pub fn seal(&mut self, record: Record) -> Result<Record, Refusal> {
        Ok(Record(self.call(Call::Seal(record.0))?[0]))
    }

    /// Sets a window on the line of an open record, or replaces the one that it had: from now on a seal in the line deletes its oldest sealed records until
    /// at most so many are left, 1 to 62. Records with a fork or a name on them count, but stay. The call itself deletes nothing. A new line has no window.
    ///
    /// # Errors
    ///
    /// Refused by 2, 3, 4, 15, 8 or 9, in this order; see [`Refusal`].
    pub fn retain(&mut self, record: Record, most: u32) -> Result<(), Refusal> {
        self.call(Call::Retain(record.0, most)).map(|_| ())
    }

    /// Forks a sealed record: a new line, whose open record has its pages, and no name. Gives the new record.
    ///
    /// # Errors
    ///
    /// Refused by 2, 3, 4, 8, 9, 11 or 12; see [`Refusal`].
    pub fn fork(&mut self, record: Record) -> Result<Record, Refusal> {
        Ok(Record(self.call(Call::Fork(record.0))?[0]))
    }

    /// Deletes a record, open or sealed, that has neither a fork nor a name on it. The blocks that it alone had join the queue; [`Store::reclaim`] frees them.
    ///
    /// # Errors
    ///
    /// Refused by 2, 3, 4, 8, 10 or 18, in this order; see [`Refusal`].
    pub fn delete(&mut self, record: Record) -> Result<(), Refusal> {
        self.call(Call::Delete(record.0)).map(|_| ())
    }

    /// Frees the first blocks of the queue: so many, 1 to 64, or all if fewer are queued. Gives the freed blocks, in the order of the queue.
    ///
    /// # Errors
    ///
    /// Refused by 2, 3, 4, 19 or 14, in this order; see [`Refusal`]. Where the log has too few unused words for all of them, none is freed.
    pub fn reclaim(&mut self, most: u32) -> Result<Vec<Block>, Refusal> {
        Ok(self.call(Call::Reclaim(most))?.chunks_exact(2).map(Block::of).collect())
    }

    /// Gives the block on a page of a record, if there is one.
    ///
    /// # Errors
    ///
    /// Refused by 2, 3, 4, 5 or 8; see [`Refusal`].
    pub fn read(&mut self, record: Record, page: u32) -> Result<Option<Block>, Refusal> {
        Ok(self.call(Call::Read(record.0, page))?.get(..2).map(Block::of))
    }

    /// Adds a barrier to the log; once it is done, no block waits.
    ///
    /// # Errors
    ///
    /// Refused by 2, 3, 4 or 14; see [`Refusal`].
    pub fn barrier(&mut self) -> Result<(), Refusal> {
        self.call(Call::Barrier).map(|_| ())
    }

    /// Writes the log again, as short as it can be and with a barrier at its end; once it is done, no block waits. Gives the number of its words.
    ///
    /// # Errors
    ///
    /// Refused by 2, 3 or 4; see [`Refusal`].
    pub fn compress(&mut self) -> Result<u32, Refusal> {
        Ok(self.call(Call::Compress)?[0])
    }

    /// Gives the free blocks but for those that wait, as runs, rising: the first block and the length. Queued blocks are not free. No run crosses an arena's
    /// edge.
    ///
    /// # Errors
    ///
    /// Refused by 2, 3 or 4; see [`Refusal`].
    pub fn free_list(&mut self) -> Result<Vec<(u32, u32)>, Refusal> {
        Ok(self.call(Call::FreeList)?.chunks_exact(2).map(|run| (run[0], run[1])).collect())
    }

    /// Puts a name, 1 to 32 letters a to z, on a record. A sealed record may have many names; an open one has at most one, which a seal hands on to the record
    /// that follows. A record with a name is not deleted, and a window passes over it. A store has at most 32 names.
    ///
    /// # Errors
    ///
    /// Refused by 2, 3, 4, 16, 8 or 17, in this order; see [`Refusal`]. A name in use is refused by 17, also on the record that has it.
    pub fn name(&mut self, name: &[u8], record: Record) -> Result<(), Refusal> {
        self.call(Command::Naming(Naming::Attach(record.0), name)).map(|_| ())
    }

    /// Takes a name off the record that has it.
    ///
    /// # Errors
    ///
    /// Refused by 2, 3, 4, 16 or 17; see [`Refusal`].
    pub fn unname(&mut self, name: &[u8]) -> Result<(), Refusal> {
        self.call(Command::Naming(Naming::Detach, name)).map(|_| ())
    }

    /// Gives the record that has a name.
    ///
    /// # Errors
    ///
    /// Refused by 2, 3, 4, 16 or 17; see [`Refusal`].
    pub fn resolve(&mut self, name: &[u8]) -> Result<Record, Refusal> {
        Ok(Record(self.call(Command::Naming(Naming::Resolve, name))?[0]))
    }

    /// Says what [`Store::delete`] of a record would do, and changes nothing. A delete straight after it, if done, queues exactly so many blocks.
    ///
    /// # Errors
    ///
    /// Refused by 2, 3, 4, 8, 10 or 18; see [`Refusal`].
    pub fn estimate(&mut self, record: Record) -> Result<Estimate, Refusal> {
        let numbers = self.call(Call::Estimate(record.0))?;
        Ok(Estimate { blocks: numbers[0], words: numbers[1], shards: numbers[2] })
    }
}

/// A look of a letter and two numbers: how many numbers its result has. Tables and log are only read; the same below.
fn looked(g: Geometry, tables: &[u32], log: &[u8], out: &mut [u32], call: Call) -> Result<usize, Refusal> {
    let [x, y, _] = call.numbers();
    let mut count: usize = 0;
    // SAFETY: the pointers and lengths are those of two shared slices, of an exclusive one, and of a local for the count.
    let code = unsafe {
        bare!(
            sogvect_look,
            g,
            tables.as_ptr(),
            tables.len(),
            log.as_ptr(),
            log.len(),
            out.as_mut_ptr(),
            out.len(),
            u32::from(call.letter()),
            x,
            y,
            &mut count,
        )
    };
    Refusal::check(code).map(|()| count)
}

fn resolved(g: Geometry, tables: &[u32], log: &[u8], out: &mut [u32], name: &[u8]) -> Result<usize, Refusal> {
    let mut count: usize = 0;
    // SAFETY: the pointers and lengths are those of three shared slices, of an exclusive one, and of a local for the count.
    let code = unsafe {
        bare!(
            sogvect_resolve,
            g,
            tables.as_ptr(),
            tables.len(),
            log.as_ptr(),
            log.len(),
            out.as_mut_ptr(),
            out.len(),
            name.as_ptr(),
            name.len(),
            &mut count,
        )
    };
    Refusal::check(code).map(|()| count)
}

/// The used bytes of a log, as the tables say, but no more than there are.
pub(crate) fn used<'l>(tables: &[u32], log: &'l [u8]) -> &'l [u8] {
    let words = tables.get(9).map_or(0, |&words| words as usize);
    &log[..words.saturating_mul(8).min(log.len())]
}
