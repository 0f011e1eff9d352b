//! A script in memory, served part by part.
use crate::store::used;
use crate::{raw, Memory, Refusal};

/// The numbers of a script's run.
pub const SCRIPT_RUN: usize = 7;
/// The least length of a script's tables.
pub const SCRIPT_TABLES: usize = 43_008;
/// The least length of a script's log.
pub const SCRIPT_LOG: usize = 65_536;
/// The least length of a script's result buffer.
pub const SCRIPT_OUT: usize = 4_160;
/// The least length of a script's reply buffer, which is that of a longest reply: with it each part is one line, with 65,536 it is many.
pub const SCRIPT_REPLIES: usize = 49_180;

/// A part of a script that was served.
#[derive(Clone, Copy, Debug, PartialEq, Eq, Hash)]
pub struct Part {
    /// The position of the text where the next part begins.
    pub at: usize,
    /// How many bytes of replies stand at the start of the reply buffer.
    pub count: usize,
}

/// Serves whole lines of a text from a position on, while a longest reply fits in `replies`.
///
/// `run` holds what the script has between two parts, all 0 before the first. It comes back to each part, as tables and log do, as the last part left
/// it. Nothing is trusted: the numbers, the lengths and, once there is a store, its tables and log are checked.
///
/// # Errors
///
/// Refused by 2, 3 or 4; see [`Refusal`].
pub fn script_part(text: &[u8], at: usize, run: &mut [u32], memory: &mut Memory<'_>, replies: &mut [u8]) -> Result<Part, Refusal> {
    let mut part = Part { at, count: 0 };
    // SAFETY: the pointers and lengths are those of a shared slice, of five exclusive ones, and of two fields of a local.
    let code = unsafe {
        raw::sogvect_script(
            text.as_ptr(),
            text.len(),
            &mut part.at,
            run.as_mut_ptr(),
            run.len(),
            memory.tables.as_mut_ptr(),
            memory.tables.len(),
            memory.log.as_mut_ptr(),
            memory.log.len(),
            memory.out.as_mut_ptr(),
            memory.out.len(),
            replies.as_mut_ptr(),
            replies.len(),
            &mut part.count,
        )
    };
    Refusal::check(code).map(|()| part)
}

/// A script's run, on memory of its own: for a host that receives scripts from strangers.
///
/// ```
/// let text = b"store 1 4 2 4 8 10\nB\nW 1 0 0\nR 1 0\nnonsense\n";
/// let (mut script, mut at, mut replies) = (sogvect::Script::new(), 0, Vec::new());
/// while let Some(part) = script.part(text, &mut at) {
///     replies.extend_from_slice(part);
/// }
/// assert_eq!(replies, b"+\n+ 1\n+ 0:1\n+ 0:1\n- 1\n");
/// ```
#[derive(Clone, Debug)]
pub struct Script {
    run: [u32; SCRIPT_RUN],
    tables: Vec<u32>,
    log: Vec<u8>,
    out: Vec<u32>,
    replies: Vec<u8>,
}

impl Script {
    /// A script before its first line, with a reply buffer of 64 KiB.
    pub fn new() -> Script {
        Script::with_buffer(65_536)
    }

    /// The same with a reply buffer of a length of its own, at least [`SCRIPT_REPLIES`]: longer parts are fewer, and each is checked once.
    pub fn with_buffer(length: usize) -> Script {
        Script {
            run: [0; SCRIPT_RUN],
            tables: vec![0; SCRIPT_TABLES],
            log: vec![0; SCRIPT_LOG],
            out: vec![0; SCRIPT_OUT],
            replies: vec![0; length.max(SCRIPT_REPLIES)],
        }
    }

    /// The replies to the next lines of a text, from `at` on, which moves past them; nothing once the text is served.
    ///
    /// A text that grows may be served as far as it is there, where it ends after a line feed or is whole. A later text goes on with the same store.
    pub fn part(&mut self, text: &[u8], at: &mut usize) -> Option<&[u8]> {
        if *at >= text.len() {
            return None;
        }
        let mut memory = Memory { tables: &mut self.tables, log: &mut self.log, out: &mut self.out };
        let part = script_part(text, *at, &mut self.run, &mut memory, &mut self.replies).expect("the memory is as the last part left it");
        *at = part.at;
        Some(&self.replies[..part.count])
    }

    /// The used bytes of the log of the script's store; none before the first accepted store line.
    pub fn log(&self) -> &[u8] {
        if self.run[0] == 0 {
            &[]
        } else {
            used(&self.tables, &self.log)
        }
    }
}

impl Default for Script {
    fn default() -> Script {
        Script::new()
    }
}
