//! The proved library as a host has it serve a script (include/sogvect.h): all memory is lent, and each part checks what it is lent.
use sogvect::{script_part, Memory, SCRIPT_LOG, SCRIPT_OUT, SCRIPT_RUN, SCRIPT_TABLES};

/// The bytes lent for the replies of a part, as in the header's example.
const PART: usize = 65_536;

/// What a host lends beside a script and its replies, of lengths that are enough for every geometry.
pub struct Host {
    run: [u32; SCRIPT_RUN],
    tables: Vec<u32>,
    log: Vec<u8>,
    out: Vec<u32>,
}

impl Host {
    pub fn new() -> Host {
        Host { run: [0; SCRIPT_RUN], tables: vec![0; SCRIPT_TABLES], log: vec![0; SCRIPT_LOG], out: vec![0; SCRIPT_OUT] }
    }

    /// The replies to a script, written to the start of `replies`; how many bytes there are.
    pub fn run(&mut self, text: &[u8], replies: &mut [u8]) -> usize {
        self.run.fill(0);
        let mut memory = Memory { tables: &mut self.tables, log: &mut self.log, out: &mut self.out };
        let (mut at, mut used) = (0, 0);
        while at < text.len() {
            let part = script_part(text, at, &mut self.run, &mut memory, &mut replies[used..used + PART]).expect("a part of a script is served");
            at = part.at;
            used += part.count;
        }
        used
    }
}
