//! A plug pulled: the library's stores do the scripts of `tests/reference`, and their own logs are cut at each byte of the words appended since the last
//! C, or since the beginning. Reading a cut must give the blocks held at the last whole barrier, told from the results alone, and none of those may have
//! been given to a write since. On the way each reply, and after each line each word of the log, must be that of the reference.
mod common;

use common::{geometry, marked_for_any, numbers, stored, Tested};
use reference::cuts::{Followed, Stretch};
use reference::log::bytes_of;
use reference::store::{self, Reply};
use reference::{generate, script};
use sogvect::{log_read, Command, Geometry, Refusal, Space};

/// Scripts that the gate runs and whose logs are cut beside those made from seeds.
const CUT: [&str; 13] = [
    "waiting",
    "forks",
    "compress",
    "smalllog",
    "refusals",
    "table",
    "macros",
    "shards",
    "window",
    "edge-o5-several",
    "sweep",
    "edge-o7-14",
    "edge-o7-queue",
];
const SEEDS: u64 = 60;

fn geometry_of(g: &store::Geometry) -> Geometry {
    geometry(g.six().map(|n| n as usize))
}

/// A store of the library, and where its log has been.
struct Plugged {
    space: Space,
    followed: Followed,
    cuts: usize,
}

impl Plugged {
    fn new() -> Plugged {
        Plugged { space: marked_for_any(), followed: Followed::default(), cuts: 0 }
    }

    /// The reply of the library to a call, or to a store line.
    fn reply(&mut self, g: Geometry, call: Option<Command>) -> Reply {
        let reply = match call {
            None => self.space.make(g).map(|()| vec![]),
            Some(c) => numbers(&mut self.space.store(g), c),
        };
        reply.map_err(Refusal::number)
    }

    fn line(&mut self, reference: &store::Store, call: Option<Command>, expected: &Reply) {
        let g = geometry_of(&reference.g);
        let reply = self.reply(g, call);
        assert_eq!(reply, *expected, "{call:?}");
        assert_eq!(self.space.words(), reference.log, "the log after {call:?}");
        if let Some(ended) = self.followed.go_on(reference, call, &reply) {
            self.cut(&ended);
        }
    }

    /// Cuts a log at each byte.
    fn cut(&mut self, s: &Stretch) {
        let g = geometry_of(&s.g);
        let bytes = bytes_of(&s.log);
        for n in s.cuts() {
            let held = log_read(g, &bytes[..n], &mut self.space.out).unwrap_or_else(|e| panic!("cut at byte {n} of {:x?}: {e}", s.log));
            assert!(held.iter().eq(s.held(n)), "cut at byte {n} of {:x?}: {held:?}", s.log);
            self.cuts += 1;
        }
    }
}

/// How many cuts a script's logs have.
fn pulled(text: &[u8]) -> usize {
    let mut plugged = Plugged::new();
    script::each_reply(text, |store, call, reply| {
        // a refused store line, and a line that is no call, leave everything as it was
        if let (Some(store), true) = (store, call.is_some() || reply.is_ok()) {
            plugged.line(store, call, reply);
        }
    });
    if let Some(last) = std::mem::take(&mut plugged.followed).end() {
        plugged.cut(&last);
    }
    plugged.cuts
}

#[test]
fn stored_scripts() {
    let scripts = stored();
    for name in CUT {
        let script = scripts.iter().find(|script| script.name == name).expect("a stored script");
        let cuts = pulled(&script.text);
        assert!(cuts > 100, "{name} has only {cuts} cuts");
    }
}

#[test]
fn scripts_from_seeds() {
    let cuts: usize = (1..=SEEDS).map(|seed| pulled(&generate::script(seed))).sum();
    assert!(cuts > 100_000, "only {cuts} cuts");
}
