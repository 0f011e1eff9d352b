//! The cut logs of scripts, through this implementation's reading at every byte and through the log tool at some.
//! The logs are this implementation's: the runner prints none. Its replies to the same scripts must be the same; that the library's stores have the same
//! log, word for word, and what the library reads off their own bytes, is held by bindings/rust/tests/cuts.rs.
use crate::runner;
use reference::cuts::{Followed, Stretch};
use reference::generate::{self, Dice};
use reference::log::{bytes_of, read};
use reference::script;
use std::path::PathBuf;
use std::process::{exit, Command};

/// How many cuts of a script the log tool reads.
const TOLD: usize = 6;

#[derive(Default)]
struct Counts {
    logs: usize,
    cuts: usize,
    /// cuts with a barrier after the beginning, and cuts that leave out words
    settled: usize,
    lost: usize,
    /// cuts that give blocks which were queued at that barrier
    queued: usize,
    told: usize,
}

fn fail(name: &str, what: String) -> ! {
    println!("{name}: {what}");
    exit(1);
}

/// All stretches of a script.
fn stretches(text: &[u8]) -> Vec<Stretch> {
    let (mut followed, mut all) = (Followed::default(), Vec::new());
    script::each_reply(text, |store, call, reply| {
        if let Some(store) = store {
            all.extend(followed.go_on(store, call, reply));
        }
    });
    all.extend(followed.end());
    all
}

/// Each cut gives the blocks held at the last whole barrier.
fn read_all(name: &str, s: &Stretch, counts: &mut Counts) {
    let bytes = bytes_of(&s.log);
    for n in s.cuts() {
        if read(&s.g, &bytes[..n]).as_ref() != Some(s.held(n)) {
            fail(name, format!("a log cut at byte {n} does not give the blocks held at the last barrier"));
        }
        let kept = s.log[..n / 8].iter().rposition(|&w| w == 3).map_or(0, |at| at + 1);
        counts.settled += (kept > s.start()) as usize;
        counts.lost += (8 * kept < n) as usize;
        counts.queued += (s.queued(n) > 0) as usize;
    }
    counts.logs += 1;
    counts.cuts += s.cuts().count();
}

/// What the log tool must print for a cut, and prints.
fn told(tool: &str, file: &PathBuf, s: &Stretch, n: usize) -> (String, String) {
    std::fs::write(file, &bytes_of(&s.log)[..n]).expect("a file is written");
    let numbers = [s.g.arenas, s.g.per].map(|n| n.to_string());
    let run = Command::new(tool).arg("held").args(numbers).arg(file).output().expect("the log tool runs");
    let expected = s.held(n).iter().fold(String::from("+"), |line, b| format!("{line} {b}"));
    (expected + "\n", String::from_utf8_lossy(&run.stdout).into_owned())
}

pub struct Programs<'a> {
    pub runner: &'a str,
    pub tool: &'a str,
}

fn script_cut(programs: &Programs, name: &str, text: &[u8], d: &mut Dice, counts: &mut Counts) {
    if runner::replies(programs.runner, text) != script::run(text) {
        fail(name, "the runner's replies are others".into());
    }
    let all = stretches(text);
    all.iter().for_each(|s| read_all(name, s, counts));
    let file = std::env::temp_dir().join(format!("sogvect-cut-{}.log", std::process::id()));
    for _ in 0..if all.is_empty() { 0 } else { TOLD } {
        let s = &all[d.below(all.len() as u32) as usize];
        let n = s.cuts().start() + d.below(s.cuts().count() as u32) as usize;
        let (expected, found) = told(programs.tool, &file, s, n);
        if found != expected {
            let _ = std::fs::remove_file(&file);
            fail(name, format!("of a log cut at byte {n} the log tool says {found:?}, not {expected:?}"));
        }
        counts.told += 1;
    }
    let _ = std::fs::remove_file(&file);
}

/// The scripts of the seeds, and those in files.
pub fn pulled(programs: &Programs, from: u64, to: u64, files: &[&str]) {
    let (mut counts, mut d) = (Counts::default(), Dice::new(from));
    for seed in from..to {
        script_cut(programs, &format!("seed {seed}"), &generate::script(seed), &mut d, &mut counts);
    }
    for file in files {
        let text = std::fs::read(file).unwrap_or_else(|e| fail(file, e.to_string()));
        script_cut(programs, file, &text, &mut d, &mut counts);
    }
    let Counts { logs, cuts, settled, lost, queued, told } = counts;
    println!("{logs} logs cut at each byte, {cuts} cuts: the blocks held at the last whole barrier, none given since");
    println!(
        "{settled} of them after a Y, {lost} with bytes after the last barrier, {queued} with blocks queued at that; {told} through the log tool"
    );
}
