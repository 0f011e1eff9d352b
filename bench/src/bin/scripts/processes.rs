//! The least times of the scripts of every kind, over several processes of this program, one after the other.
use crate::both::{Both, Times, ALL};
use crate::kinds::{kinds, Kind};
use std::error::Error;
use std::process::{exit, Command, Stdio};

/// Times move by some hundredths from process to process, with where the kernel puts memory.
const PROCESSES: usize = 5;
/// Of each process.
const ROUNDS: usize = 20;

/// How many lines of replies a script has, and its least times.
#[derive(Clone, Copy)]
pub struct Timed {
    pub lines: usize,
    pub times: Times,
}

/// The lines of replies of each script of a kind.
fn lines(both: &mut Both, kind: &Kind) -> Vec<usize> {
    let mut counts = Vec::new();
    for (i, text) in kind.scripts.iter().enumerate() {
        let Some(replies) = both.replies(text) else {
            eprintln!("{}, script {}: the replies differ", kind.name, i + 1);
            exit(1);
        };
        counts.push(replies.iter().filter(|&&b| b == b'\n').count());
    }
    counts
}

/// What one process does: the replies are compared, then all ways are timed. It prints a line for each script: its lines of replies and its three times,
/// in nanoseconds, which is what the clock counts.
pub fn times(both: &mut Both) {
    let kinds = kinds();
    let counts: Vec<usize> = kinds.iter().flat_map(|k| lines(both, k)).collect();
    let texts: Vec<&[u8]> = kinds.iter().flat_map(|k| k.scripts.iter().map(|t| t.as_slice())).collect();
    for (count, t) in counts.iter().zip(both.time(&texts, ALL, ROUNDS)) {
        let [proved, lent, unproved] = [t.proved, t.lent, t.unproved].map(|s| (1e9 * s).round() as u64);
        println!("{count} {proved} {lent} {unproved}");
    }
}

/// What `times` prints for a script; no number is 0.
fn read(line: &str) -> Option<Timed> {
    let number = |word: &str| word.parse().ok().filter(|&n: &u64| n > 0);
    let numbers: Vec<u64> = line.split(' ').map(number).collect::<Option<_>>()?;
    let [lines, proved, lent, unproved] = numbers[..] else { return None };
    let [proved, lent, unproved] = [proved, lent, unproved].map(|n| n as f64 / 1e9);
    Some(Timed { lines: lines as usize, times: Times { proved, lent, unproved } })
}

/// What one process says of so many scripts.
fn process(scripts: usize) -> Result<Vec<Timed>, Box<dyn Error>> {
    let output = Command::new(std::env::current_exe()?).arg("times").stderr(Stdio::inherit()).output()?;
    if !output.status.success() {
        return Err(output.status.to_string().into());
    }
    let text = String::from_utf8(output.stdout)?;
    let timed: Vec<Timed> = text.lines().map(|line| read(line).ok_or(format!("not the times of a script: {line:?}"))).collect::<Result<_, _>>()?;
    if timed.len() != scripts {
        return Err(format!("times of {} scripts, not of {scripts}", timed.len()).into());
    }
    Ok(timed)
}

/// The least times of so many scripts. Each process must count the same lines.
fn over_all(scripts: usize) -> Result<Vec<Timed>, Box<dyn Error>> {
    let mut best = process(scripts)?;
    for _ in 1..PROCESSES {
        for (i, (b, t)) in best.iter_mut().zip(process(scripts)?).enumerate() {
            if b.lines != t.lines {
                return Err(format!("script {} has {} lines, then {}", i + 1, b.lines, t.lines).into());
            }
            b.times = b.times.least(t.times);
        }
    }
    Ok(best)
}

pub fn least(scripts: usize) -> Vec<Timed> {
    over_all(scripts).unwrap_or_else(|e| {
        eprintln!("scripts times: {e}");
        exit(1);
    })
}
