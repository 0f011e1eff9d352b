//! How calls grow, on the runner's path: what a script costs more with the calls than without them.
use crate::both::{Both, Times, Way};
use crate::plot;
use std::fmt::Write;
use std::process::exit;

const ROUNDS: usize = 150;
const WRITES: usize = 1000;
const PAIRS: usize = 500;
/// How many units of calls there are between two barriers, each after a T: a store with 1,750 dead blocks has 42 free, and what the calls free is queued
/// and waits. A unit queues at most one block, so that a T frees all of them.
const BETWEEN: usize = 32;

/// The times of calls, in nanoseconds, where `at` pages, records or dead blocks are there.
pub struct Point {
    pub at: usize,
    pub times: [Times; 4],
}

/// The calls of a point, in the order of its times.
pub const CALLS: [&str; 4] = ["W", "W, listed", "S and D", "F and D"];

/// A store's first lines, and the number of its open record.
struct Begun {
    text: String,
    r: usize,
}

impl Begun {
    fn new(pages: usize, records: usize) -> Begun {
        Begun { text: format!("store 16 128 {pages} 64 8 8192\n{}", "B\n".repeat(records)), r: records }
    }

    fn write(mut self, pages: usize) -> Begun {
        for x in 0..pages {
            writeln!(self.text, "W {} {x} 0", self.r).unwrap();
        }
        self
    }

    fn seal(mut self) -> Begun {
        writeln!(self.text, "S {}", self.r).unwrap();
        self.r += 1;
        self
    }

    fn compress(mut self) -> Begun {
        self.text += "C\n";
        self
    }

    /// With calls after them, made from `count` numbers of records from the open one on, and a T and a barrier after every so many.
    fn with(&self, count: usize, unit: impl Fn(usize) -> String) -> String {
        let barrier = |i: usize| if i.is_multiple_of(BETWEEN) { "T 64\nY\n" } else { "" };
        let calls: String = (1..=count).map(|i| unit(self.r + i - 1) + barrier(i)).collect();
        format!("{}{calls}", self.text)
    }
}

/// The scripts of a point: the first lines with T's and barriers alone, then with calls between them. So a call's time has what the freeing of its blocks
/// and the end of their waiting take, and not a T that frees nothing or the barrier itself.
struct Scripts {
    at: usize,
    texts: [String; 7],
}

impl Scripts {
    fn new(at: usize, begun: Begun) -> Scripts {
        let r = begun.r;
        let writes = begun.with(WRITES, |_| format!("W {r} 0 0\n"));
        let pairs = begun.with(PAIRS, |n| format!("S {n}\nD {n}\n"));
        let threes = begun.with(PAIRS, |n| format!("S {n}\nW {} 0 0\nD {n}\n", n + 1));
        let [first, shorter] = [WRITES, PAIRS].map(|count| begun.with(count, |_| String::new()));
        let sealed = begun.seal();
        let none = sealed.with(PAIRS, |_| String::new());
        let forks = sealed.with(PAIRS, |n| format!("F {r}\nD {}\n", n + 1));
        Scripts { at, texts: [first, writes, pairs, threes, none, forks, shorter] }
    }

    /// The point from the times of the texts.
    fn point(&self, t: &[Times]) -> Point {
        let write = t[1].minus(t[0]).each(WRITES);
        let listed = t[3].minus(t[2]).each(PAIRS);
        let seal = t[2].minus(t[6]).each(PAIRS);
        let fork = t[5].minus(t[4]).each(PAIRS);
        Point { at: self.at, times: [write, listed, seal, fork] }
    }
}

/// Times all scripts in rounds. No call may be refused.
fn points<const N: usize>(both: &mut Both, scripts: [Scripts; N]) -> Vec<Point> {
    let texts: Vec<&str> = scripts.iter().flat_map(|s| s.texts.iter().map(|t| t.as_str())).collect();
    for text in &texts {
        let accepted = both.replies(text.as_bytes()).is_some_and(|r| !r.contains(&b'-'));
        if !accepted {
            eprintln!("a call is refused, or the replies differ:\n{text}");
            exit(1);
        }
    }
    let times = both.time(&texts, [Way::Proved, Way::Unproved], ROUNDS);
    let of_each = times.chunks(texts.len() / N);
    scripts.iter().zip(of_each).map(|(s, t)| s.point(t)).collect()
}

/// One record, all its pages written.
fn by_pages(both: &mut Both) -> Vec<Point> {
    let at = |n: usize| Scripts::new(n, Begun::new(n, 1).write(n).compress());
    points(both, [1, 32, 64, 128, 192, 256].map(at))
}

/// Records of 16 pages, each in a line of its own.
fn by_records(both: &mut Both) -> Vec<Point> {
    let at = |n: usize| Scripts::new(n, Begun::new(16, n).write(1));
    points(both, [1, 8, 16, 32, 48, 60].map(at))
}

/// Eight records of 256 pages in one line; each but the first rewrites some pages, so that the blocks there before are on its deadlist.
fn by_dead(both: &mut Both) -> Vec<Point> {
    let begun = |n: usize| (0..7).fold(Begun::new(256, 1).write(256), |line, _| line.seal().write(n / 7)).compress();
    points(both, [0, 350, 700, 1050, 1400, 1750].map(|n| Scripts::new(n, begun(n))))
}

fn table(title: &str, what: &str, points: &[Point]) {
    println!("\n{title}:\n\n| {what} | {} | {}, ns |\n|---|---|---|---|---|---|---|---|---|", CALLS.join(" | "), CALLS.join(", ns | "));
    for p in points {
        let ratios = p.times.map(|t| format!("{:.2}", t.ratio())).join(" | ");
        let times = p.times.map(|t| format!("{:.0}", t.proved)).join(" | ");
        println!("| {} | {ratios} | {times} |", p.at);
    }
}

pub fn report(both: &mut Both, picture: &str) {
    let (pages, records, dead) = (by_pages(both), by_records(both), by_dead(both));
    table("One record, all pages written", "pages", &pages);
    table("Records of 16 pages, each in a line of its own", "records", &records);
    table("Eight records of 256 pages in one line, with blocks on their deadlists", "dead blocks", &dead);
    let svg = plot::svg([("pages", &pages), ("records in the store", &records), ("dead blocks in the store", &dead)]);
    if let Err(e) = std::fs::write(picture, svg) {
        eprintln!("{picture}: {e}");
        exit(1);
    }
}
