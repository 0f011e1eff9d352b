//! Scripts through the proved libraries and through the unproved store, in turns: `scripts kinds`, or `scripts growth PLOT.svg`.
//! `scripts kinds` starts `scripts times` several times.
mod both;
mod composed;
mod growth;
mod host;
mod kinds;
mod plot;
mod processes;
mod proved;
mod table;

use both::Both;
use std::process::exit;

fn main() {
    let args: Vec<String> = std::env::args().skip(1).collect();
    let words: Vec<&str> = args.iter().map(|s| s.as_str()).collect();
    match words[..] {
        ["kinds"] => table::report(),
        ["times"] => processes::times(&mut Both::new()),
        ["growth", plot] => growth::report(&mut Both::new(), plot),
        _ => {
            eprintln!("usage: scripts kinds | scripts growth PLOT.svg (and scripts times, which scripts kinds starts)");
            exit(2);
        }
    }
}
