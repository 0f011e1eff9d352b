//! An implementation written from the rules alone (docs/RULES.md), to compare the proved runner with.
//!   reference run                       replies to the script on standard input
//!   reference log                       the words of the log after each of its lines, hexadecimal
//!   reference script SEED               a script made from a seed
//!   reference damaged                   the replies to calls on damaged memory, as this implementation predicts them
//!   reference reached FROM TO           what the scripts of the seeds reach, and how often; too rarely is an error
//!   reference compare RUNNER FROM TO    runs the scripts of the seeds through RUNNER and compares byte for byte
//!   reference cuts RUNNER LOGTOOL FROM TO [SCRIPT...]
//!                                       cuts the logs of the scripts, of the seeds and in files, at each byte
mod plug;
mod reached;
mod runner;

use reference::{damaged, generate, layout, script};
use std::io::{Read, Write};
use std::process::exit;

fn compare(runner: &str, from: u64, to: u64) {
    let mut lines = 0;
    for seed in from..to {
        let text = generate::script(seed);
        let expected = script::run(&text);
        let found = runner::replies(runner, &text);
        if found != expected {
            let at = found.split(|&b| b == b'\n').zip(expected.split(|&b| b == b'\n')).take_while(|(a, b)| a == b).count();
            println!("seed {seed}: the replies differ, first to line {}", at + 1);
            exit(1);
        }
        lines += expected.iter().filter(|&&b| b == b'\n').count();
    }
    println!("{} scripts, {lines} replies: the same", to - from);
}

fn script_read() -> Vec<u8> {
    let mut text = Vec::new();
    std::io::stdin().read_to_end(&mut text).expect("a script on standard input");
    text
}

fn written(bytes: &[u8]) {
    std::io::stdout().write_all(bytes).expect("standard output takes all");
}

fn main() {
    let args: Vec<String> = std::env::args().collect();
    let words: Vec<&str> = args.iter().map(|s| s.as_str()).collect();
    match words[1..] {
        ["run"] => written(&script::run(&script_read())),
        ["log"] => written(&script::logs(&script_read())),
        ["script", seed] => written(&generate::script(seed.parse().unwrap())),
        ["damaged"] => print!("{}", damaged::printed(&mut layout::Predicted)),
        ["reached", from, to] => reached::print(from.parse().unwrap(), to.parse().unwrap()),
        ["compare", runner, from, to] => compare(runner, from.parse().unwrap(), to.parse().unwrap()),
        ["cuts", runner, tool, from, to, ref files @ ..] => {
            plug::pulled(&plug::Programs { runner, tool }, from.parse().unwrap(), to.parse().unwrap(), files)
        }
        _ => {
            eprintln!("usage: reference run | log | script SEED | damaged | reached FROM TO | compare RUNNER FROM TO");
            eprintln!("       reference cuts RUNNER LOGTOOL FROM TO [SCRIPT...]");
            exit(2);
        }
    }
}
