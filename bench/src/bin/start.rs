//! How long a program takes to start and end on an empty script: `start OURS PLAIN`, the wrapper and the runner itself, in turns.
use bench::clock::seconds;
use std::process::{exit, Command, Stdio};

const ROUNDS: usize = 500;
const MOST: f64 = 2.0;

/// One run of a program, in milliseconds.
fn run(program: &str) -> f64 {
    let mut command = Command::new(program);
    command.stdin(Stdio::null()).stdout(Stdio::null()).stderr(Stdio::null());
    let mut ended = false;
    let time = seconds(|| ended = command.status().is_ok_and(|s| s.success()));
    if !ended {
        eprintln!("{program} does not run");
        exit(1);
    }
    1e3 * time
}

fn main() {
    let args: Vec<String> = std::env::args().skip(1).collect();
    let [ours, plain] = &args[..] else {
        eprintln!("usage: start WRAPPER RUNNER");
        exit(2);
    };
    run(ours);
    let mut least = [f64::MAX; 2];
    for _ in 0..ROUNDS {
        for (best, program) in least.iter_mut().zip([ours, plain]) {
            *best = best.min(run(program));
        }
    }
    let more = least[0] - least[1];
    println!("| started | ms |\n|---|---|\n| `./sogvect` | {:.2} |\n| the runner itself | {:.2} |\n| difference | {more:.2} |", least[0], least[1]);
    println!("\nIn this run the difference is {} {MOST:.0} ms.", if more <= MOST { "within" } else { "above" });
}
