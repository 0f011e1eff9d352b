//! The runner, as a program that replies to scripts.
use std::io::Write;
use std::process::{Command, Stdio};

/// What the runner replies to a script.
pub fn replies(runner: &str, text: &[u8]) -> Vec<u8> {
    let mut child = Command::new(runner).stdin(Stdio::piped()).stdout(Stdio::piped()).spawn().expect("the runner starts");
    let mut stdin = child.stdin.take().unwrap();
    let bytes = text.to_vec();
    let feed = std::thread::spawn(move || {
        let _ = stdin.write_all(&bytes);
    });
    let out = child.wait_with_output().expect("the runner ends").stdout;
    feed.join().unwrap();
    out
}
