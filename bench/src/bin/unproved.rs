//! The unproved store as a program: replies to the script on standard input, as the runner gives them.
use bench::script::run;
use bench::store::{Geometry, Store};
use std::io::{Read, Write};

fn main() -> std::io::Result<()> {
    let mut text = Vec::new();
    std::io::stdin().take(65_536).read_to_end(&mut text)?;
    let mut store = Box::new(Store::new(Geometry::new([1, 1, 1, 1, 1, 4]).expect("inside the limits")));
    let mut out = vec![0; 64 << 20];
    let used = run(&mut store, &text, &mut out);
    std::io::stdout().write_all(&out[..used])
}
