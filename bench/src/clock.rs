//! Time.
use std::hint::black_box;
use std::time::Instant;

/// How long the work takes, in seconds.
pub fn seconds<T>(work: impl FnOnce() -> T) -> f64 {
    let start = Instant::now();
    black_box(work());
    start.elapsed().as_secs_f64()
}
