//! Waits of tests.

use std::thread;
use std::time::{Duration, Instant};

/// Waits until something holds, and fails after 20 seconds.
pub fn until(what: impl Fn() -> bool) {
    let begun = Instant::now();
    while !what() {
        assert!(begun.elapsed() < Duration::from_secs(20));
        thread::sleep(Duration::from_millis(5));
    }
}
