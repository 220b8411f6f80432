//! A histogram of durations, in the format of Prometheus.

use std::fmt::Write;
use std::sync::atomic::{AtomicU64, Ordering::Relaxed};
use std::time::Duration;

/// The upper bounds of the buckets, in microseconds and as printed, in seconds.
const BOUNDS: [(u64, &str); 12] = [
    (50, "0.00005"),
    (100, "0.0001"),
    (250, "0.00025"),
    (500, "0.0005"),
    (1_000, "0.001"),
    (2_500, "0.0025"),
    (5_000, "0.005"),
    (10_000, "0.01"),
    (25_000, "0.025"),
    (100_000, "0.1"),
    (500_000, "0.5"),
    (2_500_000, "2.5"),
];

#[derive(Default)]
pub struct Histogram {
    buckets: [AtomicU64; BOUNDS.len()],
    count: AtomicU64,
    nanoseconds: AtomicU64,
}

impl Histogram {
    pub fn observe(&self, took: Duration) {
        if let Some(place) = BOUNDS.iter().position(|bound| took <= Duration::from_micros(bound.0)) {
            self.buckets[place].fetch_add(1, Relaxed);
        }
        self.count.fetch_add(1, Relaxed);
        self.nanoseconds.fetch_add(took.as_nanos() as u64, Relaxed);
    }

    pub fn count(&self) -> u64 {
        self.count.load(Relaxed)
    }

    /// Returns the mean; `None` before the first duration.
    pub fn mean(&self) -> Option<Duration> {
        self.nanoseconds.load(Relaxed).checked_div(self.count()).map(Duration::from_nanos)
    }

    /// Writes the lines of a histogram with this name.
    pub fn write(&self, text: &mut String, name: &str) {
        let mut below = 0;
        for (bucket, (_, bound)) in self.buckets.iter().zip(BOUNDS) {
            below += bucket.load(Relaxed);
            let _ = writeln!(text, "{name}_bucket{{le=\"{bound}\"}} {below}");
        }
        let (count, seconds) = (self.count().max(below), self.nanoseconds.load(Relaxed) as f64 / 1e9);
        let _ = writeln!(text, "{name}_bucket{{le=\"+Inf\"}} {count}\n{name}_sum {seconds}\n{name}_count {count}");
    }
}

#[cfg(test)]
mod tests {
    use super::*;

    #[test]
    fn buckets_add_up() {
        let histogram = Histogram::default();
        assert_eq!(histogram.mean(), None);
        [20, 50, 51, 9_000_000].into_iter().for_each(|micros| histogram.observe(Duration::from_micros(micros)));
        let mut text = String::new();
        histogram.write(&mut text, "it");
        let wanted = ["it_bucket{le=\"0.00005\"} 2", "it_bucket{le=\"0.0001\"} 3", "it_bucket{le=\"2.5\"} 3", "it_bucket{le=\"+Inf\"} 4"];
        wanted.iter().for_each(|line| assert!(text.contains(line), "{line} in {text}"));
        assert!(text.contains("it_count 4\n") && text.contains("it_sum 9.000121\n"), "{text}");
    }
}
