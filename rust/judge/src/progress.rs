//! Tells on the error output how far a long part has come.

use std::time::{Duration, Instant};

const EVERY: Duration = Duration::from_secs(3);

/// The same items; now and then it is told how many of how many there were, and of what.
pub fn told<T>(what: &str, all: impl Iterator<Item = T>) -> impl Iterator<Item = T> {
    let (what, total) = (what.to_string(), all.size_hint().1.unwrap_or(usize::MAX));
    let mut last = Instant::now();
    all.enumerate().map(move |(done, item)| {
        if last.elapsed() >= EVERY {
            eprintln!("{done} of {total} {what}");
            last = Instant::now();
        }
        item
    })
}
