//! Going through many seeds in several threads.

use std::ops::Range;
use std::sync::atomic::{AtomicU64, Ordering};

/// Calls a function for each seed. It stops early once the function says so.
pub fn for_each_seed(seeds: Range<u64>, work: impl Fn(u64) -> bool + Sync) {
    let next = AtomicU64::new(seeds.start);
    let threads = std::thread::available_parallelism().map_or(2, |n| n.get().min(8));
    std::thread::scope(|scope| {
        for _ in 0..threads {
            scope.spawn(|| loop {
                let seed = next.fetch_add(1, Ordering::Relaxed);
                if seed >= seeds.end {
                    break;
                }
                if !work(seed) {
                    next.store(seeds.end, Ordering::Relaxed);
                }
            });
        }
    });
}
