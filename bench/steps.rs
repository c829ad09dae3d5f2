//! What a sequentially consistent step on a board costs, for docs/PERFORMANCE-HISTORY.md: nanoseconds a step, on tables as large as those of a
//! batch of 1,000 and of 10,000 events with three operations each.
//!
//!     rustc -O bench/steps.rs -o steps && ./steps
//!
//! An operation that reads two places has six steps here: it is made ready, claimed, each of its two values is recorded, it is finished,
//! and it is settled. All are done by one thread, one operation after another, so nothing but the steps themselves is counted.
use std::sync::atomic::{AtomicU64, Ordering::SeqCst};
use std::time::Instant;

/// The words of an operation on a board: its own and those of its records.
const WORDS: usize = 9;
const STEPS: usize = 6;
const OPERATIONS: usize = 4_000_000;

fn exchange(word: &AtomicU64, old: u64, new: u64) {
    word.compare_exchange(old, new, SeqCst, SeqCst).expect("one thread alone steps here");
}

/// The six steps of the operation whose words these are, from this value on.
fn run(words: &[AtomicU64], value: u64) {
    exchange(&words[0], value, value + 1);
    exchange(&words[0], value + 1, value + 2);
    words[1].store(value, SeqCst);
    words[2].store(value, SeqCst);
    words[0].store(value + 3, SeqCst);
    exchange(&words[0], value + 3, value + 4);
}

fn main() {
    for operations in [3_000, 30_000] {
        let table: Vec<AtomicU64> = (0..operations * WORDS).map(|_| AtomicU64::new(0)).collect();
        let begun = Instant::now();
        for round in 0..OPERATIONS / operations {
            for words in table.chunks_exact(WORDS) {
                run(words, 4 * round as u64);
            }
        }
        let steps = OPERATIONS / operations * operations * STEPS;
        println!("{operations} operations: {:.1} nanoseconds a step", begun.elapsed().as_secs_f64() * 1e9 / steps as f64);
    }
}
