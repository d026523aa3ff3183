//! Times that a busy machine disturbs little: short batches, taken in turns, the best kept.

use std::time::{Duration, Instant};

/// Long against the clock's step, short against a scheduler's: many short batches find the moments
/// in which nothing else runs.
const BATCH: Duration = Duration::from_micros(100);

/// Tries at a number of turns.
const TRIES: usize = 5;

/// Runs so many turns.
pub type Batch<'a> = &'a mut dyn FnMut(usize);

/// Nanoseconds for one turn of each batch.
pub fn best(batches: &mut [Batch], rounds: usize) -> Vec<f64> {
    let turns: Vec<usize> = batches.iter_mut().map(turns).collect();
    let mut best = vec![f64::INFINITY; batches.len()];
    for round in 0..rounds {
        for step in 0..batches.len() {
            // Each goes first in its turn.
            let index = (round + step) % batches.len();
            let time = time(batches[index], turns[index]).as_nanos() as f64 / turns[index] as f64;
            best[index] = best[index].min(time);
        }
    }
    best
}

/// As many turns as make a batch. A try that was interrupted looks long: the shortest counts.
fn turns(batch: &mut Batch) -> usize {
    let mut turns = 1;
    while shortest(batch, turns) < BATCH {
        turns *= 2;
    }
    turns
}

fn shortest(batch: &mut Batch, turns: usize) -> Duration {
    (0..TRIES).map(|_| time(batch, turns)).min().unwrap_or_default()
}

fn time(batch: &mut dyn FnMut(usize), turns: usize) -> Duration {
    let begun = Instant::now();
    batch(turns);
    begun.elapsed()
}
