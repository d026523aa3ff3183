//! What a call costs once, when the caches hold other things.

use crate::calls::Call;
use crate::sides;
use crate::stage::Stage;
use std::hint::black_box;
use std::time::Instant;

/// More than caches hold.
const OTHER_BYTES: usize = 64 << 20;
/// Bytes of a cache line.
const LINE: usize = 64;
/// Filling the caches takes some milliseconds, so there are fewer rounds.
const ROUNDS: usize = 30;

/// Nanoseconds of the core's call, the best of some rounds.
pub fn best(call: &impl Call, stage: &Stage) -> f64 {
    let (core, mut stage) = (sides::core(), stage.clone());
    let mut other = vec![1u8; OTHER_BYTES];
    let mut best = f64::INFINITY;
    for turn in 0..ROUNDS {
        for byte in other.iter_mut().step_by(LINE) {
            *byte = byte.wrapping_add(1);
        }
        black_box(&other);
        let begun = Instant::now();
        black_box(call.run(&core, &mut stage, turn));
        best = best.min(begun.elapsed().as_nanos() as f64);
    }
    best
}
