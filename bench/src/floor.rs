//! The floor: what it costs to read the words at all.

use std::arch::asm;

/// Nanoseconds of a pass over the ring words that a call has to read.
pub struct Floor {
    /// One word after the other.
    pub stepped: f64,
    /// Two words at once, as many as there are, without a look at any.
    pub plain: f64,
}

/// The sum of the words, added one by one.
#[inline(never)]
pub fn stepped(words: &[u64]) -> u64 {
    let mut sum = 0u64;
    for &word in words {
        sum = sum.wrapping_add(word);
        // SAFETY: no instruction. It keeps the compiler from adding several words at once.
        unsafe { asm!("/* {0} */", inout(reg) sum, options(pure, nomem, nostack, preserves_flags)) };
    }
    sum
}

const LANES: usize = 16;

/// The sum of the words, in blocks that the compiler turns into vector code.
#[inline(never)]
pub fn plain(words: &[u64]) -> u64 {
    let mut sums = [0u64; LANES];
    let blocks = words.chunks_exact(LANES);
    let rest = blocks.remainder().iter().copied();
    for block in blocks {
        for (sum, &word) in sums.iter_mut().zip(block) {
            *sum = sum.wrapping_add(word);
        }
    }
    sums.into_iter().chain(rest).fold(0, u64::wrapping_add)
}
