//! What a run can be told from outside.

use std::env;

/// The master seed of all lists.
pub const SEED: &str = "MTCORE_SEED";
/// Runs the list of this seed alone, as a failing test printed it.
pub const ONE_LIST: &str = "MTCORE_LIST";
/// Multiplies the number of lists.
pub const FACTOR: &str = "MTCORE_FACTOR";

const DEFAULT_SEED: u64 = 0x4d54_436f_6e6e_6563;

/// Decimal, or hexadecimal behind 0x.
pub fn number(text: &str) -> Option<u64> {
    match text.strip_prefix("0x") {
        Some(digits) => u64::from_str_radix(digits, 16).ok(),
        None => text.parse().ok(),
    }
}

fn given(name: &str) -> Option<u64> {
    let text = env::var(name).ok()?;
    Some(number(&text).unwrap_or_else(|| panic!("{name}={text} is no number")))
}

pub fn seed() -> u64 {
    given(SEED).unwrap_or(DEFAULT_SEED)
}

/// Whether every call is to be printed: where a single list was asked for.
pub fn tracing() -> bool {
    env::var_os(ONE_LIST).is_some()
}

/// The seeds of so many lists, or the one asked for.
pub fn seeds(lists: u64) -> Vec<u64> {
    if let Some(seed) = given(ONE_LIST) {
        return vec![seed];
    }
    let master = seed();
    (0..lists * given(FACTOR).unwrap_or(1)).map(|list| crate::rng::list_seed(master, list)).collect()
}
