//! Random lists for as long as wanted, with a progress line.
//!
//! `soak [SECONDS [SEED]]`: 60 seconds and a seed from the clock unless given. The last line counts
//! the lists: 'N passed, M failed'.

use differential::rng::list_seed;
use differential::under_test::core;
use differential::{batches, damaged, documents, lines, lists, settings, Counts, Difference};
use reference::Clean;
use std::env;
use std::io::Write;
use std::process::ExitCode;
use std::time::{Duration, Instant, SystemTime};

/// After so many differences the rest would hardly say more.
const MOST_FAILURES: u64 = 20;
const PROGRESS: Duration = Duration::from_secs(2);

fn main() -> ExitCode {
    let mut words = env::args().skip(1).map(|word| {
        settings::number(&word).unwrap_or_else(|| panic!("{word} is no number; usage: soak [SECONDS [SEED]]"))
    });
    let seconds = words.next().unwrap_or(60);
    let master = words.next().unwrap_or_else(seed_of_the_clock);
    println!("seed {master:#x}, {seconds} seconds");
    let (passed, failed) = soak(master, Duration::from_secs(seconds));
    println!("{passed} passed, {failed} failed");
    ExitCode::from(u8::from(failed > 0))
}

fn seed_of_the_clock() -> u64 {
    let since = SystemTime::now().duration_since(SystemTime::UNIX_EPOCH);
    since.map_or(1, |since| since.as_nanos() as u64)
}

/// Runs lists until the time is over. Answers how many agreed and how many did not.
fn soak(master: u64, length: Duration) -> (u64, u64) {
    let begun = Instant::now();
    let mut shown = begun;
    let mut counts = Counts::default();
    let (mut passed, mut failed) = (0, 0);
    while begun.elapsed() < length && failed < MOST_FAILURES {
        let seed = list_seed(master, passed + failed);
        match all(seed, &mut counts) {
            Ok(()) => passed += 1,
            Err(difference) => {
                failed += 1;
                println!("\n{difference}");
            }
        }
        if shown.elapsed() >= PROGRESS {
            shown = Instant::now();
            let elapsed = begun.elapsed().as_secs();
            print!("\r{elapsed} s, {} lists, {} calls, {failed} failed ", passed + failed, counts.calls);
            let _ = std::io::stdout().flush();
        }
    }
    println!("\n{counts}");
    (passed, failed)
}

fn all(seed: u64, counts: &mut Counts) -> Result<(), Difference> {
    lists::run(&core(), Clean, seed, counts)?;
    damaged::run(&core(), seed, counts)?;
    batches::run(&core(), seed, counts)?;
    lines::run(&core(), seed, counts)?;
    documents::run(&core(), seed, counts)
}
