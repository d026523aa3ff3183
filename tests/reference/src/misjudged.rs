//! What planted faults make of a sequence number that a request gives. The two layers judge a number
//! each by itself; here are only the mistakes.

use crate::answer::Refusal;
use crate::faults::{Fault, FaultSet};

/// The lowest number that is not late.
pub fn lowest<F: FaultSet>(first: u64, origin: u64, faults: F) -> u64 {
    if faults.has(Fault::RangeFromOrigin) {
        return origin;
    }
    first + u64::from(faults.has(Fault::FirstLate))
}

/// The start considered where it is moved rather than refused. `end` is last + 1.
pub fn start<F: FaultSet>(from: u64, first: u64, end: u64, count: u64, faults: F) -> u64 {
    let reaches_held = from.saturating_add(count) > first;
    let moved_up =
        faults.has(Fault::OverwrittenStartMoved) || (reaches_held && faults.has(Fault::PartlyLostStartMoved));
    if moved_up {
        return from.max(first);
    }
    if faults.has(Fault::EarlyStartMoved) {
        return from.min(end);
    }
    from
}

/// The number that `at` stands for.
pub fn at<F: FaultSet>(at: u64, first: u64, faults: F) -> u64 {
    if at == 0 && faults.has(Fault::AtZeroAsFirst) {
        return first;
    }
    at
}

/// The refusal of a number; `overwritten` where it was recorded once.
pub fn refusal<F: FaultSet>(refusal: Refusal, overwritten: bool, faults: F) -> Refusal {
    let mistaken = overwritten && faults.has(Fault::OverwrittenEarly);
    let late = refusal == Refusal::Late && !mistaken;
    let late = (late || faults.has(Fault::AllLate)) && !faults.has(Fault::AllEarly);
    if late == faults.has(Fault::LateAndEarlyExchanged) {
        return Refusal::Early;
    }
    Refusal::Late
}

/// The number in an answer. 12 was late and early in one, and no refusal has it any longer.
pub fn number<F: FaultSet>(number: u64, faults: F) -> u64 {
    let late = number == Refusal::Late.number() && faults.has(Fault::LateAsTwelve);
    let early = number == Refusal::Early.number() && faults.has(Fault::EarlyAsTwelve);
    if late || early {
        return 12;
    }
    number
}
