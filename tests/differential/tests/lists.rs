//! Random lists after a start, and random calls over damaged contents.

use differential::under_test::core;
use differential::{batches, damaged, documents, lines, lists, settings, Counts, Difference};
use reference::Clean;

/// Runs a list for each seed and stops at the first difference.
fn all(lists: u64, run: impl Fn(u64, &mut Counts) -> Result<(), Difference>) -> Counts {
    let mut counts = Counts::default();
    for seed in settings::seeds(lists) {
        if let Err(difference) = run(seed, &mut counts) {
            panic!("{difference}");
        }
    }
    println!("seed {:#x}: {counts}", settings::seed());
    counts
}

#[test]
fn lists_agree_call_by_call() {
    let counts = all(7000, |seed, counts| lists::run(&core(), Clean, seed, counts));
    if std::env::var_os(settings::ONE_LIST).is_none() {
        every_answer_is_met(&counts);
    }
}

/// The lists are worth nothing where they do not reach a case.
fn every_answer_is_met(counts: &Counts) {
    assert!(counts.calls >= 900_000, "{} calls", counts.calls);
    for refusal in [0, 1, 3] {
        assert!(counts.starts[refusal] > 0, "start never answers {refusal}");
    }
    for refusal in [0, 4, 5, 6, 19] {
        assert!(counts.observes[refusal] > 0, "observe never answers {refusal}");
    }
    for refusal in [0, 15, 16] {
        assert!(counts.batches[refusal] > 0, "a delivery never answers {refusal}");
    }
    for refusal in [0, 4, 5, 6, 19] {
        assert!(counts.amid[refusal] > 0, "no record is answered {refusal} behind a recorded one");
    }
    for refusal in [0, 4, 5, 6, 19, 20, 21] {
        assert!(counts.lines[refusal] > 0, "a line is never answered {refusal}");
    }
    for refusal in [0, 4, 5, 15, 21] {
        assert!(counts.written[refusal] > 0, "the writer never answers {refusal}");
    }
    for refusal in [0, 2, 15, 21] {
        let met = counts.documents[refusal];
        assert!(met > counts.calls / RARELY, "a document is answered {refusal} only {met} times: {counts}");
    }
    conditions_are_met(counts);
    for refusal in [0, 6, 14] {
        assert!(counts.stores[refusal] > 0, "store-asset never answers {refusal}");
    }
    for refusal in [0, 7, 8, 9, 10, 11, 13, 15, 17, 18] {
        assert!(counts.requests[refusal] > 0, "request never answers {refusal}");
    }
    late_and_early_are_met(counts);
    for polls in [counts.late_polls, counts.polls_in_time] {
        assert!(polls > counts.calls / RARELY, "{polls} polls from a next number: {counts}");
    }
    assert!(counts.same > 0 && counts.bodies.iter().all(|&met| met > 0));
    assert!(counts.repeats > 0, "no discrete item repeats its value");
    // No list after an accepted start meets a damaged store.
    assert_eq!((counts.observes[2], counts.stores[2], counts.requests[2]), (0, 0, 0));
    assert_eq!((counts.batches[2], counts.records[2], counts.lines[2]), (0, 0, 0));
}

/// One call in so many at least has to be of a kind that a list is about.
const RARELY: u64 = 400;

/// Numbers around both bounds are asked for often, not now and then.
fn late_and_early_are_met(counts: &Counts) {
    for refusal in [17, 18] {
        let met = counts.requests[refusal];
        assert!(met > counts.calls / RARELY, "request answers {refusal} only {met} times: {counts}");
    }
}

/// Codes come up, change their level and go in every way; as many stand as may and one more is refused; a
/// snapshot at every held number is compared, also where what stands has left the ring.
fn conditions_are_met(counts: &Counts) {
    let crowded = counts.observes[19] + counts.records[19];
    let met = counts.conditions.each().into_iter().chain([("codes too many", crowded)]);
    for (what, met) in met {
        assert!(met > counts.calls / RARELY, "{met} {what}: {counts}");
    }
    assert!(counts.conditions.snapshots > counts.calls / 10, "too few snapshots: {counts}");
}

#[test]
fn damaged_contents_get_the_same_answers() {
    let counts = all(4000, |seed, counts| damaged::run(&core(), seed, counts));
    if settings::tracing() {
        return;
    }
    for table in [&counts.observes, &counts.batches, &counts.lines, &counts.stores, &counts.requests] {
        assert!(table[1] > 0 && table[2] > 0, "damage is never noticed");
    }
    assert!(counts.written[1] > 0 && counts.documents[1] > 0, "a writer never notices a damaged model");
    late_and_early_are_met(&counts);
    assert!(counts.observes[19] > 0, "no code is too many");
    for refusal in [2, 6, 19] {
        assert!(counts.amid[refusal] > 0, "no record is answered {refusal} behind a recorded one");
    }
}

/// Against the core itself: the same words and stores by one delivery and by its single observes.
#[test]
fn a_delivery_is_its_single_observes() {
    let counts = all(2000, |seed, counts| batches::run(&core(), seed, counts));
    if settings::tracing() {
        return;
    }
    for refusal in [0, 2, 15, 16] {
        assert!(counts.batches[refusal] > 0, "a delivery never answers {refusal}");
    }
    for refusal in [0, 2, 4, 5, 6, 19] {
        assert!(counts.amid[refusal] > 0, "no record is answered {refusal} behind a recorded one");
    }
}

/// Against the core itself: the same word and store by a line and by the observe of its reading, and what is
/// written reads to what it was written for.
#[test]
fn a_line_is_the_observe_of_its_reading() {
    let counts = all(4000, |seed, counts| lines::run(&core(), seed, counts));
    if settings::tracing() {
        return;
    }
    for refusal in [0, 2, 4, 5, 6, 19, 20, 21] {
        assert!(counts.lines[refusal] > 0, "a line is never answered {refusal}");
    }
    assert!(counts.lines[0] > counts.calls / 4, "too few lines are read: {counts}");
    assert!(counts.written[0] > counts.calls / 20, "too few lines are written: {counts}");
}

/// Against the core itself: what is read from a document is the reply that it was made of, and what is refused is
/// refused by the rules.
#[test]
fn a_document_gives_back_its_rows() {
    let counts = all(4000, |seed, counts| documents::run(&core(), seed, counts));
    if settings::tracing() {
        return;
    }
    for refusal in [0, 2, 21] {
        let met = counts.documents[refusal];
        assert!(met > counts.calls / 10, "a document is answered {refusal} only {met} times: {counts}");
    }
}

/// Fewer lists, with every slice against a page that may not be touched.
#[cfg(target_os = "linux")]
#[test]
fn nothing_outside_a_slice_is_touched() {
    let core = differential::fenced::Fenced::new(core());
    all(600, |seed, counts| {
        lists::run(&core, Clean, seed, counts)?;
        damaged::run(&core, seed, counts)?;
        batches::run(&core, seed, counts)?;
        lines::run(&core, seed, counts)?;
        documents::run(&core, seed, counts)
    });
}
