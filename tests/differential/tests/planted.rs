//! The test of the tests: the same random lists tell every planted fault apart.

use differential::hidden::Hidden;
use differential::trespass::{Trespass, Trespasser};
use differential::{damaged, documents, lists, rng, settings, Counts, Difference};
use reference::faults::Layer;
use reference::{Clean, Fault, FaultSet, Faults, Stores};

/// Lists tried before a fault counts as missed.
const MOST_LISTS: u64 = 3000;

/// The calls made until the lists told a fault apart.
fn told_apart(mut run: impl FnMut(u64, &mut Counts) -> Result<(), Difference>) -> Option<u64> {
    let master = settings::seed();
    let mut counts = Counts::default();
    (0..MOST_LISTS)
        .find(|&list| run(rng::list_seed(master, list), &mut counts).is_err())
        .map(|_| counts.calls)
}

/// Reports each fault and fails where one was missed.
fn report(faults: &[Fault], search: impl Fn(Fault) -> Option<u64>) {
    let mut missed = Vec::new();
    for &fault in faults {
        match search(fault) {
            Some(calls) => println!("{fault:?}: told apart after {calls} calls"),
            None => missed.push(fault),
        }
    }
    assert!(missed.is_empty(), "never told apart: {missed:?}");
}

#[test]
fn faults_in_the_core_are_told_apart() {
    assert!(Fault::ALL.len() >= 20);
    report(Fault::ALL, |fault| {
        let core = Stores::new(Faults::from(fault));
        told_apart(|seed, counts| {
            lists::run(&core, Clean, seed, counts)?;
            damaged::run(&core, seed, counts)
        })
    });
}

/// Faults of the stores that clients come to see. The others show in the stores alone, or where
/// they are damaged.
const SEEN_BY_CLIENTS: [Fault; 19] = [
    Fault::SameRenewsTime,
    Fault::CheckpointNotUpdated,
    Fault::CheckpointWrittenOnce,
    Fault::CheckpointOfNewItem,
    Fault::CheckpointWithNewNumber,
    Fault::RingPlaceAfterWrap,
    Fault::StartWithoutCheckpoint,
    Fault::StoredThoughSpent,
    Fault::BodyByPaddedId,
    Fault::SameBeforeBatch,
    Fault::RepeatLeavesLatest,
    Fault::LateAsTwelve,
    Fault::EarlyAsTwelve,
    Fault::CodeZeroNeverFound,
    Fault::LastFillsGap,
    Fault::ClearedEntryStays,
    Fault::CheckpointNewestOnly,
    Fault::ClearsStayOutOfCheckpoint,
    Fault::UsedByPacked,
];

#[test]
fn faults_are_told_apart_by_answers_alone() {
    let both = Fault::ALL.iter().copied().filter(|fault| fault.layer() == Layer::Both);
    let seen: Vec<Fault> = both.chain(SEEN_BY_CLIENTS).collect();
    report(&seen, |fault| {
        let core = Hidden::new(fault.into());
        told_apart(|seed, counts| lists::run(&core, Clean, seed, counts))
    });
}

#[test]
fn faults_in_the_machine_are_told_apart() {
    let both: Vec<Fault> = Fault::ALL.iter().copied().filter(|fault| fault.layer() == Layer::Both).collect();
    report(&both, |fault| {
        told_apart(|seed, counts| lists::run(&Stores::new(Clean), Faults::from(fault), seed, counts))
    });
}

/// Faults of documents that what is read from them doesn't show: of the room, of the bytes around the document, and of
/// the order among refusals where there is room, or where the model is right.
const UNREAD: [Fault; 9] = [
    Fault::ReplyBeforeModel,
    Fault::RoomBeforeStamp,
    Fault::RoomBeforeReply,
    Fault::EmptyStreamsInFull,
    Fault::ExactDocumentRefused,
    Fault::DocumentTailCleared,
    Fault::RefusedDocumentWrites,
    Fault::ShortDocumentCut,
    Fault::LastLineFeedLost,
];

/// The reader of documents and the rules of their refusals need no second implementation beside them.
#[test]
fn faults_of_documents_are_told_apart_by_their_rows() {
    let of_documents = Fault::RowCountWraps as u32..=Fault::LastLineFeedLost as u32;
    let read = |fault: &Fault| of_documents.contains(&(*fault as u32)) && !UNREAD.contains(fault);
    let read: Vec<Fault> = Fault::ALL.iter().copied().filter(read).collect();
    assert!(read.len() >= 40);
    report(&read, |fault| {
        let core = Stores::new(Faults::from(fault));
        told_apart(|seed, counts| documents::run(&core, seed, counts))
    });
}

/// A set holds the faults put in, and no other one.
#[test]
fn each_fault_has_its_place() {
    let mut all = Faults::none();
    for &fault in Fault::ALL {
        assert!(!all.has(fault));
        all = all.with(fault);
        assert!(Fault::ALL.iter().all(|&other| Faults::from(fault).has(other) == (other == fault)));
    }
    assert!(Fault::ALL.iter().all(|&fault| all.has(fault)));
}

#[test]
fn no_fault_no_difference() {
    assert!(Fault::ALL.iter().all(|&fault| !Clean.has(fault) && !Faults::none().has(fault)));
    let core = Stores::new(Faults::none());
    let differs = (0..100).any(|list| {
        let seed = rng::list_seed(settings::seed(), list);
        let mut counts = Counts::default();
        lists::run(&core, Faults::none(), seed, &mut counts).is_err()
            || damaged::run(&core, seed, &mut counts).is_err()
            || documents::run(&core, seed, &mut counts).is_err()
    });
    assert!(!differs);
}

/// Right answers do not help a core that writes where it must not.
#[test]
fn trespasses_are_noticed() {
    for kind in Trespass::ALL {
        let core = Trespasser::new(kind);
        let noticed = told_apart(|seed, counts| lists::run(&core, Clean, seed, counts));
        assert!(noticed.is_some(), "{kind:?} is never noticed");
    }
}
