//! Differential tests of the agent core: the same calls to the core under test, the reference's
//! store layer and the machine that forgets nothing, compared call by call.

pub mod batches;
pub mod by_hand;
pub mod call;
pub mod client;
pub mod damaged;
pub mod dates;
pub mod documents;
pub mod entries;
#[cfg(target_os = "linux")]
pub mod fenced;
pub mod fixture;
pub mod guard;
pub mod hidden;
pub mod lines;
pub mod lists;
pub mod offers;
pub mod pair;
pub mod polls;
pub mod rng;
pub mod session;
pub mod settings;
pub mod snapshots;
pub mod texts;
pub mod trespass;
pub mod under_test;
pub mod windows;
pub mod worlds;
pub mod xml;

use call::{Answer, Call};
use snapshots::Conditions;
use std::fmt;

/// Where two implementations part.
#[derive(Clone, Debug)]
pub struct Difference {
    pub seed: u64,
    pub place: String,
    pub what: String,
}

impl fmt::Display for Difference {
    fn fmt(&self, f: &mut fmt::Formatter<'_>) -> fmt::Result {
        writeln!(f, "{}", self.what)?;
        writeln!(f, "  {}", self.place)?;
        write!(f, "  again: {}={:#x}", settings::ONE_LIST, self.seed)
    }
}

/// Answers by refusal number, 0 for accepted ones.
pub type ByRefusal = [u64; 22];

/// What was met, so that a test can tell that its lists reach every case.
#[derive(Clone, Default, Debug)]
pub struct Counts {
    pub calls: u64,
    pub starts: ByRefusal,
    pub observes: ByRefusal,
    pub batches: ByRefusal,
    /// The same for the records of accepted deliveries, and for those behind a recorded one.
    pub records: ByRefusal,
    pub amid: ByRefusal,
    /// Lines read, and lines written.
    pub lines: ByRefusal,
    pub written: ByRefusal,
    pub documents: ByRefusal,
    pub stores: ByRefusal,
    pub requests: ByRefusal,
    pub bodies: [u64; 2],
    pub same: u64,
    /// Values of discrete items that were recorded though equal.
    pub repeats: u64,
    pub rows: u64,
    /// Windows of clients, joined from their polls and checked.
    pub windows: u64,
    /// Polls from a next number that was given: overwritten since, or not.
    pub late_polls: u64,
    pub polls_in_time: u64,
    pub conditions: Conditions,
}

impl Counts {
    pub fn start(&mut self, refusal: u64) {
        self.calls += 1;
        self.starts[refusal as usize] += 1;
    }

    /// `reply` is the buffer that a request or a delivery left.
    pub fn call(&mut self, call: &Call, answer: Answer, reply: &[u64]) {
        self.calls += 1;
        let refusal = answer.refusal() as usize;
        match call {
            Call::Observe { .. } => self.observes[refusal] += 1,
            Call::ObserveBatch { .. } => self.batches[refusal] += 1,
            Call::ReadLine { .. } => self.lines[refusal] += 1,
            Call::WriteLine { .. } => self.written[refusal] += 1,
            Call::Streams { .. } => self.documents[refusal] += 1,
            Call::StoreAsset { .. } => self.stores[refusal] += 1,
            Call::Request { .. } => self.requests[refusal] += 1,
            Call::Body { .. } => self.bodies[usize::from(answer.is_refused())] += 1,
        }
        match (call, answer) {
            (Call::Observe { .. } | Call::ReadLine { .. }, Answer::Word(0)) => self.same += 1,
            (Call::ObserveBatch { .. }, Answer::Pair(0, n)) => self.words(reply, n as usize),
            (Call::Request { .. }, Answer::Pair(0, k)) => self.rows += k,
            _ => {}
        }
    }

    /// The words of an accepted delivery.
    fn words(&mut self, words: &[u64], count: usize) {
        let mut recorded = 0;
        for &word in words.iter().take(count) {
            let refusal = Answer::Word(word).refusal() as usize;
            self.records[refusal] += 1;
            self.amid[refusal] += recorded;
            self.same += u64::from(word == 0);
            recorded |= u64::from(word != 0 && refusal == 0);
        }
    }

    pub fn add(&mut self, other: &Counts) {
        self.calls += other.calls;
        self.same += other.same;
        self.repeats += other.repeats;
        self.rows += other.rows;
        self.windows += other.windows;
        self.late_polls += other.late_polls;
        self.polls_in_time += other.polls_in_time;
        self.conditions.add(&other.conditions);
        let tables = [
            (&mut self.starts[..], &other.starts[..]),
            (&mut self.observes, &other.observes),
            (&mut self.batches, &other.batches),
            (&mut self.records, &other.records),
            (&mut self.amid, &other.amid),
            (&mut self.lines, &other.lines),
            (&mut self.written, &other.written),
            (&mut self.documents, &other.documents),
            (&mut self.stores, &other.stores),
            (&mut self.requests, &other.requests),
            (&mut self.bodies, &other.bodies),
        ];
        for (mine, others) in tables {
            mine.iter_mut().zip(others).for_each(|(a, b)| *a += b);
        }
    }
}

impl fmt::Display for Counts {
    fn fmt(&self, f: &mut fmt::Formatter<'_>) -> fmt::Result {
        let Counts { calls, same, repeats, rows, windows, late_polls, polls_in_time, .. } = self;
        writeln!(f, "{calls} calls, {same} Same, {repeats} repeats, {rows} rows, {windows} joined windows")?;
        writeln!(f, "  polls from a next number: {late_polls} late, {polls_in_time} in time")?;
        writeln!(f, "  conditions: {}", self.conditions)?;
        writeln!(f, "  answers by refusal number, 0 accepted:")?;
        writeln!(f, "  start       {:?}", self.starts)?;
        writeln!(f, "  observe     {:?}", self.observes)?;
        writeln!(f, "  batch       {:?}", self.batches)?;
        writeln!(f, "  its records {:?}", self.records)?;
        writeln!(f, "  read-line   {:?}", self.lines)?;
        writeln!(f, "  write-line  {:?}", self.written)?;
        writeln!(f, "  streams     {:?}", self.documents)?;
        writeln!(f, "  store-asset {:?}", self.stores)?;
        writeln!(f, "  request     {:?}", self.requests)?;
        write!(f, "  body        {:?}", self.bodies)
    }
}
