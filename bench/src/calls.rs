//! The calls that are measured.

use crate::sides;
use crate::stage::{self, Stage, Step, BODY, HOST};
use crate::table::thousands;
use reference::{Core, Record};
use std::hint::black_box;
use std::ops::Range;

/// An answer in two words.
pub type Answer = [u64; 2];

/// A call that can be repeated: every turn costs the same.
pub trait Call {
    fn name(&self) -> &str;

    fn run<C: Core>(&self, core: &C, stage: &mut Stage, turn: usize) -> Answer;

    /// Whether the answer is what the name says.
    fn expects(&self, answer: Answer) -> bool;

    /// Words of the observation store that no answer can do without.
    fn ring_words(&self) -> &[Range<usize>] {
        &[]
    }

    /// Turns that are compared before any are timed.
    fn compared(&self) -> usize {
        300
    }
}

// Observe.

pub struct Observe {
    name: String,
    steps: Vec<Step>,
    /// Or the answer is Same.
    recorded: bool,
}

/// Many steps, so that an item's newest value is never the one that comes round again.
const STEPS: usize = 4096;

pub fn observe_changed(stage: &Stage) -> Observe {
    let name = format!("observe, changed, {} name cells", stage.shape.cells);
    Observe { name, steps: stage::steps(stage.shape, STEPS), recorded: true }
}

pub fn observe_same(stage: &Stage) -> Observe {
    let name = format!("observe, Same, {} name cells", stage.shape.cells);
    let step = |item| Step { item: item as u64, value: stage.latest(item) };
    Observe { name, steps: (0..stage.shape.m - 1).map(step).collect(), recorded: false }
}

/// On a stage with discrete items: each one's newest value once more, which is recorded.
pub fn observe_equal_discrete(stage: &Stage) -> Observe {
    let name = format!("observe, discrete and equal, {} name cells", stage.shape.cells);
    let step = |item| Step { item: item as u64, value: stage.latest(item) };
    Observe { name, steps: stage.discrete_items().map(step).collect(), recorded: true }
}

/// On a stage with conditions: each code that stands, at its other level and back.
pub fn observe_condition(stage: &Stage) -> Observe {
    let name = format!("observe, a condition of eight, {} name cells", stage.shape.cells);
    let items: Vec<usize> = stage::condition_items().collect();
    let mut steps = Vec::new();
    for change in [OTHER_LEVEL, 0] {
        for entry in 0..stage::CODES {
            let step =
                |&item: &usize| Step { item: item as u64, value: stage.standing(item, entry) ^ change };
            steps.extend(items.iter().map(step));
        }
    }
    Observe { name, steps, recorded: true }
}

/// Between Warning, 1, and Fault, 2.
const OTHER_LEVEL: u64 = 3 << 24;

impl Call for Observe {
    fn name(&self) -> &str {
        &self.name
    }

    fn run<C: Core>(&self, core: &C, stage: &mut Stage, turn: usize) -> Answer {
        let Step { item, value } = self.steps[turn % self.steps.len()];
        let Stage { model, names, observations, .. } = black_box(stage);
        [core.observe(model, names, observations, item, HOST, HOST, value), 0]
    }

    fn expects(&self, answer: Answer) -> bool {
        if self.recorded {
            (1..1 << 63).contains(&answer[0])
        } else {
            answer[0] == 0
        }
    }
}

// Deliveries.

/// Observations of a delivery: the most there may be.
pub const RECORDS: usize = 256;

/// The same observations in one call, or in one call each.
pub struct Delivery {
    name: String,
    scans: Vec<Vec<Record>>,
    at_once: bool,
}

pub fn delivery(stage: &Stage) -> Delivery {
    Delivery { name: delivery_name(stage.shape.cells), scans: scans(stage), at_once: true }
}

pub fn one_by_one(stage: &Stage) -> Delivery {
    Delivery { name: one_by_one_name(stage.shape.cells), scans: scans(stage), at_once: false }
}

pub fn delivery_name(cells: usize) -> String {
    format!("delivery of {RECORDS} changed, one batch, {cells} name cells")
}

pub fn one_by_one_name(cells: usize) -> String {
    format!("delivery of {RECORDS} changed, one by one, {cells} name cells")
}

/// The steps of a single observe's row, cut into scans.
fn scans(stage: &Stage) -> Vec<Vec<Record>> {
    let record = |&Step { item, value }: &Step| Record { item, time: HOST, value };
    let steps = stage::steps(stage.shape, STEPS);
    steps.chunks_exact(RECORDS).map(|scan| scan.iter().map(record).collect()).collect()
}

impl Call for Delivery {
    fn name(&self) -> &str {
        &self.name
    }

    /// The number, and how far the last record's word is from the first one's.
    fn run<C: Core>(&self, core: &C, stage: &mut Stage, turn: usize) -> Answer {
        let scan = black_box(&self.scans[turn % self.scans.len()]);
        let Stage { model, names, observations, answers, .. } = black_box(stage);
        let mut number = 0;
        if self.at_once {
            (number, _) = core.observe_batch(model, names, observations, scan, HOST, answers);
        } else {
            for (&Record { item, time, value }, word) in scan.iter().zip(answers.iter_mut()) {
                *word = core.observe(model, names, observations, item, time, HOST, value);
            }
        }
        [number, answers[RECORDS - 1].wrapping_sub(answers[0])]
    }

    /// Every record took a number.
    fn expects(&self, answer: Answer) -> bool {
        answer == [0, RECORDS as u64 - 1]
    }
}

// Lines.

/// Lines that are read or written in turn, each with a stamp.
pub struct Lines {
    name: String,
    records: Vec<Record>,
    lines: Vec<Vec<u8>>,
    read: bool,
}

impl Lines {
    /// The lines of some steps, a second apart, once to be read and once to be written.
    fn both(stage: &Stage, kind: &str, steps: impl Iterator<Item = Step>) -> [Lines; 2] {
        let record =
            |(turn, Step { item, value }): (u64, Step)| Record { item, time: HOST + 1000 * turn, value };
        let records: Vec<Record> = (0..).zip(steps).map(record).collect();
        [("read", true), ("written", false)].map(|(done, read)| Lines {
            name: format!("line {done}, {kind}"),
            lines: records.iter().map(|&record| stage.line(record)).collect(),
            records: records.clone(),
            read,
        })
    }
}

/// What rows about lines begin with.
pub const LINE: &str = "line ";

pub fn sample_lines(stage: &Stage) -> [Lines; 2] {
    let samples = |step: &Step| step.value >> 32 == 1;
    Lines::both(stage, "a sample", stage::steps(stage.shape, STEPS).into_iter().filter(samples))
}

pub fn event_lines(stage: &Stage) -> [Lines; 2] {
    let events = |step: &Step| step.value >> 32 == 2;
    Lines::both(stage, "an event", stage::steps(stage.shape, STEPS).into_iter().filter(events))
}

/// On a stage with conditions.
pub fn condition_lines(stage: &Stage) -> [Lines; 2] {
    Lines::both(stage, "a condition", observe_condition(stage).steps.into_iter())
}

/// On a stage with discrete items, of which an equal Unavailable is recorded too.
pub fn unavailable_lines(stage: &Stage) -> [Lines; 2] {
    let unavailable = |item| Step { item: item as u64, value: 0 };
    Lines::both(stage, "UNAVAILABLE", stage.discrete_items().map(unavailable))
}

impl Call for Lines {
    fn name(&self) -> &str {
        &self.name
    }

    fn run<C: Core>(&self, core: &C, stage: &mut Stage, turn: usize) -> Answer {
        let turn = turn % self.lines.len();
        let Stage { model, names, observations, text, .. } = black_box(stage);
        if self.read {
            return [core.read_line(model, names, observations, &self.lines[turn], HOST), 1];
        }
        let Record { item, time, value } = self.records[turn];
        let (number, bytes) = core.write_line(model, names, item, time, value, text);
        [number + 1, bytes]
    }

    /// Recorded, or written.
    fn expects(&self, [word, bytes]: Answer) -> bool {
        (1..1 << 63).contains(&word) && (self.read || (word == 1 && bytes > 24))
    }
}

/// The lines of a delivery, one after the other.
pub struct Scan {
    name: String,
    scans: Vec<Vec<Vec<u8>>>,
}

pub fn scan(stage: &Stage) -> Scan {
    let lines = |scan: Vec<Record>| scan.into_iter().map(|record| stage.line(record)).collect();
    let name = format!("{RECORDS} lines, {} name cells", stage.shape.cells);
    Scan { name, scans: scans(stage).into_iter().map(lines).collect() }
}

impl Scan {
    /// A pass that only finds both bars of each line of a scan: where they stand, added up.
    pub fn find_bars(&self, turn: usize) -> usize {
        let scan = black_box(&self.scans[turn % self.scans.len()]);
        scan.iter().map(|line| bars(line)).sum()
    }
}

#[inline(never)]
fn bars(line: &[u8]) -> usize {
    line.iter().enumerate().filter(|(_, &byte)| byte == b'|').take(2).map(|(at, _)| at).sum()
}

impl Call for Scan {
    fn name(&self) -> &str {
        &self.name
    }

    /// How far the last line's word is from the first one's.
    fn run<C: Core>(&self, core: &C, stage: &mut Stage, turn: usize) -> Answer {
        let scan = black_box(&self.scans[turn % self.scans.len()]);
        let Stage { model, names, observations, answers, .. } = black_box(stage);
        for (line, word) in scan.iter().zip(answers.iter_mut()) {
            *word = core.read_line(model, names, observations, line, HOST);
        }
        [0, answers[RECORDS - 1].wrapping_sub(answers[0])]
    }

    /// Every line took a number.
    fn expects(&self, answer: Answer) -> bool {
        answer == [0, RECORDS as u64 - 1]
    }
}

// Requests.

pub struct Request {
    name: String,
    text: Vec<u8>,
    number: u64,
    rows: u64,
    ring_words: Vec<Range<usize>>,
}

impl Request {
    fn new(name: &str, text: String, number: u64, rows: u64) -> Request {
        Request { name: name.into(), text: text.into_bytes(), number, rows, ring_words: Vec::new() }
    }
}

pub fn sample(stage: &Stage) -> Request {
    let from = stage.middle();
    let text = format!("/sample?from={from}&count=100");
    let ring_words = stage.entry_words(from..from + 100);
    Request { ring_words, ..Request::new("sample of 100, all", text, 0, 100) }
}

const PATH: &str = "//Axes//DataItem[@type=\"POSITION\"]";

pub fn sample_by_path(stage: &Stage) -> Request {
    let from = stage.middle();
    let text = format!("/sample?path={PATH}&from={from}&count=100");
    let ring_words = stage.packed_words(from..from + 100);
    Request { ring_words, ..Request::new("sample of 100, with a path", text, 0, SOME) }
}

/// The longest reply: every number that the ring holds.
pub fn sample_all(stage: &Stage) -> Request {
    let rows = stage.shape.n as u64;
    let text = format!("/sample?count={rows}");
    let ring_words = stage.entry_words(stage.held());
    Request { ring_words, ..Request::new("sample of 131,072, all", text, 0, rows) }
}

pub fn sample_all_by_path(stage: &Stage) -> Request {
    let text = format!("/sample?count={}&path={PATH}", stage.shape.n);
    let ring_words = stage.packed_words(stage.held());
    Request { ring_words, ..Request::new("sample of 131,072, with a path", text, 0, SOME) }
}

/// As many rows as there are, but at least one.
const SOME: u64 = u64::MAX;

pub fn current(stage: &Stage) -> Request {
    Request::new("current", "/current".into(), 0, stage.shape.m as u64)
}

pub fn current_at(stage: &Stage) -> Request {
    let at = stage.middle();
    let ring_words = stage.packed_words(stage.first()..at + 1);
    let text = format!("/current?at={at}");
    Request { ring_words, ..Request::new("current?at, middle of the ring", text, 0, SOME) }
}

/// The longest pass that `at` can ask for.
pub fn current_at_last(stage: &Stage) -> Request {
    let ring_words = stage.packed_words(stage.held());
    let text = format!("/current?at={}", stage.last());
    Request { ring_words, ..Request::new(AT_LAST, text, 0, stage.shape.m as u64) }
}

/// On a stage with conditions: eight items with eight rows each.
pub fn current_conditions(stage: &Stage) -> Request {
    Request { name: CURRENT_CONDITIONS.into(), rows: rows_of_conditions(stage), ..current(stage) }
}

pub fn current_at_conditions(stage: &Stage) -> Request {
    Request { name: AT_CONDITIONS.into(), rows: rows_of_conditions(stage), ..current_at_last(stage) }
}

fn rows_of_conditions(stage: &Stage) -> u64 {
    let further = stage::condition_items().count() * (stage::CODES - 1);
    (stage.shape.m + further) as u64
}

pub const CURRENT_CONDITIONS: &str = "current, eight items with eight conditions";
pub const AT_LAST: &str = "current?at, the last number";
pub const AT_CONDITIONS: &str = "current?at, the last number, a tenth conditions";

pub fn named_assets() -> Request {
    let ids: Vec<_> = [5, 64, 127].map(|number| String::from_utf8(stage::id(number)).expect("ASCII")).into();
    Request::new("asset, three of 128", format!("/asset/{}", ids.join(";")), 0, 3)
}

pub fn all_assets() -> Request {
    Request::new("assets, all 128", "/assets".into(), 0, 128)
}

pub fn refused_text() -> Request {
    Request::new("a refused text", format!("/sample?path={PATH}&from=7&count=100&to=9"), 8, 0)
}

/// From the number that was overwritten last.
pub fn late_sample(stage: &Stage) -> Request {
    let from = stage.first() - 1;
    Request::new("a late sample, with a path", format!("/sample?path={PATH}&from={from}&count=100"), 17, 0)
}

pub fn early_at(stage: &Stage) -> Request {
    Request::new("an early current?at", format!("/current?at={}", stage.last() + 1), 18, 0)
}

impl Call for Request {
    fn name(&self) -> &str {
        &self.name
    }

    fn run<C: Core>(&self, core: &C, stage: &mut Stage, _: usize) -> Answer {
        let Stage { model, names, observations, assets, reply, .. } = black_box(stage);
        let (number, count) = core.request(model, names, observations, assets, black_box(&self.text), reply);
        [number, count]
    }

    fn expects(&self, [number, rows]: Answer) -> bool {
        number == self.number && (rows == self.rows || (self.rows == SOME && rows > 0))
    }

    fn ring_words(&self) -> &[Range<usize>] {
        &self.ring_words
    }
}

// Streams documents.

/// The document of one and the same reply.
pub struct Document {
    name: String,
    reply: Vec<u64>,
    pub rows: usize,
    pub bytes: usize,
    pub room: Room,
}

/// The text that a document is given.
#[derive(Clone, Copy, PartialEq)]
pub enum Room {
    /// As many bytes as the document has.
    Exact,
    /// As many as docs/HOST.md asks a host for, which are enough for any document of these components and rows.
    ForAny,
}

/// A sample's rows without a count, and all that the ring holds.
pub const FEW_ROWS: usize = 100;
pub const MOST_ROWS: usize = 131_072;

/// The most bytes of a document: around all, for each component and for each row.
const AROUND: usize = 495;
const A_COMPONENT: usize = 189;
const A_ROW: usize = 154;

/// The document of a sample of so many rows, and a stage with the room that it takes.
pub fn document(stage: &Stage, rows: usize) -> (Document, Stage) {
    let (document, stage) = document_with_room(stage, rows);
    let stage = stage.with_room(document.bytes);
    (Document { name: name(rows), room: Room::Exact, ..document }, stage)
}

/// The same with the room that a host is to give.
pub fn document_with_room(stage: &Stage, rows: usize) -> (Document, Stage) {
    let (name, reply) = (format!("{}, room for any", name(rows)), stage.sampled(rows));
    let mut document = Document { name, reply, rows, bytes: 0, room: Room::ForAny };
    let components = stage.model[0] as usize;
    let mut stage = stage.with_room(AROUND + A_COMPONENT * components + A_ROW * rows);
    let [number, bytes] = document.run(&sides::reference(), &mut stage, 0);
    assert_eq!(number, 0);
    document.bytes = bytes as usize;
    stage.text.fill(0);
    (document, stage)
}

fn name(rows: usize) -> String {
    format!("streams, {} rows", thousands(rows as u64))
}

impl Call for Document {
    fn name(&self) -> &str {
        &self.name
    }

    fn run<C: Core>(&self, core: &C, stage: &mut Stage, _: usize) -> Answer {
        let Stage { shape, model, names, text, .. } = black_box(stage);
        let (number, bytes) =
            core.streams(model, names, black_box(&self.reply), shape.n as u64, 1, HOST, text);
        [number, bytes]
    }

    fn expects(&self, answer: Answer) -> bool {
        answer == [0, self.bytes as u64]
    }

    /// Each turn is the same, and a long one.
    fn compared(&self) -> usize {
        3
    }
}

// Assets.

pub struct StoreAsset {
    name: &'static str,
    ids: Vec<Vec<u8>>,
    /// Cells in use before each turn, where the turn changes their number.
    used: Option<u8>,
}

/// The upper half of the ids in turn: each stands in the middle cell when its turn comes.
pub fn replace() -> StoreAsset {
    StoreAsset { name: "store-asset, replace in the middle", ids: ids(64..128), used: None }
}

/// Twice as many ids as cells in turn, those that are stored last: each has gone when its turn comes.
pub fn evict() -> StoreAsset {
    StoreAsset { name: "store-asset, evict", ids: ids(128..384), used: None }
}

pub fn append() -> StoreAsset {
    StoreAsset { name: "store-asset, append as the 128th", ids: ids(128..384), used: Some(127) }
}

/// Other bytes than those stored at first.
static NEW_BODY: [u8; BODY] = [9; BODY];

fn ids(numbers: Range<usize>) -> Vec<Vec<u8>> {
    numbers.map(stage::id).collect()
}

impl Call for StoreAsset {
    fn name(&self) -> &str {
        self.name
    }

    fn run<C: Core>(&self, core: &C, stage: &mut Stage, turn: usize) -> Answer {
        let id = &self.ids[turn % self.ids.len()];
        let Stage { model, names, observations, assets, .. } = black_box(stage);
        if let Some(used) = self.used {
            assets[1] = used;
        }
        [core.store_asset(model, names, observations, assets, id, black_box(&NEW_BODY), HOST), 0]
    }

    fn expects(&self, answer: Answer) -> bool {
        answer[0] == 127
    }
}

pub struct Body;

pub fn body() -> Body {
    Body
}

impl Call for Body {
    fn name(&self) -> &str {
        "body, in the middle cell"
    }

    fn run<C: Core>(&self, core: &C, stage: &mut Stage, _: usize) -> Answer {
        let (start, length) = core.body(&black_box(stage).assets, black_box(b"CUTTER-00064"));
        [start, length]
    }

    fn expects(&self, answer: Answer) -> bool {
        answer[1] == BODY as u64
    }
}

// Start.

pub struct Start;

pub fn start() -> Start {
    Start
}

impl Call for Start {
    fn name(&self) -> &str {
        "start"
    }

    fn run<C: Core>(&self, core: &C, stage: &mut Stage, _: usize) -> Answer {
        let Stage { shape, model, names, observations, assets, .. } = black_box(stage);
        let (number, count) =
            core.start(model, names, observations, assets, shape.n as u64, shape.a as u64, 1, HOST);
        [number, count]
    }

    fn expects(&self, answer: Answer) -> bool {
        answer == [0, 0]
    }
}
