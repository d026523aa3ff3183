//! Model, names and stores that the calls are measured on.

use crate::calls::RECORDS;
use crate::sides;
use differential::offers::condition;
use differential::rng::Rng;
use differential::worlds::cell;
use reference::stores::{asset_bytes, observation_words};
use reference::{Core, Record};
use std::ops::Range;

pub const HOST: u64 = 1_700_000_000_000;
/// Bytes of every stored body: the longest.
pub const BODY: usize = 510;

/// The sizes of a stage.
#[derive(Clone, Copy, PartialEq)]
pub struct Shape {
    /// Ring places.
    pub n: usize,
    /// Data items.
    pub m: usize,
    /// Name cells.
    pub cells: usize,
    /// Asset cells.
    pub a: usize,
}

impl Shape {
    pub const LARGEST: Shape = Shape { n: 131_072, m: 64, cells: 16, a: 128 };
}

/// What a call works on. The ring is full and has wrapped; the asset cells are full.
#[derive(Clone, PartialEq)]
pub struct Stage {
    pub shape: Shape,
    pub model: Vec<u32>,
    pub names: Vec<u8>,
    pub observations: Vec<u64>,
    pub assets: Vec<u8>,
    pub reply: Vec<u64>,
    /// Words for a delivery.
    pub answers: Vec<u64>,
    /// Room for a line, or for a document.
    pub text: Vec<u8>,
}

/// One observe's item and value.
#[derive(Clone, Copy)]
pub struct Step {
    pub item: u64,
    pub value: u64,
}

impl Stage {
    pub fn new(shape: Shape) -> Stage {
        let mut stage = Stage {
            shape,
            model: model(shape),
            names: names(shape.cells),
            observations: vec![0; observation_words(shape.n, shape.m)],
            assets: vec![0; asset_bytes(shape.a)],
            reply: vec![0; 4 + 3 * shape.n.max(128)],
            answers: vec![0; RECORDS],
            text: vec![0; 64],
        };
        stage.begin();
        stage.fill_ring(steps(shape, shape.n / 4 * 7));
        stage
    }

    /// The same with conditions: about a tenth of what was recorded is of eight items, on each of which eight
    /// codes stand.
    pub fn with_conditions(&self) -> Stage {
        let mut stage = self.clone();
        stage.begin();
        stage.fill_ring(with_conditions(stage.shape, stage.shape.n / 4 * 7));
        stage
    }

    /// The same, but the model's events are discrete items. The stores are such a model's too: of the steps
    /// that filled them none was Same.
    pub fn with_discrete_items(&self) -> Stage {
        let mut stage = self.clone();
        for word in stage.model[ITEMS..].iter_mut().filter(|word| **word / CATEGORY == EVENT) {
            *word += (DISCRETE - EVENT) * CATEGORY;
        }
        stage
    }

    /// The same with so much room for a text.
    pub fn with_room(&self, bytes: usize) -> Stage {
        Stage { text: vec![0; bytes], ..self.clone() }
    }

    pub fn discrete_items(&self) -> impl Iterator<Item = usize> + '_ {
        let items = self.model[ITEMS..].iter().enumerate();
        items.filter(|(_, &word)| word / CATEGORY == DISCRETE).map(|(item, _)| item)
    }

    /// A start, and the assets.
    fn begin(&mut self) {
        let Shape { n, a, .. } = self.shape;
        let Stage { model, names, observations, assets, .. } = self;
        let begun = sides::reference().start(model, names, observations, assets, n as u64, a as u64, 1, HOST);
        assert_eq!(begun, (0, 0));
        self.fill_assets();
    }

    fn fill_assets(&mut self) {
        for number in 0..self.shape.a {
            let Stage { model, names, observations, assets, .. } = self;
            let id = id(number);
            let stored =
                sides::reference().store_asset(model, names, observations, assets, &id, &[7; BODY], HOST);
            assert_eq!(stored, number as u64);
        }
    }

    /// Seven quarters of the ring, so that the oldest half runs over the ring's end.
    fn fill_ring(&mut self, steps: Vec<Step>) {
        for Step { item, value } in steps {
            let Stage { model, names, observations, .. } = self;
            let number = sides::reference().observe(model, names, observations, item, HOST, HOST, value);
            assert!((1..1 << 63).contains(&number));
        }
    }

    /// The adapter line of an observation.
    pub fn line(&self, record: Record) -> Vec<u8> {
        let Stage { model, names, text, .. } = self;
        let mut text = text.clone();
        let Record { item, time, value } = record;
        let (number, bytes) = sides::reference().write_line(model, names, item, time, value, &mut text);
        assert_eq!(number, 0);
        text.truncate(bytes as usize);
        text
    }

    /// The reply to a sample of so many of the oldest numbers.
    pub fn sampled(&self, count: usize) -> Vec<u64> {
        let Stage { model, names, observations, assets, reply, .. } = self;
        let (text, mut reply) = (format!("/sample?count={count}"), reply.clone());
        let asked =
            sides::reference().request(model, names, observations, assets, text.as_bytes(), &mut reply);
        assert_eq!(asked, (0, count as u64));
        reply.truncate(4 + 3 * count);
        reply
    }

    pub fn last(&self) -> u64 {
        self.observations[3]
    }

    pub fn first(&self) -> u64 {
        self.last() + 1 - self.shape.n as u64
    }

    /// Every number that the ring holds.
    pub fn held(&self) -> Range<u64> {
        self.first()..self.last() + 1
    }

    /// The number in the middle of the ring.
    pub fn middle(&self) -> u64 {
        self.first() + self.shape.n as u64 / 2
    }

    /// Where the packed values of held numbers stand: one run of words or two.
    pub fn packed_words(&self, numbers: Range<u64>) -> Vec<Range<usize>> {
        let n = self.shape.n;
        let base = 4 + n;
        let place = |number: u64| ((number - self.observations[2]) % n as u64) as usize;
        let start = place(numbers.start);
        let count = (numbers.end - numbers.start) as usize;
        let upper = count.min(n - start);
        vec![base + start..base + start + upper, base..base + count - upper]
    }

    /// The same with their times.
    pub fn entry_words(&self, numbers: Range<u64>) -> Vec<Range<usize>> {
        let packed = self.packed_words(numbers);
        let times: Vec<_> =
            packed.iter().map(|run| run.start - self.shape.n..run.end - self.shape.n).collect();
        [times, packed].concat()
    }

    /// The newest value of an item, as observe takes it.
    pub fn latest(&self, item: usize) -> u64 {
        self.standing(item, 0)
    }

    /// The value of one of an item's entries, as observe takes it.
    pub fn standing(&self, item: usize, entry: usize) -> u64 {
        let Shape { n, m, .. } = self.shape;
        self.observations[4 + 2 * n + CODES * (2 * m + item) + entry] % (1 << 40)
    }
}

/// Codes on each of the items that conditions stand on, as many as may.
pub const CODES: usize = 8;

/// The items that conditions stand on, where any do.
pub fn condition_items() -> impl Iterator<Item = usize> {
    (0..8).map(|item| 3 * item + 2)
}

/// Changing values for items in a mixed order. Condition items are left out, and the asset-change item, the
/// last.
pub fn steps(shape: Shape, count: usize) -> Vec<Step> {
    let mut rng = Rng::new(shape.m as u64);
    let items: Vec<u64> = (0..shape.m as u64 - 1).filter(|item| item % 3 != 2).collect();
    let step = |index| {
        let item = *rng.pick(&items);
        Step { item, value: value(item, index as u64 + 1) }
    };
    (0..count).map(step).collect()
}

/// The same with conditions in the place of about a tenth: items and codes in turn, whose levels change from
/// round to round.
fn with_conditions(shape: Shape, count: usize) -> Vec<Step> {
    let mut rng = Rng::new(shape.n as u64);
    let items: Vec<usize> = condition_items().collect();
    let mut steps = steps(shape, count);
    for (turn, step) in steps.iter_mut().filter(|_| rng.percent(10)).enumerate() {
        let (code, round) = (turn / items.len() % CODES, turn / items.len() / CODES);
        let item = items[turn % items.len()] as u64;
        *step = Step { item, value: condition(1 + round as u64 % 2, code as u64 + 1) };
    }
    steps
}

/// A sample or an event, by a running number.
fn value(item: u64, number: u64) -> u64 {
    ((item % 3 + 1) << 32) + number % (1 << 24)
}

/// Ids of twelve bytes that differ in their last.
pub fn id(number: usize) -> Vec<u8> {
    format!("CUTTER-{number:05}").into_bytes()
}

/// An item word is its category times this and the rest.
const CATEGORY: u32 = 65_536;
const EVENT: u32 = 1;
const DISCRETE: u32 = 4;

/// Where the items' words begin in a model.
const ITEMS: usize = 2 + COMPONENTS.len();

/// A machine's components: device, axes with four below them, controller, path.
const COMPONENTS: [u32; 8] = [0, 1, 256 + 2, 256 + 2, 256 + 2, 256 + 3, 4, 6 * 256 + 5];

/// Component types come first; item types are those from the seventh on.
const NAMES: [&str; 16] = [
    "Device",
    "Axes",
    "Linear",
    "Rotary",
    "Controller",
    "Path",
    "AVAILABILITY",
    "POSITION",
    "EXECUTION",
    "SPINDLE_SPEED",
    "PATH_FEEDRATE",
    "TEMPERATURE",
    "LOAD",
    "PROGRAM",
    "SYSTEM",
    "ASSET_CHANGED",
];

/// Samples, events and conditions in turn, the asset-change item last.
fn model(shape: Shape) -> Vec<u32> {
    let mut words = vec![COMPONENTS.len() as u32, shape.m as u32];
    words.extend(COMPONENTS);
    let names = NAMES.len() as u32;
    for item in 0..shape.m as u32 {
        let category = if item + 1 == shape.m as u32 { 3 } else { item % 3 };
        words.push(category * CATEGORY + item % 8 * 256 + 6 + item % (names - 6));
    }
    words
}

/// The names above, then with a number behind them.
fn names(cells: usize) -> Vec<u8> {
    let name = |index: usize| match index / NAMES.len() {
        0 => NAMES[index].to_string(),
        turn => format!("{}_{turn}", NAMES[index % NAMES.len()]),
    };
    (0..cells).flat_map(|index| cell(name(index).as_bytes())).collect()
}
