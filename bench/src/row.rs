//! A row: one call on both sides, compared, then timed.

use crate::calls::{Answer, Call, Document, Room, Scan};
use crate::clock;
use crate::floor::{self, Floor};
use crate::sides;
use crate::stack;
use crate::stage::Stage;
use reference::Core;
use std::hint::black_box;
use std::ops::Range;

/// What one call costs. Times are nanoseconds, depths bytes.
pub struct Row {
    pub name: String,
    pub core: f64,
    pub reference: f64,
    /// Where the call has to read ring words.
    pub floor: Option<Floor>,
    pub core_stack: usize,
    pub reference_stack: usize,
}

pub fn measure(call: &impl Call, stage: &Stage, rounds: usize) -> Row {
    let (core, reference) = (sides::core(), sides::reference());
    compare(call, stage);
    let (mut left, mut right) = (stage.clone(), stage.clone());
    let core_stack = depth(call, &core, &mut left);
    let reference_stack = depth(call, &reference, &mut right);
    let mut batches: Vec<clock::Batch> = Vec::new();
    let mut core_batch = repeat(call, &core, &mut left);
    let mut reference_batch = repeat(call, &reference, &mut right);
    let mut stepped_batch = passes(floor::stepped, &stage.observations, call.ring_words());
    let mut plain_batch = passes(floor::plain, &stage.observations, call.ring_words());
    batches.push(&mut core_batch);
    batches.push(&mut reference_batch);
    if !call.ring_words().is_empty() {
        batches.push(&mut stepped_batch);
        batches.push(&mut plain_batch);
    }
    let best = clock::best(&mut batches, rounds);
    let floor = best.get(2..4).map(|passes| Floor { stepped: passes[0], plain: passes[1] });
    Row { name: call.name().into(), core: best[0], reference: best[1], floor, core_stack, reference_stack }
}

/// Nanoseconds for the lines of a delivery.
pub struct Scanned {
    pub name: String,
    pub core: f64,
    pub reference: f64,
    /// A pass that only finds their bars.
    pub bars: f64,
}

pub fn measure_scan(scan: &Scan, stage: &Stage, rounds: usize) -> Scanned {
    let (core, reference) = (sides::core(), sides::reference());
    compare(scan, stage);
    let (mut left, mut right) = (stage.clone(), stage.clone());
    let mut core_batch = repeat(scan, &core, &mut left);
    let mut reference_batch = repeat(scan, &reference, &mut right);
    let mut bars_batch = |turns| {
        for turn in 0..turns {
            black_box(scan.find_bars(turn));
        }
    };
    let best = clock::best(&mut [&mut core_batch, &mut reference_batch, &mut bars_batch], rounds);
    Scanned { name: scan.name().into(), core: best[0], reference: best[1], bars: best[2] }
}

/// Nanoseconds for a document.
pub struct Documented {
    pub rows: usize,
    pub bytes: usize,
    pub room: Room,
    pub core: f64,
    pub reference: f64,
    /// A copy of as many bytes.
    pub copy: f64,
}

pub fn measure_document(document: &Document, stage: &Stage, rounds: usize) -> Documented {
    let (core, reference) = (sides::core(), sides::reference());
    compare(document, stage);
    let (mut left, mut right) = (stage.clone(), stage.clone());
    let (from, mut to) = (vec![1u8; document.bytes], vec![0u8; document.bytes]);
    let mut core_batch = repeat(document, &core, &mut left);
    let mut reference_batch = repeat(document, &reference, &mut right);
    let mut copy_batch = |turns| {
        for _ in 0..turns {
            black_box(&mut to).copy_from_slice(black_box(&from));
        }
    };
    let best = clock::best(&mut [&mut core_batch, &mut reference_batch, &mut copy_batch], rounds);
    let Document { rows, bytes, room, .. } = *document;
    Documented { rows, bytes, room, core: best[0], reference: best[1], copy: best[2] }
}

/// Both sides have to answer and write the same, and what the row's name says.
fn compare(call: &impl Call, stage: &Stage) {
    let (mut left, mut right) = (stage.clone(), stage.clone());
    for turn in 0..call.compared() {
        let one = call.run(&sides::core(), &mut left, turn);
        let other = call.run(&sides::reference(), &mut right, turn);
        assert!(call.expects(other), "{}: the reference answers {other:?}", call.name());
        assert_eq!(one, other, "{}: core and reference differ", call.name());
    }
    assert!(left == right, "{}: core and reference leave different stores", call.name());
}

/// Turns go on counting from batch to batch.
fn repeat<'a, C: Core>(call: &'a impl Call, core: &'a C, stage: &'a mut Stage) -> impl FnMut(usize) + 'a {
    let mut turn = 0;
    move |turns| {
        for _ in 0..turns {
            black_box(call.run(core, stage, turn));
            turn += 1;
        }
    }
}

fn depth<C: Core>(call: &impl Call, core: &C, stage: &mut Stage) -> usize {
    let mut answer: Answer = [0; 2];
    stack::depth(&mut || answer = call.run(core, stage, 0))
}

fn passes<'a>(
    pass: fn(&[u64]) -> u64,
    words: &'a [u64],
    ranges: &'a [Range<usize>],
) -> impl FnMut(usize) + 'a {
    move |turns| {
        for _ in 0..turns {
            let words = black_box(words);
            let sums = ranges.iter().map(|range| pass(&words[range.clone()]));
            black_box(sums.fold(0, u64::wrapping_add));
        }
    }
}
