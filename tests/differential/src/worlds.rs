//! Random starts: models, names, sizes. Acceptable ones, and ways to spoil them.

use crate::call::Start;
use crate::rng::Rng;
use reference::stores::{asset_bytes, observation_words};

pub const NAME: usize = 24;
const END: u64 = 1 << 63;

/// Type names of the field, and some that test comparisons: prefixes of each other, one byte,
/// the longest, the word of a path's second form, both ends of each range of bytes; and some whose elements in a
/// document are not plain.
const NAMES: [&str; 27] = [
    "Device",
    "Axes",
    "Linear",
    "Rotary",
    "Controller",
    "Path",
    "AVAILABILITY",
    "POSITION",
    "EXECUTION",
    "SYSTEM",
    "ASSET_CHANGED",
    "SPINDLE_SPEED",
    "DataItem",
    "Axe",
    "A",
    "_",
    "z9",
    "0",
    "PATH_FEEDRATE_OVERRIDE_1",
    "LINE",
    "AZ_az_09",
    "PATH_FEEDRATE",
    "x9Y",
    "3D_x",
    "__a",
    "__",
    "A_",
];

/// A start that is accepted.
pub fn start(rng: &mut Rng) -> Start {
    let cells = *rng.pick(&[1, 2, 3, 4, 5, 6, 8, 12, 20, 64, 256]);
    let cells = if cells > 20 && rng.percent(70) { 6 } else { cells };
    let names = names(rng, cells);
    let model = model(rng, cells);
    let m = model[1] as usize;
    let n = *rng.pick(&[1, 1, 2, 3, 3, 4, 5, 7, 8, 16, 33, 99, 100, 101, 128]);
    let a = if rng.percent(1) { 128 } else { *rng.pick(&[1, 1, 2, 2, 3, 4, 6]) };
    let b = origin(rng, m as u64);
    let observations = garbage(rng, observation_words(n as usize, m));
    let assets = garbage(rng, asset_bytes(a as usize)).into_iter().map(|word| word as u8).collect();
    Start { model, names, n, a, b, host: time(rng), observations, assets }
}

/// Words that stood there before.
pub fn garbage(rng: &mut Rng, words: usize) -> Vec<u64> {
    let base = rng.word() | 1;
    (1..=words as u64).map(|index| base.wrapping_mul(index)).collect()
}

pub fn time(rng: &mut Rng) -> u64 {
    match rng.below(8) {
        0 => 0,
        1 => u64::MAX,
        2 => rng.word(),
        _ => rng.between(1000, 1100),
    }
}

/// First numbers: 1, small, anywhere, and near the end, so that the numbers run out.
fn origin(rng: &mut Rng, m: u64) -> u64 {
    match rng.weighted(&[30, 30, 8, 22, 10]) {
        0 => 1,
        1 => rng.between(2, 200),
        2 => rng.between(1, END - m),
        3 => END - m - rng.below(80),
        _ => END - m - rng.below(3),
    }
}

pub fn names(rng: &mut Rng, cells: usize) -> Vec<u8> {
    let mut bytes = Vec::with_capacity(cells * NAME);
    for _ in 0..cells {
        bytes.extend_from_slice(&cell(rng.pick(&NAMES).as_bytes()));
    }
    bytes
}

/// A name in its cell.
pub fn cell(name: &[u8]) -> [u8; NAME] {
    let mut cell = [0; NAME];
    cell[..name.len()].copy_from_slice(name);
    cell
}

fn size(rng: &mut Rng) -> u64 {
    match rng.weighted(&[78, 17, 5]) {
        0 => rng.between(1, 6),
        1 => rng.between(1, 64),
        _ => 64,
    }
}

fn model(rng: &mut Rng, cells: usize) -> Vec<u32> {
    let (c, m) = (size(rng), size(rng));
    let cells = cells as u64;
    let mut words = vec![c as u32, m as u32];
    for component in 0..c {
        let parent = if component == 0 { 0 } else { rng.below(component) };
        words.push((parent * 256 + rng.below(cells)) as u32);
    }
    let asset_item = rng.percent(60).then(|| rng.below(m));
    for item in 0..m {
        let category = if asset_item == Some(item) { 3 } else { *rng.pick(&[0, 1, 2, 2, 4]) };
        words.push((category * 65_536 + rng.below(c) * 256 + rng.below(cells)) as u32);
    }
    words
}

/// Breaks a start so that it is refused, mostly.
pub fn spoil(rng: &mut Rng, start: &mut Start) {
    match rng.below(5) {
        0 => spoil_model(rng, &mut start.model),
        1 => spoil_names(rng, &mut start.names),
        2 => spoil_sizes(rng, start),
        3 => {
            let length = spoilt_length(rng, start.observations.len());
            start.observations.resize(length, 7);
        }
        _ => {
            let length = spoilt_length(rng, start.assets.len());
            start.assets.resize(length, 7);
        }
    }
}

fn spoilt_length(rng: &mut Rng, length: usize) -> usize {
    *rng.pick(&[0, 1, 2, 3, 4, length - 1, length + 1, length + 2, 2 * length])
}

fn spoil_sizes(rng: &mut Rng, start: &mut Start) {
    let m = u64::from(start.model[1]);
    match rng.below(3) {
        0 => {
            let n = start.n;
            start.n = *rng.pick(&[0, n - 1, n + 1, 131_073, 131_072, n + (1 << 32), n + (1 << 63), u64::MAX]);
        }
        1 => {
            let a = start.a;
            start.a = *rng.pick(&[0, a - 1, a + 1, 129, a + 256, a + (1 << 32), u64::MAX]);
        }
        _ => start.b = *rng.pick(&[0, END - m + 1, END - m, END, u64::MAX, u64::MAX - m]),
    }
}

/// Breaks one rule of the model words, mostly.
pub fn spoil_model(rng: &mut Rng, words: &mut Vec<u32>) {
    if words.len() < 4 {
        words.push(rng.word() as u32);
        return;
    }
    let c = words[0].clamp(1, 64) as usize;
    let component = 2 + rng.index(c).min(words.len() - 3);
    let item = (2 + c + rng.index(words.len())).min(words.len() - 1);
    match rng.below(14) {
        0 => words[0] = *rng.pick(&[0, 65, 66, u32::MAX, words[0].wrapping_add(1), words[0].wrapping_sub(1)]),
        1 => {
            words[1] = *rng.pick(&[0, 65, 255, u32::MAX, words[1].wrapping_add(1), words[1].wrapping_sub(1)])
        }
        2 => words.truncate(rng.index(words.len() + 1)),
        3 => words.push(0),
        4 => words[2] = words[2].wrapping_add(256),
        // Its own parent, or one above it.
        5 => words[component] = words[component] % 256 + 256 * (component as u32 - 2 + rng.below(2) as u32),
        6 => words[component] = rng.word() as u32,
        7 => words[component] |= 255,
        8 => words[item] |= 255,
        9 | 13 => words[item] = words[item] % 65_536 + 65_536 * *rng.pick(&[3, 3, 4, 5, 5, 5, 256, 65_535]),
        10 => words[item] = words[item] / 65_536 * 65_536 + 256 * c as u32 + words[item] % 256,
        11 => words[item] = rng.word() as u32,
        // A parent beyond the low byte.
        _ => words[component] |= 1 << (16 + rng.below(16)),
    }
}

/// Both sides of every bound of a name's bytes; what else a type might be spelt with; letters and digits with
/// the highest bit set.
const AROUND_NAMES: &[u8] = b"/09:@AZ[^_`az{-.\x20\x7f\x80\xb0\xc1\xfa\xff\x01";

/// Puts one or two of these bytes into one name, at any place of it.
pub fn swap_name_bytes(rng: &mut Rng, bytes: &mut [u8]) {
    let at = rng.index(bytes.len() / NAME) * NAME;
    swap_bytes(rng, &mut bytes[at..at + NAME]);
}

fn swap_bytes(rng: &mut Rng, cell: &mut [u8]) {
    let length = cell.iter().position(|&byte| byte == 0).unwrap_or(NAME).max(1);
    for _ in 0..1 + rng.weighted(&[75, 25]) {
        cell[rng.index(length)] = *rng.pick(AROUND_NAMES);
    }
}

/// Breaks one rule of the name cells, mostly.
pub fn spoil_names(rng: &mut Rng, bytes: &mut Vec<u8>) {
    if bytes.len() < NAME {
        bytes.resize(NAME, b'N');
        return;
    }
    let at = rng.index(bytes.len() / NAME) * NAME;
    match rng.below(9) {
        0 => bytes[at..at + NAME].fill(0),
        // A byte behind the padding.
        1 => {
            bytes[at + 22] = 0;
            bytes[at + 23] = b'x';
        }
        2 => bytes[at] = 0,
        3 => swap_bytes(rng, &mut bytes[at..at + NAME]),
        4 => bytes[at + rng.index(NAME)] = rng.word() as u8,
        5 => {
            let length = rng.index(bytes.len() + 2);
            bytes.resize(length, b'x');
        }
        6 => bytes.resize(257 * NAME, b'x'),
        7 => bytes.truncate(bytes.len() - NAME),
        _ => bytes.extend_from_slice(&[0; NAME]),
    }
}
