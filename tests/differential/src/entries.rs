//! Damage to the entries of items, in the latest table or in the checkpoints. Only condition items have
//! a form to break, but the entries of all items are damaged alike.

use crate::offers::{self, condition, CODES};
use crate::rng::Rng;
use crate::worlds;
use reference::value::item_of;

/// Entries of an item in each table.
pub const ENTRIES: usize = 8;

/// A table: where it begins, and how many items it has.
#[derive(Clone, Copy)]
pub struct Table {
    pub base: usize,
    pub m: usize,
}

impl Table {
    /// Words of both tables of m items.
    pub fn words(m: usize) -> usize {
        6 * ENTRIES * m
    }

    /// The latest table of a store with n places.
    pub fn latest(n: usize, m: usize) -> Table {
        Table { base: 4 + 2 * n, m }
    }

    pub fn checkpoint(n: usize, m: usize) -> Table {
        Table { base: 4 + 2 * n + 3 * ENTRIES * m, m }
    }

    /// Where number, time and packed value of an item's entry stand.
    pub fn entry(self, item: usize, entry: usize) -> [usize; 3] {
        [0, 1, 2].map(|column| self.base + ENTRIES * (column * self.m + item) + entry)
    }

    pub fn put(self, words: &mut [u64], item: usize, entry: usize, row: [u64; 3]) {
        for (at, word) in self.entry(item, entry).into_iter().zip(row) {
            words[at] = word;
        }
    }

    /// These rows first, zeros behind them.
    pub fn fill(self, words: &mut [u64], item: usize, rows: &[[u64; 3]]) {
        for entry in 0..ENTRIES {
            self.put(words, item, entry, rows.get(entry).copied().unwrap_or_default());
        }
    }
}

/// Damages an item's entries: a word here or there, or all of them anew.
pub fn damage(rng: &mut Rng, words: &mut [u64], table: Table) {
    let item = rng.index(table.m);
    match rng.weighted(&[33, 18, 24, 5, 20]) {
        0 => damage_word(rng, words, table, item, 0),
        1 => {
            let entry = rng.index(ENTRIES);
            damage_word(rng, words, table, item, entry);
        }
        2 => {
            let mut rows = standing(rng, item, words[3]);
            if rng.percent(60) {
                break_form(rng, &mut rows);
            }
            table.fill(words, item, &rows);
        }
        3 => table.fill(words, item, &[]),
        _ => crowd(rng, words, table),
    }
}

/// Eight codes that no list raises, on an item of the ring: each code there is a ninth. Now and then one is raised by
/// the oldest number, and all are cleared by the newest.
fn crowd(rng: &mut Rng, words: &mut [u64], table: Table) {
    let n = words[0] as usize;
    // Mostly a condition item, where there is one.
    let drawn: Vec<u64> = (0..4).map(|_| words[4 + n + rng.index(n)]).collect();
    let packed = drawn.iter().find(|&packed| packed >> 32 & 255 == 3).unwrap_or(&drawn[0]);
    let item = item_of(*packed) as usize;
    if item >= table.m {
        return;
    }
    let of_item = |value| ((item as u64) << 40) + value;
    let packed = |code| of_item(condition(rng.between(1, 2), code));
    let rows: Vec<[u64; 3]> = (100..108).map(packed).map(|packed| [1, 1000, packed]).collect();
    table.fill(words, item, &rows);
    if n > 1 && rng.percent(40) {
        let held = words[3].wrapping_sub(words[2]);
        let place = |number: u64| 4 + n + (number % n as u64) as usize;
        words[place(held.saturating_sub(n as u64 - 1))] = of_item(condition(1, 1));
        words[place(held)] = of_item(*rng.pick(&[0, condition(0, 0)]));
    }
}

fn damage_word(rng: &mut Rng, words: &mut [u64], table: Table, item: usize, entry: usize) {
    let [number, time, packed] = table.entry(item, entry);
    let (b, last) = (words[2], words[3]);
    match rng.below(4) {
        0 => words[number] = *rng.pick(&[0, 1, b, last, last.wrapping_add(1), u64::MAX]),
        1 => words[time] = worlds::time(rng),
        2 => words[packed] = self::packed(rng, table.m as u64),
        _ => {
            let category = *rng.pick(&[0, 1, 2, 2, 4]);
            words[packed] = ((item as u64) << 40) | (offers::value(rng, category) & ((1 << 40) - 1));
        }
    }
}

/// A packed value of an item that is there, or not; any kind and low bits.
pub fn packed(rng: &mut Rng, m: u64) -> u64 {
    let item =
        *rng.pick(&[0, m - 1, m - 1, m, m, m + 1, 63, 64, 255, 256, 256 + m - 1, 1 << 16, (1 << 24) - 1]);
    (item << 40) | any_value(rng)
}

/// The same of an item that is there.
pub fn packed_there(rng: &mut Rng, m: u64) -> u64 {
    (rng.below(m) << 40) | any_value(rng)
}

/// Kind and low bits: of a value, of a condition at a level that no value has, any.
fn any_value(rng: &mut Rng) -> u64 {
    let word = match rng.below(4) {
        0 => offers::value(rng, 0),
        1 => offers::value(rng, 2),
        2 => condition(*rng.pick(&[0, 1, 2, 3, 4, 128, 255]), *rng.pick(&CODES)),
        _ => rng.word(),
    };
    word & ((1 << 40) - 1)
}

/// Two to eight codes standing, in any order, with numbers that need not rise.
fn standing(rng: &mut Rng, item: usize, last: u64) -> Vec<[u64; 3]> {
    let mut codes = CODES;
    rng.shuffle(&mut codes);
    let used = if rng.percent(50) { ENTRIES } else { rng.between(2, 8) as usize };
    let row = |&code: &u64| {
        let number = *rng.pick(&[1, 2, last, u64::MAX]);
        let packed = ((item as u64) << 40) + condition(rng.between(1, 2), code);
        [number, rng.between(1000, 1100), packed]
    };
    codes[..used].iter().map(row).collect()
}

/// Breaks one clause of the form of two used entries or more.
fn break_form(rng: &mut Rng, rows: &mut Vec<[u64; 3]>) {
    let at = rng.index(rows.len());
    let other = (at + 1) % rows.len();
    match rng.below(6) {
        // Used ones come first.
        0 => rows[at] = [0; 3],
        // Unused ones are all zero.
        1 => {
            rows.truncate(rng.between(0, 7) as usize);
            let mut row = [0; 3];
            row[1 + rng.index(2)] = 1;
            rows.resize(rng.between(rows.len() as u64, 7) as usize, [0; 3]);
            rows.push(row);
        }
        2 => rows[at][0] = 0,
        // All are active: item, kind, level.
        3 => rows[at][2] ^= 1 << rng.between(40, 63),
        4 => rows[at][2] ^= 1 << rng.between(24, 39),
        // Codes differ.
        _ => rows[at][2] = (rows[other][2] & !(3 << 24)) + (rng.between(1, 2) << 24),
    }
}
