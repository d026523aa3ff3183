//! What observes offer: items, and values in the C interface's words.

use crate::rng::Rng;
use reference::model::{Model, CONDITION};

/// What a list's observes draw from.
pub struct Offers {
    pub categories: Vec<u32>,
    /// A condition item whose codes come and go, so that as many as may stand together.
    storm: Option<u64>,
}

impl Offers {
    pub fn new(rng: &mut Rng, model: &Model) -> Offers {
        let categories: Vec<u32> = (0..model.items()).map(|item| model.category(item)).collect();
        let mut offers = Offers { categories, storm: None };
        let conditions: Vec<usize> = offers.conditions().collect();
        if !conditions.is_empty() && rng.percent(70) {
            offers.storm = Some(*rng.pick(&conditions) as u64);
        }
        offers
    }

    /// The condition items.
    pub fn conditions(&self) -> impl Iterator<Item = usize> + '_ {
        let items = self.categories.iter().enumerate();
        items.filter(|(_, &category)| category == CONDITION).map(|(item, _)| item)
    }

    /// An item and a value's word for it. Some items are not there.
    pub fn draw(&self, rng: &mut Rng) -> (u64, u64) {
        if let (Some(item), true) = (self.storm, rng.percent(50)) {
            return (item, storm_value(rng));
        }
        let m = self.categories.len() as u64;
        let item = match rng.weighted(&[95, 5]) {
            0 => rng.below(m),
            _ => *rng.pick(&[m, m + 1, 64, 255, 256, 1 << 32, 1 << 40, u64::MAX]),
        };
        let category = self.categories.get(item as usize).copied().unwrap_or(0);
        // Other values would end a storm too soon.
        let calm = self.storm != Some(item) || rng.percent(20);
        (item, if calm { value(rng, category) } else { storm_value(rng) })
    }
}

/// More codes than may stand on an item together.
pub const CODES: [u64; 11] = [0, 1, 2, 3, 4, 5, 6, 7, 8, 9, (1 << 24) - 1];

/// The word of a condition.
pub fn condition(level: u64, code: u64) -> u64 {
    (3 << 32) + (level << 24) + code
}

/// Codes are raised and replaced more often than cleared, and seldom all at once.
fn storm_value(rng: &mut Rng) -> u64 {
    let code = *rng.pick(&CODES);
    match rng.weighted(&[78, 15, 2, 2, 3]) {
        0 => condition(rng.between(1, 2), code),
        1 => condition(0, code.max(1)),
        2 => condition(0, 0),
        3 => 0,
        _ => value(rng, 2),
    }
}

/// A pulse: an event that a discrete item repeats.
const PULSE: u64 = (2 << 32) + 1;

/// Words that no value has.
const NO_VALUES: [u64; 7] = [
    1,
    4 << 32,
    (3 << 32) + (3 << 24),
    (3 << 32) + u32::MAX as u64,
    u64::MAX,
    1 << 40,
    (1 << 63) + (1 << 32),
];

const SAMPLES: [u64; 9] = [0, 1, 2, 3, 5000, u32::MAX as u64, 1 << 31, (1 << 31) - 1, u32::MAX as u64 - 1];

/// A value's word: few different ones, so that Same is met; edges; other kinds; no value at all.
pub fn value(rng: &mut Rng, category: u32) -> u64 {
    if category == 4 && rng.percent(60) {
        return *rng.pick(&[0, PULSE, PULSE, PULSE]);
    }
    let kind = match rng.weighted(&[80, 12, 6, 2]) {
        0 if category == 3 => rng.below(3),
        0 if category == 4 => 2,
        0 => u64::from(category) + 1,
        1 => 0,
        2 => rng.below(4),
        _ => return *rng.pick(&NO_VALUES),
    };
    let low = match kind {
        0 => 0,
        1 => *rng.pick(&SAMPLES),
        2 => *rng.pick(&[0, 0, 1, 1, 2, 3, u64::from(u32::MAX), 1 << 24]),
        _ => {
            let level = rng.below(3);
            let code = *rng.pick(&[0, 0, 0, 1, 2, (1 << 24) - 1]);
            (level << 24) + if level == 0 && rng.percent(70) { 0 } else { code }
        }
    };
    (kind << 32) + low
}
