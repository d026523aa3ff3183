//! What stands on a condition item: an entry for each active native code, in the order added, or its
//! newest observation alone where no code is active.

use super::observations::Row;
use crate::faults::{Fault, FaultSet};

/// Entries of an item in each table.
pub const ENTRIES: usize = 8;

/// Bits of a native code, the lowest of a packed condition. Its level and its kind stand above them.
const CODE_BITS: u32 = 24;
const CONDITION_KIND: u64 = 3;

/// Item, kind and level of a packed value; the level is told by all its eight bits.
fn fields<F: FaultSet>(packed: u64, faults: F) -> (u64, u64, u64) {
    let level_bits = if faults.has(Fault::LevelCutShort) { 3 } else { 255 };
    (packed >> 40, packed >> 32 & 255, packed >> CODE_BITS & level_bits)
}

fn code(packed: u64) -> u64 {
    packed & ((1 << CODE_BITS) - 1)
}

/// A Warning or Fault of the item itself.
fn is_active<F: FaultSet>(packed: u64, item: usize, faults: F) -> bool {
    let (of, kind, level) = fields(packed, faults);
    let own = of == item as u64 || faults.has(Fault::OtherItemActive);
    let condition = kind == CONDITION_KIND || (kind != 0 && faults.has(Fault::OtherKindActive));
    own && condition && (level == 1 || level == 2 || (level > 2 && faults.has(Fault::LevelThreeActive)))
}

/// An item's entries as they stand in a table.
#[derive(Clone, Copy)]
pub struct Entries<'a> {
    pub numbers: &'a [u64; ENTRIES],
    pub times: &'a [u64; ENTRIES],
    pub packed: &'a [u64; ENTRIES],
}

impl<'a> Entries<'a> {
    /// Those up to the first whose number is 0. The packed word tells nothing: 0 is an Unavailable.
    pub fn used<F: FaultSet>(&self, faults: F) -> usize {
        let told_by = if faults.has(Fault::UsedByPacked) { self.packed } else { self.numbers };
        told_by.iter().position(|&word| word == 0).unwrap_or(ENTRIES)
    }

    /// How many are used, where they keep their written form for the item.
    pub fn written<F: FaultSet>(&self, item: usize, faults: F) -> Option<usize> {
        let used = self.used(faults);
        let unused = |words: &[u64; ENTRIES], passes: Fault| {
            faults.has(passes) || words[used..].iter().all(|&word| word == 0)
        };
        let tail = unused(self.numbers, Fault::GapsPass)
            && unused(self.times, Fault::UnusedTimesPass)
            && unused(self.packed, Fault::UnusedPackedPass);
        (tail && (used < 2 || self.are_several(used, item, faults))).then_some(used)
    }

    /// Where more than one is used, all are active, each under a code of its own.
    fn are_several<F: FaultSet>(&self, used: usize, item: usize, faults: F) -> bool {
        let packed = &self.packed[..used];
        let active = |&packed: &u64| is_active(packed, item, faults);
        let unique = |at: usize| packed[at + 1..].iter().all(|&other| code(other) != code(packed[at]));
        (packed.iter().all(active) || faults.has(Fault::InactivePass))
            && ((0..used).all(unique) || faults.has(Fault::EqualCodesPass))
    }

    pub fn row(&self, at: usize) -> Row {
        Row { number: self.numbers[at], time: self.times[at], packed: self.packed[at] }
    }

    /// The first so many.
    pub fn rows(self, count: usize) -> impl Iterator<Item = Row> + 'a {
        (0..count).map(move |at| self.row(at))
    }
}

/// What an observation of a condition item does.
enum Change {
    Raises,
    /// One code.
    Clears(u64),
    ClearsAll,
}

impl Change {
    /// Kinds and levels that no value has clear all.
    fn of<F: FaultSet>(packed: u64, faults: F) -> Change {
        let (_, kind, level) = fields(packed, faults);
        match (kind, level, code(packed)) {
            (CONDITION_KIND, 1 | 2, _) => Change::Raises,
            (CONDITION_KIND, 0, code @ 1..) => Change::Clears(code),
            _ => Change::ClearsAll,
        }
    }
}

/// The entries of a condition item on their way through observations.
#[derive(Clone, Copy)]
pub struct Standing {
    /// Active codes. One above ENTRIES where a ninth came up, and no observation changes that.
    active: usize,
    numbers: [u64; ENTRIES],
    times: [u64; ENTRIES],
    packed: [u64; ENTRIES],
}

impl Standing {
    pub const NONE: Standing =
        Standing { active: 0, numbers: [0; ENTRIES], times: [0; ENTRIES], packed: [0; ENTRIES] };

    /// Entries whose form has been tested.
    pub fn of<F: FaultSet>(entries: Entries, item: usize, faults: F) -> Standing {
        let used = entries.used(faults);
        let active = if is_active(entries.packed[0], item, faults) { used } else { 0 };
        let Entries { numbers, times, packed } = entries;
        Standing { active, numbers: *numbers, times: *times, packed: *packed }
    }

    pub fn entries(&self) -> Entries<'_> {
        Entries { numbers: &self.numbers, times: &self.times, packed: &self.packed }
    }

    /// A ninth code came up.
    pub fn is_overfull(&self) -> bool {
        self.active > ENTRIES
    }

    fn find<F: FaultSet>(&self, wanted: u64, faults: F) -> Option<usize> {
        if wanted == 0 && faults.has(Fault::CodeZeroNeverFound) {
            return None;
        }
        self.packed[..self.active].iter().position(|&packed| code(packed) == wanted)
    }

    /// The entry that a Warning or Fault replaces.
    fn find_raised<F: FaultSet>(&self, packed: u64, faults: F) -> Option<usize> {
        if faults.has(Fault::LevelsApart) {
            return self.packed[..self.active].iter().position(|&old| old == packed);
        }
        self.find(code(packed), faults)
    }

    /// Whether an observation of the item says nothing new.
    pub fn is_same<F: FaultSet>(&self, packed: u64, faults: F) -> bool {
        let unavailable = packed >> 40 << 40;
        let alone = self.active == 0;
        let lost = alone && self.packed[0] == unavailable;
        if faults.has(Fault::SameByNewest) {
            let used = self.entries().used(faults);
            return (0..used).max_by_key(|&at| self.numbers[at]).is_some_and(|at| self.packed[at] == packed);
        }
        match Change::of(packed, faults) {
            Change::Raises => self.find_raised(packed, faults).is_some_and(|at| self.packed[at] == packed),
            Change::Clears(_) if faults.has(Fault::UnknownNormalRecorded) => false,
            Change::Clears(_) if lost && faults.has(Fault::NormalAfterUnavailable) => false,
            Change::Clears(code) => self.find(code, faults).is_none(),
            Change::ClearsAll if faults.has(Fault::NormalZeroAlwaysSame) => {
                alone && (lost || packed != unavailable)
            }
            // Unavailable after Unavailable, and Normal after anything else.
            Change::ClearsAll => alone && lost == (packed == unavailable),
        }
    }

    /// Whether a Warning or Fault finds all entries taken by other codes.
    pub fn is_crowded_for<F: FaultSet>(&self, packed: u64, faults: F) -> bool {
        let Change::Raises = Change::of(packed, faults) else {
            return false;
        };
        let most = ENTRIES - usize::from(faults.has(Fault::EighthCrowded));
        let found = self.find_raised(packed, faults).is_some() && !faults.has(Fault::ReplacingCrowded);
        self.active >= most && !found && !faults.has(Fault::NinthPushesOut)
    }

    /// Whether a planted fault takes a repeated level for crowded.
    pub fn is_crowded_before_same<F: FaultSet>(&self, packed: u64, faults: F) -> bool {
        faults.has(Fault::CrowdedBeforeSame)
            && self.active == ENTRIES
            && matches!(Change::of(packed, faults), Change::Raises)
            && self.is_same(packed, faults)
    }

    /// Takes in an observation of the item.
    pub fn step<F: FaultSet>(&mut self, row: Row, faults: F) {
        let change = Change::of(row.packed, faults);
        if self.is_overfull() {
            if faults.has(Fault::NineMended) && matches!(change, Change::ClearsAll) {
                self.stand_alone(row);
            }
            return;
        }
        match change {
            Change::Raises => match self.find_raised(row.packed, faults) {
                Some(at) => self.replace(at, row, faults),
                None => self.push(row, faults),
            },
            Change::Clears(code) if self.active > 0 => self.clear(code, row, faults),
            Change::ClearsAll if self.active > 0 && spared(row.packed, faults) => {
                if row.packed >> 32 & 255 == CONDITION_KIND {
                    self.clear(0, row, faults);
                }
            }
            Change::Clears(_) | Change::ClearsAll => self.stand_alone(row),
        }
    }

    /// Takes an observation that leaves the ring into the checkpoint.
    pub fn leave_ring<F: FaultSet>(&mut self, row: Row, faults: F) {
        if faults.has(Fault::CheckpointNewestOnly) {
            *self = Standing::NONE;
        }
        let raises = matches!(Change::of(row.packed, faults), Change::Raises);
        if raises || !faults.has(Fault::ClearsStayOutOfCheckpoint) {
            self.step(row, faults);
        }
    }

    fn put(&mut self, at: usize, row: Row) {
        self.numbers[at] = row.number;
        self.times[at] = row.time;
        self.packed[at] = row.packed;
    }

    fn replace<F: FaultSet>(&mut self, at: usize, mut row: Row, faults: F) {
        if faults.has(Fault::ReplacedKeepsNumber) {
            row.number = self.numbers[at];
        }
        if faults.has(Fault::ReplacedToEnd) {
            self.remove(at, faults);
            return self.push(row, faults);
        }
        self.put(at, row);
    }

    /// Behind the last active one; the first takes the place of what stood alone.
    fn push<F: FaultSet>(&mut self, row: Row, faults: F) {
        if self.active == ENTRIES && faults.has(Fault::NinthPushesOut) {
            self.remove(0, faults);
        }
        if self.active < ENTRIES {
            self.put(self.active, row);
        }
        self.active += 1;
    }

    /// A code's Normal, while some stand. Where it is the last one the Normal stays in its place.
    fn clear<F: FaultSet>(&mut self, code: u64, row: Row, faults: F) {
        let found = self.find(code, faults);
        if faults.has(Fault::NormalClearsAll) {
            return self.stand_alone(row);
        }
        match found {
            Some(_) if self.active == 1 && faults.has(Fault::LastNormalLeavesNothing) => {
                *self = Standing::NONE;
            }
            Some(_) if self.active == 1 => self.stand_alone(row),
            Some(at) => self.remove(at, faults),
            None => {}
        }
    }

    fn remove<F: FaultSet>(&mut self, at: usize, faults: F) {
        self.active -= 1;
        for words in [&mut self.numbers, &mut self.times, &mut self.packed] {
            if faults.has(Fault::LastFillsGap) {
                words[at] = words[self.active];
                words[self.active] = 0;
            } else {
                words[at..].rotate_left(1);
            }
            if !faults.has(Fault::ClearedEntryStays) {
                words[ENTRIES - 1] = 0;
            }
        }
    }

    fn stand_alone(&mut self, row: Row) {
        *self = Standing::NONE;
        self.put(0, row);
    }

    /// The equal entry under another time: a planted fault.
    pub fn renewed<F: FaultSet>(mut self, packed: u64, time: u64, faults: F) -> Standing {
        let used = self.entries().used(faults);
        if let Some(at) = self.packed[..used].iter().position(|&old| old == packed) {
            self.times[at] = time;
        }
        self
    }
}

/// Whether a planted fault keeps what clears all from doing so.
fn spared<F: FaultSet>(packed: u64, faults: F) -> bool {
    let low = packed % (1 << 40);
    (low == 0 && faults.has(Fault::UnavailableClearsNothing))
        || (low == CONDITION_KIND << 32 && faults.has(Fault::NormalZeroClearsOne))
}
