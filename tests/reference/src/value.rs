//! Values of observations and their packed words.

use crate::faults::{Fault, FaultSet};
use crate::model::{ASSET_CHANGE, CONDITION, DISCRETE};

/// The level of a condition.
#[derive(Clone, Copy, PartialEq, Eq, Debug)]
pub enum Level {
    Normal,
    Warning,
    Fault,
}

/// An observation's value.
#[derive(Clone, Copy, PartialEq, Eq, Debug)]
pub enum Value {
    Unavailable,
    /// Thousandths of the item's unit.
    Sample(i32),
    Event(u32),
    /// A level with its native code.
    Condition(Level, u32),
}

/// Native codes lie below this.
pub const CODES: u32 = 1 << 24;

/// The kind of a packed event, which asset changes are written as too.
pub const EVENT_KIND: u64 = 2;

impl Value {
    pub fn kind(self) -> u64 {
        match self {
            Value::Unavailable => 0,
            Value::Sample(_) => 1,
            Value::Event(_) => EVENT_KIND,
            Value::Condition(..) => 3,
        }
    }

    /// The low 32 bits of a packed value. Only for values that some item takes: a native code
    /// beyond its range would spill into the level.
    pub fn low<F: FaultSet>(self, faults: F) -> u64 {
        match self {
            Value::Unavailable => 0,
            Value::Sample(x) if faults.has(Fault::NegativeSampleAsMagnitude) => u64::from(x.unsigned_abs()),
            // i32 to u32 keeps the bits: it adds 2^32 to a negative number.
            Value::Sample(x) => u64::from(x as u32),
            Value::Event(code) => u64::from(code),
            Value::Condition(level, code) => ((level as u64) << 24) + u64::from(code),
        }
    }

    /// item * 2^40 + kind * 2^32 + low.
    pub fn packed<F: FaultSet>(self, item: u64, faults: F) -> u64 {
        (item << 40) + (self.kind() << 32) + self.low(faults)
    }

    /// Whether observe may write this value for an item of the category.
    pub fn allowed<F: FaultSet>(self, category: u32, faults: F) -> bool {
        match (category, self) {
            // Asset changes are written by store-asset only.
            (ASSET_CHANGE, Value::Unavailable) => faults.has(Fault::AssetItemTakesUnavailable),
            (ASSET_CHANGE, _) => false,
            (DISCRETE, Value::Unavailable) => !faults.has(Fault::DiscreteWithoutUnavailable),
            (_, Value::Unavailable) => true,
            (0, Value::Sample(_)) => true,
            (DISCRETE, Value::Sample(_)) => faults.has(Fault::DiscreteTakesSamples),
            (1 | DISCRETE, Value::Event(_)) => true,
            (CONDITION, Value::Condition(Level::Normal, 1..)) if faults.has(Fault::NormalCodeRefused) => {
                false
            }
            (CONDITION, Value::Condition(_, code)) => code < CODES,
            _ => false,
        }
    }

    /// Whether this value counts even when equal, for an item of the category: it is discrete. Only
    /// planted faults look at the value.
    pub fn counts_when_equal<F: FaultSet>(self, category: u32, faults: F) -> bool {
        if faults.has(Fault::DiscreteByKind) {
            return self.kind() == EVENT_KIND;
        }
        match (category, self) {
            (1, _) => faults.has(Fault::EventsDiscrete),
            (DISCRETE, Value::Unavailable) if faults.has(Fault::DiscreteUnavailableSame) => false,
            (DISCRETE, _) => !faults.has(Fault::DiscreteSame),
            _ => false,
        }
    }

    /// A value from the C interface's word, kind * 2^32 + low. A word that no value has becomes
    /// one that every item refuses.
    pub fn decode(word: u64) -> Value {
        let low = word as u32;
        match word >> 32 {
            0 if low == 0 => Value::Unavailable,
            1 => Value::Sample(low as i32),
            2 => Value::Event(low),
            3 => match low / CODES {
                0 => Value::Condition(Level::Normal, low % CODES),
                1 => Value::Condition(Level::Warning, low % CODES),
                2 => Value::Condition(Level::Fault, low % CODES),
                _ => Value::NONE,
            },
            _ => Value::NONE,
        }
    }

    /// Refused by every item.
    pub const NONE: Value = Value::Condition(Level::Normal, u32::MAX);
}

/// The item of a packed value: all the bits above kind and low.
pub fn item_of(packed: u64) -> u64 {
    packed >> 40
}
