//! Values of observations and their words.

/// The level of a condition.
#[derive(Clone, Copy, PartialEq, Eq, Hash, Debug)]
pub enum Level {
    /// Nothing is wrong: with native code 0 at all, with another code no longer with that one.
    Normal,
    /// Something needs attention. Its code is active.
    Warning,
    /// The machine needs help to go on. Its code is active.
    Fault,
}

/// An observation's value.
#[derive(Clone, Copy, PartialEq, Eq, Hash, Debug)]
pub enum Value {
    /// The value is not known. Every item but an asset change takes it, and start gives it to all.
    Unavailable,
    /// A sample, in thousandths of the item's unit: -2,147,483.648 to 2,147,483.647. A finer reading is
    /// rounded by the host, and is Same where the rounded one is. Where a reading can be beyond that range
    /// the item gets a coarser unit; failing that the host observes [`Value::Unavailable`] rather than a
    /// number that was cut off.
    Sample(i32),
    /// An event's code. Texts, as of PROGRAM or MESSAGE, need a table of the host's from codes to texts. The
    /// table outlives the ring: an item's newest value and its last one from before the ring keep a code
    /// that no row of the ring has any more, so a code is never given to another text while the stores live,
    /// and the table is saved with them. A code that repeats is Same, unless the item is
    /// [discrete](crate::Category::Discrete): there each one counts. The code of an asset change item is a
    /// cell.
    Event(u32),
    /// A condition's level with its native code below 2^24; a wider one is refused as
    /// [`Refusal::Kind`](crate::Refusal::Kind). Up to eight codes are active on an item side by side, each at
    /// [`Level::Warning`] or [`Level::Fault`]. [`Level::Normal`] with a code other than 0 clears that one, with
    /// 0 all. What each does, and when it is Same, is told at [`observe`](crate::observe).
    Condition(Level, u32),
}

const CODES: u32 = 1 << 24;
/// A word that no value has; every item refuses it.
const NO_VALUE: u64 = u64::MAX;

impl Value {
    /// kind * 2^32 + low, as the C interface takes it. A native code that does not fit its 24 bits
    /// becomes a word that is refused, so that it cannot pass for another level.
    ///
    /// ```
    /// use mtcore::{Level, Value};
    /// assert_eq!(Value::Unavailable.word(), 0);
    /// assert_eq!(Value::Sample(-1).word(), (1 << 32) + 0xffff_ffff);
    /// assert_eq!(Value::Event(7).word(), (2 << 32) + 7);
    /// assert_eq!(Value::Condition(Level::Fault, 9).word(), (3 << 32) + (2 << 24) + 9);
    /// ```
    pub const fn word(self) -> u64 {
        match self {
            Value::Unavailable => 0,
            Value::Sample(thousandths) => (1 << 32) | thousandths as u32 as u64,
            Value::Event(code) => (2 << 32) | code as u64,
            Value::Condition(_, code) if code >= CODES => NO_VALUE,
            Value::Condition(level, code) => (3 << 32) | (level as u64) << 24 | code as u64,
        }
    }

    /// The value of such a word; none where its kind or its level is none that there is.
    ///
    /// ```
    /// use mtcore::{Level, Value};
    /// for value in [Value::Sample(-1), Value::Event(7), Value::Condition(Level::Warning, 9)] {
    ///     assert_eq!(Value::from_word(value.word()), Some(value));
    /// }
    /// assert_eq!(Value::from_word(9 << 32), None);
    /// ```
    pub const fn from_word(word: u64) -> Option<Value> {
        let low = word as u32;
        match word >> 32 {
            0 if low == 0 => Some(Value::Unavailable),
            1 => Some(Value::Sample(low as i32)),
            2 => Some(Value::Event(low)),
            3 => {
                let level = match low / CODES {
                    0 => Level::Normal,
                    1 => Level::Warning,
                    2 => Level::Fault,
                    _ => return None,
                };
                Some(Value::Condition(level, low % CODES))
            }
            _ => None,
        }
    }
}

#[cfg(test)]
mod tests {
    use super::{Level, Value};

    #[test]
    fn words_come_back() {
        let levels = [Level::Normal, Level::Warning, Level::Fault];
        let conditions =
            levels.into_iter().flat_map(|level| [0, 1, (1 << 24) - 1].map(|c| Value::Condition(level, c)));
        let samples = [i32::MIN, -1, 0, 1, i32::MAX].map(Value::Sample);
        let events = [0, 1, u32::MAX].map(Value::Event);
        for value in conditions.chain(samples).chain(events).chain([Value::Unavailable]) {
            assert_eq!(Value::from_word(value.word()), Some(value));
        }
    }

    #[test]
    fn other_words_are_no_values() {
        for word in
            [1, u32::MAX.into(), (3 << 32) + (3 << 24), 4 << 32, 5 << 32, 255 << 32, 1 << 40, u64::MAX]
        {
            assert_eq!(Value::from_word(word), None, "{word}");
        }
        assert_eq!(Value::from_word(Value::Condition(Level::Warning, 1 << 24).word()), None);
    }
}
