//! Observations as the lines that adapters send.

use crate::{Level, Refusal, Value, MAX_ITEMS, MAX_STAMP};
use core::fmt;

const FIRST_YEAR: u64 = 1970;
const DAY: u64 = 86_400_000;

/// An observation that prints as its adapter line, `stamp|item|value`: the bytes are those that
/// [`write_line`](crate::write_line) writes, and [`read_line`](crate::read_line) reads them back.
///
/// It is for whoever has no model and no buffer at hand: an adapter that sends lines, a log, a test. Since
/// it knows no model, it can't tell whether the item takes the value; [`write_line`](crate::write_line)
/// does.
///
/// ```
/// use mtcore::{Level, Line, Refusal, Value};
///
/// let line = Line::new(1, 1_789_365_600_250, Value::Sample(12_500))?;
/// assert_eq!(line.to_string(), "2026-09-14T06:00:00.250Z|1|12.5");
/// // No time of its own: whoever reads the line takes the time at which it comes.
/// assert_eq!(Line::new(2, 0, Value::Event(3))?.to_string(), "|2|3");
/// let fault = Value::Condition(Level::Fault, 504);
/// assert_eq!(Line::new(3, 0, fault)?.to_string(), "|3|FAULT:504");
/// assert_eq!(Line::new(1, 4_102_444_800_000, Value::Unavailable), Err(Refusal::Stamp)); // 2100
/// # Ok::<(), Refusal>(())
/// ```
#[derive(Clone, Copy, PartialEq, Eq, Hash, Debug)]
pub struct Line {
    item: u64,
    time: u64,
    value: Value,
}

impl Line {
    /// The line of an observation.
    ///
    /// # Errors
    ///
    /// In this order: [`Refusal::Item`] for an item that no model has, [`Refusal::Kind`] for a native code
    /// of 2^24 or more, [`Refusal::Stamp`] for a time after 2099.
    pub const fn new(item: u64, time: u64, value: Value) -> Result<Line, Refusal> {
        if item >= MAX_ITEMS as u64 {
            return Err(Refusal::Item);
        }
        if Value::from_word(value.word()).is_none() {
            return Err(Refusal::Kind);
        }
        if time > MAX_STAMP {
            return Err(Refusal::Stamp);
        }
        Ok(Line { item, time, value })
    }

    /// The item.
    pub const fn item(&self) -> u64 {
        self.item
    }

    /// The time in milliseconds since 1970-01-01T00:00:00Z; 0 where there is none.
    pub const fn time(&self) -> u64 {
        self.time
    }

    /// The value.
    pub const fn value(&self) -> Value {
        self.value
    }
}

impl fmt::Display for Line {
    fn fmt(&self, f: &mut fmt::Formatter<'_>) -> fmt::Result {
        if self.time != 0 {
            stamp(f, self.time)?;
        }
        write!(f, "|{}|", self.item)?;
        match self.value {
            Value::Unavailable => f.write_str("UNAVAILABLE"),
            Value::Sample(thousandths) => decimal(f, thousandths),
            Value::Event(code) => write!(f, "{code}"),
            Value::Condition(Level::Normal, code) => write!(f, "NORMAL:{code}"),
            Value::Condition(Level::Warning, code) => write!(f, "WARNING:{code}"),
            Value::Condition(Level::Fault, code) => write!(f, "FAULT:{code}"),
        }
    }
}

fn stamp(f: &mut fmt::Formatter<'_>, time: u64) -> fmt::Result {
    let (year, month, day) = date(time / DAY);
    let (hour, minute) = (time / 3_600_000 % 24, time / 60_000 % 60);
    let (second, part) = (time / 1000 % 60, time % 1000);
    write!(f, "{year:04}-{month:02}-{day:02}T{hour:02}:{minute:02}:{second:02}.{part:03}Z")
}

/// Without zeros at the end of the part behind the point, and without a point where it is 0.
fn decimal(f: &mut fmt::Formatter<'_>, thousandths: i32) -> fmt::Result {
    let (sign, magnitude) = (if thousandths < 0 { "-" } else { "" }, thousandths.unsigned_abs());
    write!(f, "{sign}{}", magnitude / 1000)?;
    match magnitude % 1000 {
        0 => Ok(()),
        part if part % 100 == 0 => write!(f, ".{}", part / 100),
        part if part % 10 == 0 => write!(f, ".{:02}", part / 10),
        part => write!(f, ".{part:03}"),
    }
}

/// Every fourth year is a leap year from 1970 to 2099, 2000 too.
const fn days_of(year: u64) -> [u64; 12] {
    let february = if year % 4 == 0 { 29 } else { 28 };
    [31, february, 31, 30, 31, 30, 31, 31, 30, 31, 30, 31]
}

/// Year, month and day, of days since 1970-01-01.
fn date(days: u64) -> (u64, u64, u64) {
    let (mut year, mut rest) = (FIRST_YEAR, days);
    loop {
        for (month, length) in (1..).zip(days_of(year)) {
            if rest < length {
                return (year, month, rest + 1);
            }
            rest -= length;
        }
        year += 1;
    }
}

#[cfg(test)]
mod tests {
    use super::{date, days_of, Line, DAY, FIRST_YEAR};
    use crate::{Level, Refusal, Value, LINE_BYTES, MAX_STAMP};
    use std::string::ToString;

    #[track_caller]
    fn line(item: u64, time: u64, value: Value) -> std::string::String {
        Line::new(item, time, value).unwrap().to_string()
    }

    /// Each day from 1970 to 2099 is behind the one before it, and there are no more.
    #[test]
    fn days_one_behind_the_other() {
        let mut day = 0;
        for year in FIRST_YEAR..2100 {
            for (month, length) in (1..).zip(days_of(year)) {
                for number in 1..=length {
                    assert_eq!(date(day), (year, month, number));
                    day += 1;
                }
            }
        }
        assert_eq!(day * DAY, MAX_STAMP + 1);
    }

    #[test]
    fn stamps_at_their_bounds() {
        let stamps = [
            (1, "1970-01-01T00:00:00.001Z"),
            (951_825_600_000, "2000-02-29T12:00:00.000Z"),
            (1_789_282_800_000, "2026-09-13T07:00:00.000Z"),
            (MAX_STAMP, "2099-12-31T23:59:59.999Z"),
        ];
        for (time, stamp) in stamps {
            let text = line(0, time, Value::Event(0));
            assert_eq!(text.split_once('|'), Some((stamp, "0|0")));
        }
        assert_eq!(line(0, 0, Value::Event(0)), "|0|0");
    }

    #[test]
    fn values_without_needless_digits() {
        let samples = [
            (0, "0"),
            (-1, "-0.001"),
            (10, "0.01"),
            (-500, "-0.5"),
            (5000, "5"),
            (5050, "5.05"),
            (-120_000, "-120"),
            (i32::MAX, "2147483.647"),
            (i32::MIN, "-2147483.648"),
        ];
        for (thousandths, text) in samples {
            assert_eq!(line(9, 0, Value::Sample(thousandths)), std::format!("|9|{text}"));
        }
        assert_eq!(line(10, 0, Value::Event(u32::MAX)), "|10|4294967295");
        assert_eq!(line(63, 0, Value::Condition(Level::Normal, 0)), "|63|NORMAL:0");
        assert_eq!(line(0, 0, Value::Unavailable), "|0|UNAVAILABLE");
    }

    /// The longest line of each kind; one of them fills the room.
    #[test]
    fn no_line_is_longer_than_its_room() {
        let code = (1 << 24) - 1;
        let values = [
            (Value::Unavailable, 11),
            (Value::Sample(i32::MIN), 12),
            (Value::Event(u32::MAX), 10),
            (Value::Condition(Level::Normal, code), 15),
            (Value::Condition(Level::Warning, code), 16),
            (Value::Condition(Level::Fault, code), 14),
        ];
        let longest = values.map(|(value, length)| {
            assert_eq!(line(63, MAX_STAMP, value).len(), 24 + 1 + 2 + 1 + length);
            24 + 1 + 2 + 1 + length
        });
        assert_eq!(longest.into_iter().max(), Some(LINE_BYTES));
    }

    #[test]
    fn lines_that_there_are_not() {
        let wide = Value::Condition(Level::Fault, 1 << 24);
        assert_eq!(Line::new(64, MAX_STAMP + 1, wide), Err(Refusal::Item));
        assert_eq!(Line::new(63, MAX_STAMP + 1, wide), Err(Refusal::Kind));
        assert_eq!(Line::new(63, MAX_STAMP + 1, Value::Unavailable), Err(Refusal::Stamp));
        let right = Line::new(63, MAX_STAMP, Value::Unavailable).unwrap();
        assert_eq!((right.item(), right.time(), right.value()), (63, MAX_STAMP, Value::Unavailable));
    }
}
