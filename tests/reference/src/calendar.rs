//! Dates and times of day of 1970 to 2099, and their milliseconds. Days are counted year by year and
//! month by month, once, into tables.

use crate::faults::{Fault, FaultSet};

const FIRST_YEAR: u64 = 1970;
const LAST_YEAR: u64 = 2099;
const YEARS: usize = (LAST_YEAR - FIRST_YEAR + 1) as usize;

/// The last millisecond of 2099.
pub const LAST_TIME: u64 = 4_102_444_799_999;

const DAY: u64 = 86_400_000;

/// The last time that a stamp may say.
pub fn last_time<F: FaultSet>(faults: F) -> u64 {
    let further = u64::from(faults.has(Fault::TimeBehindLastWritten));
    LAST_TIME + further - u64::from(faults.has(Fault::LastTimeRefused))
}

/// What a stamp's digits say, real or not.
#[derive(Clone, Copy, PartialEq, Eq, Debug)]
pub struct Stamp {
    pub year: u64,
    pub month: u64,
    pub day: u64,
    pub hour: u64,
    pub minute: u64,
    pub second: u64,
    pub thousandth: u64,
}

impl Stamp {
    /// Milliseconds since the beginning of 1970; none where there is no such date or time of day.
    pub fn time<F: FaultSet>(&self, faults: F) -> Option<u64> {
        let Stamp { year, month, day, hour, minute, second, thousandth } = *self;
        let last_year = LAST_YEAR + u64::from(faults.has(Fault::YearBehindLastTaken));
        if !(FIRST_YEAR..=last_year).contains(&year) || !(1..=12).contains(&month) {
            return None;
        }
        let months = before_months(year, faults);
        let (before, behind) = (months[month as usize - 1], months[month as usize]);
        let first_day = u64::from(!faults.has(Fault::DayZeroTaken));
        if day < first_day || day > behind - before {
            return None;
        }
        let last_hour = 23 + u64::from(faults.has(Fault::HourTwentyFourTaken));
        let last_second = 59 + u64::from(faults.has(Fault::SecondSixtyTaken));
        if hour > last_hour || minute > 59 || second > last_second {
            return None;
        }
        // A day 0 of the first January, which a planted fault takes, would lie before time 0.
        let days = (before_year(year, faults) + before + day).saturating_sub(1);
        Some(days * DAY + ((hour * 60 + minute) * 60 + second) * 1000 + thousandth)
    }

    /// The stamp of a time up to the last.
    pub fn of<F: FaultSet>(time: u64, faults: F) -> Stamp {
        let (days, rest) = (time / DAY, time % DAY);
        // Too low by one at most, as years are shorter than 366 days by less than one, 130 times over.
        let mut year = FIRST_YEAR + days / 366;
        year += u64::from(before_year(year + 1, faults) <= days);
        let day = days - before_year(year, faults);
        let months = before_months(year, faults);
        let mut month = (day / 31) as usize;
        month += usize::from(months[month + 1] <= day);
        Stamp {
            year,
            month: month as u64 + 1,
            day: day - months[month] + 1,
            hour: rest / 3_600_000,
            minute: rest / 60_000 % 60,
            second: rest / 1000 % 60,
            thousandth: rest % 1000,
        }
    }
}

/// Days before the first of January, from that of 1970 on.
fn before_year<F: FaultSet>(year: u64, faults: F) -> u64 {
    if faults.has(Fault::LeapDayEveryYear) {
        return (year - FIRST_YEAR) * 366;
    }
    let missed = year > 2000 && faults.has(Fault::NoLeapDayIn2000);
    BEFORE_YEAR[(year - FIRST_YEAR) as usize] - u64::from(missed)
}

/// Days of the year before each month, and before its end.
fn before_months<F: FaultSet>(year: u64, faults: F) -> &'static [u64; 13] {
    let missed = year == 2000 && faults.has(Fault::NoLeapDayIn2000);
    let leap = (is_leap(year) && !missed) || faults.has(Fault::LeapDayEveryYear);
    let tables = if faults.has(Fault::MonthLengthsShifted) { &SHIFTED } else { &BEFORE_MONTH };
    &tables[usize::from(leap)]
}

/// Of 1970 to 2099.
const fn is_leap(year: u64) -> bool {
    year.is_multiple_of(4)
}

const BEFORE_YEAR: [u64; YEARS + 1] = {
    let mut before = [0; YEARS + 1];
    let mut year = 0;
    while year < YEARS {
        before[year + 1] = before[year] + if is_leap(FIRST_YEAR + year as u64) { 366 } else { 365 };
        year += 1;
    }
    before
};

/// Of an ordinary year, and of a leap year.
const BEFORE_MONTH: [[u64; 13]; 2] = [
    added([31, 28, 31, 30, 31, 30, 31, 31, 30, 31, 30, 31]),
    added([31, 29, 31, 30, 31, 30, 31, 31, 30, 31, 30, 31]),
];

/// Each month with the length of the next one, as a planted fault has it.
const SHIFTED: [[u64; 13]; 2] = [
    added([28, 31, 30, 31, 30, 31, 31, 30, 31, 30, 31, 31]),
    added([29, 31, 30, 31, 30, 31, 31, 30, 31, 30, 31, 31]),
];

const fn added(lengths: [u64; 12]) -> [u64; 13] {
    let mut before = [0; 13];
    let mut month = 0;
    while month < 12 {
        before[month + 1] = before[month] + lengths[month];
        month += 1;
    }
    before
}
