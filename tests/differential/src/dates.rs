//! The tests' own calendar: one day after the other, from the first of 1970 on.

/// A day with the milliseconds before it.
#[derive(Clone, Copy, Debug)]
pub struct Date {
    pub year: u64,
    pub month: u64,
    pub day: u64,
    pub time: u64,
}

impl Date {
    /// The stamp of a time of that day.
    pub fn stamp(&self, hour: u64, minute: u64, second: u64, thousandth: u64) -> String {
        let Date { year, month, day, .. } = self;
        format!("{year:04}-{month:02}-{day:02}T{hour:02}:{minute:02}:{second:02}.{thousandth:03}Z")
    }

    fn next(&self) -> Date {
        let Date { year, month, day, time } = *self;
        let time = time + 24 * 60 * 60 * 1000;
        match (month, day) {
            (12, 31) => Date { year: year + 1, month: 1, day: 1, time },
            _ if day == last_day(year, month) => Date { year, month: month + 1, day: 1, time },
            _ => Date { year, month, day: day + 1, time },
        }
    }
}

/// Of the years from 1970 to 2099.
pub fn last_day(year: u64, month: u64) -> u64 {
    match month {
        4 | 6 | 9 | 11 => 30,
        2 if year.is_multiple_of(4) => 29,
        2 => 28,
        _ => 31,
    }
}

/// Every day up to the last of 2099.
pub fn all() -> impl Iterator<Item = Date> {
    let first = Date { year: 1970, month: 1, day: 1, time: 0 };
    std::iter::successors(Some(first), |date| Some(date.next())).take_while(|date| date.year < 2100)
}
