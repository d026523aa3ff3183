//! An adapter line, written: the one for an item, a time and a value. Stamps and values are written so in
//! documents too.

use crate::calendar::Stamp;
use crate::faults::{Fault, FaultSet};
use crate::line::digits_of;
use crate::value::{Level, Value};

/// More than the longest line has.
const ROOM: usize = 64;

/// A line as it grows.
pub struct Written {
    bytes: [u8; ROOM],
    length: usize,
}

impl Written {
    /// The line. The time has a stamp, and some item takes the value.
    pub fn line<F: FaultSet>(item: u64, time: u64, value: Value, faults: F) -> Written {
        let mut line = Written::nothing();
        if time != 0 || faults.has(Fault::StampForTimeZero) {
            line.text(&stamp(time, faults));
        }
        line.text(b"|");
        if item < 10 && faults.has(Fault::ItemPadded) {
            line.text(b"0");
        }
        line.number(item);
        line.text(b"|");
        line.value(value, faults);
        line
    }

    /// The value alone. Some item takes it.
    pub fn text_of<F: FaultSet>(value: Value, faults: F) -> Written {
        let mut text = Written::nothing();
        text.value(value, faults);
        text
    }

    fn nothing() -> Written {
        Written { bytes: [0; ROOM], length: 0 }
    }

    pub fn bytes(&self) -> &[u8] {
        &self.bytes[..self.length]
    }

    fn text(&mut self, text: &[u8]) {
        self.bytes[self.length..][..text.len()].copy_from_slice(text);
        self.length += text.len();
    }

    fn number(&mut self, number: u64) {
        let length = digits_of(number);
        digits(&mut self.bytes[self.length..][..length], number);
        self.length += length;
    }

    fn value<F: FaultSet>(&mut self, value: Value, faults: F) {
        match value {
            Value::Unavailable => self.text(b"UNAVAILABLE"),
            Value::Sample(thousandths) => self.decimal(thousandths, faults),
            Value::Event(code) => self.number(u64::from(code)),
            Value::Condition(Level::Normal, 0) if faults.has(Fault::NormalWithoutCode) => {
                self.text(b"NORMAL")
            }
            Value::Condition(level, code) => {
                self.text(match level {
                    Level::Normal => b"NORMAL:",
                    Level::Warning => b"WARNING:",
                    Level::Fault => b"FAULT:",
                });
                self.number(u64::from(code));
            }
        }
    }

    /// Neither a needless zero nor a needless point.
    fn decimal<F: FaultSet>(&mut self, thousandths: i32, faults: F) {
        let magnitude = u64::from(thousandths.unsigned_abs());
        let (whole, behind) = (magnitude / 1000, magnitude % 1000);
        if thousandths < 0 && !(whole == 0 && faults.has(Fault::WrittenSignLost)) {
            self.text(b"-");
        }
        self.number(whole);
        if behind == 0 {
            self.text(if faults.has(Fault::NeedlessPoint) { b".0" } else { b"" });
            return;
        }
        self.text(b".");
        if faults.has(Fault::WrittenZerosLost) {
            self.number(behind);
        } else {
            digits(&mut self.bytes[self.length..][..3], behind);
            self.length += 3;
        }
        while self.bytes[self.length - 1] == b'0' && !faults.has(Fault::TrailingZerosKept) {
            self.length -= 1;
        }
    }
}

/// The stamp of a time up to the last, in full.
pub fn stamp<F: FaultSet>(time: u64, faults: F) -> [u8; 24] {
    let stamp = Stamp::of(time, faults);
    let mut text = *b"0000-00-00T00:00:00.000Z";
    digits(&mut text[..4], stamp.year);
    digits(&mut text[5..7], stamp.month);
    digits(&mut text[8..10], stamp.day);
    digits(&mut text[11..13], stamp.hour);
    digits(&mut text[14..16], stamp.minute);
    digits(&mut text[17..19], stamp.second);
    if !faults.has(Fault::StampToTheSecond) {
        digits(&mut text[20..23], stamp.thousandth);
    }
    text
}

/// The number's digits, with leading zeros to fill the place.
pub fn digits(place: &mut [u8], mut number: u64) {
    for byte in place.iter_mut().rev() {
        *byte = b'0' + (number % 10) as u8;
        number /= 10;
    }
}
