//! An adapter line: from bytes to what it says.

use crate::answer::Refusal;
use crate::calendar::Stamp;
use crate::faults::{Fault, FaultSet};
use crate::model::{Model, CONDITION, DISCRETE};
use crate::value::{Level, Value, CODES};

/// Digits of an item, a code, or a number before its point.
const MOST_DIGITS: usize = 10;

/// A well-formed line. Whether its date is a real one and what its value means is still open: that
/// depends on the calendar and on the item's category.
#[derive(Clone, Copy, PartialEq, Eq, Debug)]
pub struct Line {
    stamp: Option<Stamp>,
    item: u64,
    said: Said,
}

/// The value's text.
#[derive(Clone, Copy, PartialEq, Eq, Debug)]
enum Said {
    Unavailable,
    Number(Decimal),
    Condition(Level, u64),
}

#[derive(Clone, Copy, PartialEq, Eq, Debug)]
struct Decimal {
    negative: bool,
    whole: u64,
    /// Where there is a point.
    thousandths: Option<u64>,
}

impl Line {
    /// The time that the stamp gives, 0 where it is empty; none where there is no such date.
    pub fn time<F: FaultSet>(&self, faults: F) -> Option<u64> {
        self.stamp.map_or(Some(0), |stamp| stamp.time(faults))
    }

    /// The item, however large.
    pub fn item<F: FaultSet>(&self, faults: F) -> u64 {
        if faults.has(Fault::LineItemCut) {
            return self.item % (1 << 32);
        }
        self.item
    }

    /// What the value says of an item of the category. A text of another category's form, or a number
    /// that is too large, becomes the value that every item refuses.
    pub fn value<F: FaultSet>(&self, category: u32, faults: F) -> Value {
        let value = match (category, self.said) {
            (_, Said::Unavailable) => Some(Value::Unavailable),
            (0, Said::Number(number)) => number.in_thousandths(faults).map(Value::Sample),
            (1 | DISCRETE, Said::Number(number)) => number.as_code(faults).map(Value::Event),
            (CONDITION, Said::Condition(level, code)) => native(level, code, faults),
            _ => None,
        };
        value.unwrap_or(Value::NONE)
    }

    /// The host's time for this line. Only planted faults lose it.
    pub fn host<F: FaultSet>(&self, host: u64, faults: F) -> u64 {
        let lost = match self.stamp {
            None => faults.has(Fault::EmptyStampKept),
            Some(_) => faults.has(Fault::EpochStampKept),
        };
        if lost {
            0
        } else {
            host
        }
    }

    /// Whether the value's text has the form of the category's own values.
    fn has_form_of(&self, category: u32) -> bool {
        match self.said {
            Said::Unavailable => true,
            Said::Number(_) => matches!(category, 0 | 1 | DISCRETE),
            Said::Condition(..) => category == CONDITION,
        }
    }
}

/// A level with its native code, where the code has room.
fn native<F: FaultSet>(level: Level, code: u64, faults: F) -> Option<Value> {
    if faults.has(Fault::WideCodeSpills) && code <= u64::from(u32::MAX) {
        return Some(Value::decode((3 << 32) + ((level as u64) << 24) + code));
    }
    let lost = level == Level::Normal && faults.has(Fault::NormalLosesCode);
    let code = u32::try_from(code).ok().filter(|&code| code < CODES)?;
    Some(Value::Condition(level, if lost { 0 } else { code }))
}

impl Decimal {
    /// A sample, if it is in range.
    fn in_thousandths<F: FaultSet>(self, faults: F) -> Option<i32> {
        let (whole, behind) = (self.whole as i64 * 1000, self.thousandths.unwrap_or(0) as i64);
        let lost = self.whole == 0 && faults.has(Fault::SignLostBelowOne);
        let sample = match self.negative && !lost {
            true if faults.has(Fault::SignOfWholeOnly) => behind - whole,
            true => -(whole + behind),
            false => whole + behind,
        };
        if faults.has(Fault::SampleWraps) {
            return Some(sample as i32);
        }
        let lowest = faults.has(Fault::LowestSampleRefused) && sample == i64::from(i32::MIN);
        i32::try_from(sample).ok().filter(|_| !lowest)
    }

    /// An event's code: without sign and point, and in range.
    fn as_code<F: FaultSet>(self, faults: F) -> Option<u32> {
        let signed = self.negative && !(self.whole == 0 && faults.has(Fault::NegativeZeroCode));
        let pointed = match self.thousandths {
            None => false,
            Some(behind) => behind != 0 || !faults.has(Fault::PointedCode),
        };
        if signed || pointed {
            return None;
        }
        if faults.has(Fault::CodeWraps) {
            return Some(self.whole as u32);
        }
        u32::try_from(self.whole).ok()
    }
}

/// Faults in the order of a line's refusals.
const OUT_OF_ORDER: [Fault; 5] = [
    Fault::StampBeforeForm,
    Fault::ItemBeforeForm,
    Fault::ItemBeforeStamp,
    Fault::KindBeforeStamp,
    Fault::OtherFormMalformed,
];

/// The refusal that a planted fault gives ahead of its turn.
pub fn refused_early<F: FaultSet>(text: &[u8], model: &Model, faults: F) -> Option<Refusal> {
    if !OUT_OF_ORDER.iter().any(|&fault| faults.has(fault)) {
        return None;
    }
    let items = model.items() as u64;
    let read = read(text, faults);
    let unreal = |line: &Line| line.time(faults).is_none();
    if faults.has(Fault::StampBeforeForm) {
        let stamp = front(text).and_then(|(stamp, _)| stamp);
        return stamp.filter(|stamp| stamp.time(faults).is_none()).map(|_| Refusal::Stamp);
    }
    if faults.has(Fault::ItemBeforeForm) {
        let item = front(text).and_then(|(_, rest)| cut(rest)).and_then(|(item, _)| number(item, faults));
        return item.filter(|&item| item >= items && read.is_none()).map(|_| Refusal::Item);
    }
    let line = read?;
    if line.item >= items {
        return (faults.has(Fault::ItemBeforeStamp) && unreal(&line)).then_some(Refusal::Item);
    }
    let category = model.category(line.item as usize);
    let refused = !line.value(category, faults).allowed(category, faults);
    if refused && faults.has(Fault::KindBeforeStamp) {
        return Some(Refusal::Kind);
    }
    let other = faults.has(Fault::OtherFormMalformed) && !line.has_form_of(category);
    other.then_some(Refusal::Line)
}

/// `stamp|item|value`, and nothing else.
pub fn read<F: FaultSet>(line: &[u8], faults: F) -> Option<Line> {
    let line = match line {
        [front @ .., b'\r'] if faults.has(Fault::CarriageReturnStripped) => front,
        [front @ .., b' '] if faults.has(Fault::BlankStripped) => front,
        _ => line,
    };
    let (stamp, rest) = front(line)?;
    let (item, rest) = cut(rest)?;
    let third = if faults.has(Fault::ThirdBarTaken) { cut(rest) } else { None };
    let value = third.map_or(rest, |(value, _)| value);
    Some(Line { stamp, item: number(item, faults)?, said: said(value, faults)? })
}

/// What stands before the first bar, and behind it.
fn cut(text: &[u8]) -> Option<(&[u8], &[u8])> {
    let bar = text.iter().position(|&byte| byte == b'|')?;
    Some((&text[..bar], &text[bar + 1..]))
}

/// The stamp, none where it is empty, and what stands behind its bar.
fn front(line: &[u8]) -> Option<(Option<Stamp>, &[u8])> {
    if let [b'|', rest @ ..] = line {
        return Some((None, rest));
    }
    let (stamp, rest) = line.split_first_chunk()?;
    Some((Some(fields(stamp)?), rest.strip_prefix(b"|")?))
}

/// `dddd-dd-ddTdd:dd:dd.dddZ`, d a digit.
fn fields(stamp: &[u8; 24]) -> Option<Stamp> {
    let [year @ .., b'-', m, n, b'-', d, e, b'T', h, i, b':', j, k, b':', s, t, b'.', x, y, z, b'Z'] = stamp
    else {
        return None;
    };
    let pair = |tens: u8, ones: u8| digits(&[tens, ones]);
    Some(Stamp {
        year: digits(year)?,
        month: pair(*m, *n)?,
        day: pair(*d, *e)?,
        hour: pair(*h, *i)?,
        minute: pair(*j, *k)?,
        second: pair(*s, *t)?,
        thousandth: digits(&[*x, *y, *z])?,
    })
}

fn said<F: FaultSet>(text: &[u8], faults: F) -> Option<Said> {
    let lower = faults.has(Fault::LowerCaseTaken).then(|| text.to_ascii_uppercase());
    let text = lower.as_deref().unwrap_or(text);
    match text.first()? {
        b'U' => (text == b"UNAVAILABLE").then_some(Said::Unavailable),
        b'N' if text == b"NORMAL" && faults.has(Fault::BareNormalTaken) => {
            Some(Said::Condition(Level::Normal, 0))
        }
        b'N' => condition(Level::Normal, text.strip_prefix(b"NORMAL:")?, faults),
        b'W' => condition(Level::Warning, text.strip_prefix(b"WARNING:")?, faults),
        b'F' => condition(Level::Fault, text.strip_prefix(b"FAULT:")?, faults),
        _ => decimal(text, faults).map(Said::Number),
    }
}

fn condition<F: FaultSet>(level: Level, code: &[u8], faults: F) -> Option<Said> {
    Some(Said::Condition(level, number(code, faults)?))
}

/// `-` or none, 1 to 10 digits, and with a point 1 to 3 behind it.
fn decimal<F: FaultSet>(text: &[u8], faults: F) -> Option<Decimal> {
    let (negative, text) = match text {
        [b'-', rest @ ..] => (true, rest),
        [b'+', rest @ ..] if faults.has(Fault::PlusTaken) => (false, rest),
        _ => (false, text),
    };
    let Some(point) = text.iter().position(|&byte| byte == b'.') else {
        return Some(Decimal { negative, whole: number(text, faults)?, thousandths: None });
    };
    let (before, behind) = (&text[..point], &text[point + 1..]);
    let whole = match before {
        [] if faults.has(Fault::NothingBeforePointTaken) => 0,
        _ => number(before, faults)?,
    };
    let thousandths = match behind {
        [] if faults.has(Fault::NothingBehindPointTaken) => 0,
        [front @ .., b'0'..=b'9'] if front.len() == 3 && faults.has(Fault::FourDecimalsTaken) => {
            thousandths(front, faults)?
        }
        _ => thousandths(behind, faults)?,
    };
    if faults.has(Fault::PointOverlooked) {
        return Some(Decimal { negative, whole: digits(&[before, behind].concat())?, thousandths: Some(0) });
    }
    Some(Decimal { negative, whole, thousandths: Some(thousandths) })
}

/// 1 to 3 digits behind a point.
fn thousandths<F: FaultSet>(text: &[u8], faults: F) -> Option<u64> {
    if !(1..=3).contains(&text.len()) {
        return None;
    }
    let number = digits(text)?;
    if faults.has(Fault::ThousandthsUnscaled) {
        return Some(number);
    }
    let counted = if faults.has(Fault::ZerosBehindPointDropped) { digits_of(number) } else { text.len() };
    Some(number * [100, 10, 1][counted - 1])
}

/// How many digits a number has.
pub fn digits_of(number: u64) -> usize {
    number.checked_ilog10().unwrap_or(0) as usize + 1
}

/// 1 to 10 digits, leading zeros counted.
fn number<F: FaultSet>(text: &[u8], faults: F) -> Option<u64> {
    let bare = text.strip_prefix(b"0").filter(|_| faults.has(Fault::LineZeroUncounted));
    let counted = bare.unwrap_or(text).len();
    let most = MOST_DIGITS + usize::from(faults.has(Fault::ElevenDigitsTaken));
    if text.is_empty() || counted > most {
        return None;
    }
    digits(text)
}

/// The number of some digits, few enough for a word.
fn digits(text: &[u8]) -> Option<u64> {
    text.iter().try_fold(0, |number, byte| match byte {
        b'0'..=b'9' => Some(10 * number + u64::from(byte - b'0')),
        _ => None,
    })
}
