//! Deliveries: their records, and their answers taken apart.

use crate::{Observed, Refusal, Value};

/// One observation of a delivery, `mtcore_record` of the C header: what [`observe`](crate::observe) takes
/// for one, but for the host's time.
#[derive(Clone, Copy, PartialEq, Eq, Hash, Debug)]
#[repr(C)]
pub struct Record {
    /// The item.
    pub item: u64,
    /// The source's time in milliseconds since 1970-01-01T00:00:00Z; 0 where it gave none.
    pub time: u64,
    /// The value's word, see [`Value::word`]. Any word may stand here: one that no value has is answered
    /// with [`Refusal::Kind`].
    pub value: u64,
}

impl Record {
    /// A record of a value.
    ///
    /// ```
    /// use mtcore::{Record, Value};
    /// let record = Record::new(3, 1010, Value::Event(7));
    /// assert_eq!(record, Record { item: 3, time: 1010, value: (2 << 32) + 7 });
    /// ```
    pub const fn new(item: u64, time: u64, value: Value) -> Record {
        Record { item, time, value: value.word() }
    }
}

/// The answers of an accepted delivery, one for each record and in the records' order.
///
/// ```
/// use mtcore::{Answers, Observed, Refusal};
/// let answers = Answers::read(&[8, 0, (1 << 63) + 4]);
/// assert_eq!(answers.get(0), Some(Ok(Observed::Recorded(8))));
/// assert_eq!(answers.get(1), Some(Ok(Observed::Same)));
/// assert_eq!(answers.get(2), Some(Err(Refusal::Item)));
/// assert_eq!(answers.get(3), None);
/// let refused = answers.iter().zip(1..).find(|(answer, _)| answer.is_err());
/// assert_eq!(refused.map(|(_, record)| record), Some(3));
/// ```
#[derive(Clone, Copy, PartialEq, Eq, Debug)]
pub struct Answers<'a> {
    words: &'a [u64],
}

impl<'a> Answers<'a> {
    /// Answers from their words, for whoever has kept these: of a delivery's buffer as many as there were
    /// records.
    pub const fn read(words: &'a [u64]) -> Answers<'a> {
        Answers { words }
    }

    /// The words, as the core gave them.
    pub const fn words(&self) -> &'a [u64] {
        self.words
    }

    /// How many there are: one for each record.
    pub const fn len(&self) -> usize {
        self.words.len()
    }

    /// Whether there are none.
    pub const fn is_empty(&self) -> bool {
        self.words.is_empty()
    }

    /// The answer of the record at a place, counted from 0.
    pub fn get(&self, place: usize) -> Option<Result<Observed, Refusal>> {
        self.words.get(place).copied().map(Observed::from_word)
    }

    /// The answers, in the records' order.
    pub fn iter(&self) -> impl ExactSizeIterator<Item = Result<Observed, Refusal>> + 'a {
        self.words.iter().copied().map(Observed::from_word)
    }
}

#[cfg(test)]
mod tests {
    use super::{Answers, Record};
    use crate::{Observed, Refusal, Value};
    use core::mem::offset_of;
    use std::vec::Vec;

    /// A record is three words in memory, as the C header has it.
    #[test]
    fn records_are_three_words() {
        assert_eq!((size_of::<Record>(), align_of::<Record>()), (24, align_of::<u64>()));
        let places = [offset_of!(Record, item), offset_of!(Record, time), offset_of!(Record, value)];
        assert_eq!(places, [0, 8, 16]);
        let record = Record::new(1, 2, Value::Sample(-1));
        assert_eq!([record.item, record.time, record.value], [1, 2, Value::Sample(-1).word()]);
    }

    #[test]
    fn answers_one_by_one_and_all() {
        let words = [1, 0, (1 << 63) + 5, (1 << 63) - 1];
        let read = Answers::read(&words);
        let all: Vec<_> = read.iter().collect();
        let last = Observed::Recorded((1 << 63) - 1);
        assert_eq!(all, [Ok(Observed::Recorded(1)), Ok(Observed::Same), Err(Refusal::Kind), Ok(last)]);
        assert_eq!((0..5).map_while(|place| read.get(place)).collect::<Vec<_>>(), all);
        assert_eq!((read.len(), read.iter().len(), read.words()), (4, 4, &words[..]));
        assert!(!read.is_empty() && Answers::read(&[]).is_empty());
    }
}
