//! Replies taken apart. Nothing is trusted: a buffer that holds no whole reply reads as nothing.

use crate::{reply_words, Value};

const SIZES: usize = 4;

/// An accepted request's reply, of either kind.
#[derive(Clone, Copy, Debug)]
pub enum Reply<'a> {
    /// What `sample` and `current` give.
    Observations(Observations<'a>),
    /// What `/assets` and `/asset/..` give.
    Assets(Assets<'a>),
}

impl<'a> Reply<'a> {
    /// The reply at the front of a buffer, to be read after an accepted request only: a refused one leaves
    /// in the buffer what stood there. The kinds are told apart by the fourth word, which is a number of at
    /// least 1 in a reply of observations, and 0 in one of assets.
    ///
    /// ```
    /// use mtcore::Reply;
    /// assert!(matches!(Reply::read(&[0, 2, 4, 5]), Some(Reply::Observations(_))));
    /// assert!(matches!(Reply::read(&[0, 0, 1, 0]), Some(Reply::Assets(_))));
    /// assert!(Reply::read(&[0; 8]).is_none());
    /// ```
    pub fn read(reply: &'a [u64]) -> Option<Reply<'a>> {
        let observations = Observations::read(reply).map(Reply::Observations);
        observations.or_else(|| Assets::read(reply).map(Reply::Assets))
    }

    /// How many rows there are.
    pub fn len(&self) -> usize {
        match self {
            Reply::Observations(observations) => observations.len(),
            Reply::Assets(assets) => assets.len(),
        }
    }

    /// Whether there are no rows.
    pub fn is_empty(&self) -> bool {
        self.len() == 0
    }
}

/// The reply of an accepted sample or current request.
#[derive(Clone, Copy, Debug)]
pub struct Observations<'a> {
    /// The lowest number the ring holds.
    pub first: u64,
    /// The newest number.
    pub last: u64,
    /// The number that the client's next sample begins at.
    pub next: u64,
    words: &'a [u64],
    numbers: &'a [u64],
    pairs: &'a [u64],
}

/// One observation of a reply.
#[derive(Clone, Copy, PartialEq, Eq, Hash, Debug)]
pub struct Row {
    /// Its sequence number.
    pub number: u64,
    /// Its time, in milliseconds since 1970-01-01T00:00:00Z.
    pub time: u64,
    /// item * 2^40 + the value's word.
    pub packed: u64,
}

impl Row {
    /// The item. It is one of the model's in stores that only this crate wrote; of restored ones it may be
    /// any number, see [`Model::checked`](crate::Model::checked).
    pub const fn item(&self) -> u64 {
        self.packed >> 40
    }

    /// The value; none where its kind or its level is none that there is, which only a damaged store has.
    pub const fn value(&self) -> Option<Value> {
        Value::from_word(self.packed & ((1 << 40) - 1))
    }
}

impl<'a> Observations<'a> {
    /// The reply at the front of a buffer, to be read after an accepted sample or current request only.
    ///
    /// An asset reply is never taken for one of observations: its fourth word is 0, and next is at least 1.
    ///
    /// ```
    /// use mtcore::Observations;
    /// let reply = [1, 2, 4, 5, 4, 1030, 1_108_101_562_367];
    /// let read = Observations::read(&reply).unwrap();
    /// assert_eq!((read.first, read.last, read.next, read.len()), (2, 4, 5, 1));
    /// assert!(Observations::read(&reply[..6]).is_none());
    /// // One asset, in cell 0, of 5 bytes.
    /// assert!(Observations::read(&[1, 1, 8, 0, 0, 5, 0]).is_none());
    /// ```
    pub fn read(reply: &'a [u64]) -> Option<Observations<'a>> {
        let (&[k, first, last, next], rest) = reply.split_first_chunk::<SIZES>()?;
        if next == 0 {
            return None;
        }
        let k = usize::try_from(k).ok()?;
        let numbers = rest.get(..k)?;
        let pairs = rest.get(k..k.checked_mul(3)?)?;
        let words = reply.get(..reply_words(k))?;
        Some(Observations { first, last, next, words, numbers, pairs })
    }

    /// The reply's words as they came, 4 + 3 k, without what stood in the buffer behind them: what
    /// [`streams`](crate::streams) takes.
    ///
    /// ```
    /// # use mtcore::Observations;
    /// let reply = [1, 2, 4, 5, 4, 1030, 1_108_101_562_367, 0, 0];
    /// assert_eq!(Observations::read(&reply).map(|read| read.words()), Some(&reply[..7]));
    /// ```
    pub const fn words(&self) -> &'a [u64] {
        self.words
    }

    /// How many rows there are.
    pub const fn len(&self) -> usize {
        self.numbers.len()
    }

    /// Whether there are no rows.
    pub const fn is_empty(&self) -> bool {
        self.numbers.is_empty()
    }

    /// Whether numbers up to last are left to ask for, from next on. With a path that may be so although
    /// there are no rows.
    pub const fn more(&self) -> bool {
        self.next <= self.last
    }

    /// A row by its place in the reply, counted from 0.
    ///
    /// ```
    /// # use mtcore::Observations;
    /// let read = Observations::read(&[1, 2, 4, 5, 4, 1030, 1_108_101_562_367]).unwrap();
    /// assert_eq!(read.row(0).map(|row| (row.number, row.item())), Some((4, 1)));
    /// assert_eq!(read.row(1), None);
    /// ```
    pub fn row(&self, place: usize) -> Option<Row> {
        let &number = self.numbers.get(place)?;
        let (&time, &packed) =
            (self.pairs.get(place.checked_mul(2)?)?, self.pairs.get(place.checked_mul(2)? | 1)?);
        Some(Row { number, time, packed })
    }

    /// The rows, in the reply's order: of a sample by rising number, of a current by rising item, and of a
    /// condition item, which may have up to eight there, in the order in which their codes were added.
    pub fn rows(&self) -> impl ExactSizeIterator<Item = Row> + 'a {
        let pairs = self.pairs.chunks_exact(2);
        self.numbers.iter().zip(pairs).map(|(&number, pair)| {
            let (time, packed) = if let &[time, packed] = pair { (time, packed) } else { (0, 0) };
            Row { number, time, packed }
        })
    }

    /// The rows of an item, in the reply's order. Of a current these are what the item stands at: the active
    /// entries of a condition item, or its newest observation where none is active.
    ///
    /// ```
    /// use mtcore::{Level, Observations, Value};
    /// // Item 0 has an active warning and an active fault, item 1 a sample.
    /// let packed = |item: u64, value: Value| (item << 40) + value.word();
    /// let warning = packed(0, Value::Condition(Level::Warning, 77));
    /// let fault = packed(0, Value::Condition(Level::Fault, 502));
    /// let reply = [3, 1, 9, 10, 4, 9, 8, 40, warning, 90, fault, 80, packed(1, Value::Sample(5))];
    /// let read = Observations::read(&reply).unwrap();
    /// assert!(read.rows_of(0).map(|row| row.number).eq([4, 9]));
    /// assert!(read.rows_of(1).map(|row| row.number).eq([8]));
    /// // A machine is at Fault while any of its conditions is.
    /// let at_fault = |row| matches!(row, Some(Value::Condition(Level::Fault, _)));
    /// assert!(read.rows_of(0).any(|row| at_fault(row.value())));
    /// ```
    pub fn rows_of(&self, item: u64) -> impl Iterator<Item = Row> + 'a {
        self.rows().filter(move |row| row.item() == item)
    }
}

/// The reply of an accepted asset request.
#[derive(Clone, Copy, Debug)]
pub struct Assets<'a> {
    /// Cells in use.
    pub used: u64,
    /// Cells there are.
    pub cells: u64,
    rows: &'a [u64],
    lengths: &'a [u64],
}

/// One asset of a reply.
#[derive(Clone, Copy, PartialEq, Eq, Hash, Debug)]
pub struct AssetRow {
    /// The cell that held it when the request was answered; [`cell_id`](crate::cell_id) and
    /// [`cell_body`](crate::cell_body) give what stands there now.
    pub cell: u64,
    /// Bytes of its body.
    pub length: u64,
}

impl<'a> Assets<'a> {
    /// The reply at the front of a buffer, to be read after an accepted asset request only.
    ///
    /// A reply of observations is never taken for one of assets, see [`Observations::read`].
    ///
    /// ```
    /// use mtcore::{AssetRow, Assets};
    /// let read = Assets::read(&[1, 1, 8, 0, 0, 5]).unwrap();
    /// assert_eq!((read.used, read.cells), (1, 8));
    /// assert_eq!(read.rows().collect::<Vec<_>>(), [AssetRow { cell: 0, length: 5 }]);
    /// assert!(Assets::read(&[1, 2, 4, 5, 4, 1030, 1_108_101_562_367]).is_none());
    /// ```
    pub fn read(reply: &'a [u64]) -> Option<Assets<'a>> {
        let (&[k, used, cells, zero], rest) = reply.split_first_chunk::<SIZES>()?;
        // A store has at least one cell, so that a blank buffer is no reply.
        if zero != 0 || cells == 0 {
            return None;
        }
        let k = usize::try_from(k).ok()?;
        let rows = rest.get(..k)?;
        let lengths = rest.get(k..k.checked_mul(2)?)?;
        Some(Assets { used, cells, rows, lengths })
    }

    /// How many rows there are.
    pub const fn len(&self) -> usize {
        self.rows.len()
    }

    /// Whether there are no rows.
    pub const fn is_empty(&self) -> bool {
        self.rows.is_empty()
    }

    /// A row by its place in the reply, counted from 0.
    pub fn row(&self, place: usize) -> Option<AssetRow> {
        Some(AssetRow { cell: *self.rows.get(place)?, length: *self.lengths.get(place)? })
    }

    /// The rows, in the reply's order: of `/assets` the newest first, of `/asset/..` as the text names them.
    pub fn rows(&self) -> impl ExactSizeIterator<Item = AssetRow> + 'a {
        self.rows.iter().zip(self.lengths).map(|(&cell, &length)| AssetRow { cell, length })
    }
}

#[cfg(test)]
mod tests {
    use super::{AssetRow, Assets, Observations, Reply, Row};
    use std::vec::Vec;

    #[test]
    fn rows_one_by_one_and_all() {
        let words = [2, 1, 9, 8, 6, 7, 60, 1 << 40, 70, 2 << 40, 99];
        let read = Observations::read(&words).unwrap();
        let rows: Vec<_> = read.rows().collect();
        assert_eq!(rows[0], Row { number: 6, time: 60, packed: 1 << 40 });
        assert_eq!(rows[1], Row { number: 7, time: 70, packed: 2 << 40 });
        assert_eq!((read.row(0), read.row(1), read.row(2)), (Some(rows[0]), Some(rows[1]), None));
        assert_eq!(read.row(usize::MAX), None);
        assert!(read.more() && read.rows().len() == 2 && !read.is_empty());
        assert_eq!(read.words(), &words[..10]);
    }

    #[test]
    fn more_up_to_last() {
        for (next, more) in [(1, true), (8, true), (9, true), (10, false)] {
            assert_eq!(Observations::read(&[0, 1, 9, next]).map(|read| read.more()), Some(more), "{next}");
        }
    }

    #[test]
    fn rows_of_assets() {
        let read = Assets::read(&[2, 2, 4, 0, 1, 0, 11, 10]).unwrap();
        let (newest, oldest) = (AssetRow { cell: 1, length: 11 }, AssetRow { cell: 0, length: 10 });
        assert_eq!(read.rows().collect::<Vec<_>>(), [newest, oldest]);
        assert_eq!((read.row(0), read.row(1), read.row(2)), (Some(newest), Some(oldest), None));
    }

    #[test]
    fn buffers_without_a_whole_reply() {
        let observations = [2, 1, 9, 8, 6, 7, 60, 1 << 40, 70, 2 << 40];
        let assets = [2, 2, 4, 0, 1, 0, 11, 10];
        for length in 0..observations.len() {
            assert!(Observations::read(&observations[..length]).is_none());
        }
        for length in 0..assets.len() {
            assert!(Assets::read(&assets[..length]).is_none());
        }
        for k in [3, 1 << 40, u64::MAX / 3 + 1, u64::MAX / 2 + 1, u64::MAX] {
            let sizes = |fourth| [k, 1, 9, fourth, 0, 0, 0, 0];
            assert!(Observations::read(&sizes(1)).is_none() && Assets::read(&sizes(0)).is_none());
        }
    }

    #[test]
    fn kinds_are_never_mixed_up() {
        for words in [[0, 2, 4, 5, 0, 0, 0], [1, 2, 4, 5, 4, 1030, 7], [1, 1, 1, 1, 1, 1, 1]] {
            assert!(Assets::read(&words).is_none());
            assert!(matches!(Reply::read(&words), Some(Reply::Observations(_))));
        }
        for words in [[0, 0, 1, 0, 0, 0, 0], [1, 1, 8, 0, 0, 5, 7]] {
            assert!(Observations::read(&words).is_none());
            assert_eq!(Reply::read(&words).map(|reply| reply.len() as u64), Some(words[0]));
        }
        assert!(Reply::read(&[0; 7]).is_none());
        assert!(Reply::read(&[0, 2, 4, 5]).unwrap().is_empty());
    }
}
