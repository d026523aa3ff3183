//! Refusals and their numbers.

use core::fmt;

/// Why a call was refused. A refused call has changed nothing, neither a store nor the buffer for its reply,
/// answers or text.
///
/// Later versions of the core give refusals of their own; a number that this version of the crate does
/// not know arrives as [`Refusal::Unknown`].
///
/// ```
/// use mtcore::Refusal;
/// let client = |refusal: Refusal| match refusal {
///     Refusal::Late => "ask /current and go on from its next",
///     Refusal::Early => "compare instanceId: begin anew, or log a fault",
///     other => other.error_code().unwrap_or("INTERNAL_ERROR"),
/// };
/// assert_eq!(client(Refusal::TooMany), "TOO_MANY");
/// assert_eq!(client(Refusal::Spent), "INTERNAL_ERROR");
/// ```
#[derive(Clone, Copy, PartialEq, Eq, Hash, Debug)]
#[non_exhaustive]
pub enum Refusal {
    /// 1: model or names break their rules. [`Model::new`](crate::Model::new) tells which one.
    Model,
    /// 2: a store's head or length is wrong or of another model, or contents that had to be read are
    /// damaged: a ring entry of an item that there isn't, entries of a condition item that can't stand side
    /// by side, or a body's length that isn't 1 to 510. Stores that only this crate wrote, always with the
    /// same model, never get it. What it does not see is told at [`Model::checked`](crate::Model::checked).
    /// Of [`streams`](crate::streams): the words are fewer than the reply has, or a row is one that
    /// [`Model::checked`](crate::Model::checked) finds damaged.
    Store,
    /// 3: start's sizes are outside their ranges, or a store's length is not exactly theirs.
    Size,
    /// 4: the model has no such item.
    Item,
    /// 5: the item does not take this value: it is of another category's kind, a native code of 2^24 or
    /// more, or anything at all for an asset change item. Of a line also a number that is too large for its
    /// kind, or a decimal with `-` or a point for an event.
    Kind,
    /// 6: a number is needed and the last one, 2^63 - 1, is used. The host starts anew, with a new
    /// instanceId.
    Spent,
    /// 7: the request text is not of 1 to 256 bytes of 33 to 126, the first of them `/`.
    InvalidUri,
    /// 8: the request text cannot be read: another word than `sample`, `current`, `asset`, `assets` and
    /// `probe`, an unknown, repeated or malformed part, a number of more than 19 digits or above
    /// 2^63 - 1, a count of 0, an empty id, or `interval` together with `at`.
    InvalidRequest,
    /// 9: `probe` and `interval`, which are the host's.
    Unsupported,
    /// 10: a count that was given and is above the number of ring places.
    TooMany,
    /// 11: the path has another form than the two there are, no component has its type, or its second
    /// form selects no item.
    InvalidXpath,
    /// 13: an asset that was asked for is not stored.
    AssetNotFound,
    /// 14: an id that is not of 1 to 32 bytes of 33 to 126 without `;`, `/` and `?`, or a body that is
    /// not of 1 to 510 bytes.
    Asset,
    /// 15: the reply buffer is shorter than the reply. A host that reserves less than the largest reply
    /// answers a sample so with TOO_MANY; for other requests it reserves more. Of a delivery: there are
    /// fewer words for answers than records. Of a line or a document that is written: the text is shorter
    /// than it.
    Space,
    /// 16: a delivery of more than 256 records. The host makes several of it.
    Batch,
    /// 17: `from`, unless it is 0, or `at` is below first: that number has been overwritten, or is from
    /// before the start. The client asks for `current`, takes its rows as the state and goes on from its
    /// next; what lies between is lost.
    Late,
    /// 18: `from` is above last + 1, or `at` above last. Either the agent was started anew with lower
    /// numbers, which its instanceId shows: then the client begins anew with `current`. Or the client is
    /// at fault: log it. It does not wait until the number comes.
    Early,
    /// 19: a warning or fault with a ninth native code, on a condition item that has eight active. Nothing
    /// was recorded, and the eight stand as they did. The host logs it, and observes it again once one of
    /// them is cleared, or clears one itself; a level of a code that is active is never refused so. Where
    /// more than eight can come together the alarms are spread over several items.
    Crowded,
    /// 20: an adapter's line that is not of the form `stamp|item|value`, see [`read_line`](crate::read_line).
    /// Nothing was recorded, and the next line is read as if this one had not come. The host logs the line:
    /// the adapter is at fault, or the stream was cut at the wrong place.
    Line,
    /// 21: a line of the right form whose date or time there isn't, as a 30th of February, or that is not of
    /// 1970 to 2099; of a line that is written, a time after 2099. Nothing was recorded. The host logs the
    /// line: the adapter's clock is wrong. Of a document: its own time or that of a row is after 2099. The
    /// clock was wrong when the row was observed, and every document that has the row is refused so.
    Stamp,
    /// A number that this version of the crate has no name for: an archive of another version is
    /// linked. It is a refusal all the same, and nothing was changed. 12 is such a number: it stood for
    /// late and early together before version 2.0, and is not given any more.
    #[non_exhaustive]
    Unknown {
        /// The number as it came.
        number: u64,
    },
}

/// A refusal with its number, its words and its MTConnect errorCode.
type Entry = (u64, Refusal, &'static str, Option<&'static str>);

/// The refusals that there are, each with its number, since 12 is none's.
const TABLE: [Entry; 20] = [
    (1, Refusal::Model, "model or names break their rules", None),
    (2, Refusal::Store, "a store is damaged or not the model's", Some("INTERNAL_ERROR")),
    (3, Refusal::Size, "the stores' sizes do not go together", None),
    (4, Refusal::Item, "no such item", None),
    (5, Refusal::Kind, "the item does not take this value", None),
    (6, Refusal::Spent, "no sequence number is left", Some("INTERNAL_ERROR")),
    (7, Refusal::InvalidUri, "INVALID_URI", Some("INVALID_URI")),
    (8, Refusal::InvalidRequest, "INVALID_REQUEST", Some("INVALID_REQUEST")),
    (9, Refusal::Unsupported, "UNSUPPORTED", Some("UNSUPPORTED")),
    (10, Refusal::TooMany, "TOO_MANY", Some("TOO_MANY")),
    (11, Refusal::InvalidXpath, "INVALID_XPATH", Some("INVALID_XPATH")),
    (13, Refusal::AssetNotFound, "ASSET_NOT_FOUND", Some("ASSET_NOT_FOUND")),
    (14, Refusal::Asset, "the asset's id or body cannot be stored", None),
    (15, Refusal::Space, "the buffer for reply, answers or line is too short", Some("TOO_MANY")),
    (16, Refusal::Batch, "a delivery has too many records", None),
    (17, Refusal::Late, "late: the number is below first", Some("OUT_OF_RANGE")),
    (18, Refusal::Early, "early: the number is above last", Some("OUT_OF_RANGE")),
    (19, Refusal::Crowded, "eight other codes are active on the item", None),
    (20, Refusal::Line, "the line is not of the form stamp|item|value", None),
    (21, Refusal::Stamp, "a date or time that there is not, or not of 1970 to 2099", None),
];

impl Refusal {
    /// The refusal's number: 1 to 21 but for 12, or the one that [`Refusal::Unknown`] holds.
    ///
    /// ```
    /// use mtcore::Refusal;
    /// assert_eq!(Refusal::Late.number(), 17);
    /// assert_eq!(Refusal::Early.number(), 18);
    /// ```
    pub fn number(self) -> u64 {
        match self {
            Refusal::Unknown { number } => number,
            known => known.entry().map_or(0, |entry| entry.0),
        }
    }

    /// The refusal of a number; none for 0, which means that a call was accepted. No number is lost: one
    /// without a name becomes [`Refusal::Unknown`].
    ///
    /// ```
    /// use mtcore::Refusal;
    /// assert_eq!(Refusal::from_number(17), Some(Refusal::Late));
    /// assert_eq!(Refusal::from_number(0), None);
    /// let later = Refusal::from_number(25).unwrap();
    /// assert!(matches!(later, Refusal::Unknown { number: 25, .. }));
    /// assert_eq!(later.number(), 25);
    /// // Late and early were one number before version 2.0; it is none now.
    /// assert!(matches!(Refusal::from_number(12), Some(Refusal::Unknown { number: 12, .. })));
    /// ```
    pub fn from_number(number: u64) -> Option<Refusal> {
        if number == 0 {
            return None;
        }
        let known = TABLE.into_iter().find(|entry| entry.0 == number);
        Some(known.map_or(Refusal::Unknown { number }, |entry| entry.1))
    }

    /// The errorCode of the MTConnectError document that a host sends for a refused request. None where
    /// the fault is not the client's and no request of a sound host meets it (a fault of the
    /// configuration, of an adapter or of a tool record: log it), and for [`Refusal::Unknown`].
    ///
    /// MTConnect has one errorCode for late and early, so the document's text tells which it is, with the
    /// number asked for and first or last. These two are in every accepted reply of observations, as of
    /// `/current`; a refused request leaves its reply buffer as it was.
    ///
    /// ```
    /// use mtcore::Refusal;
    /// for refusal in [Refusal::Late, Refusal::Early] {
    ///     assert_eq!(refusal.error_code(), Some("OUT_OF_RANGE"));
    /// }
    /// let text = |refusal, number, first, last| match refusal {
    ///     Refusal::Late => format!("late: {number} is below first, {first}"),
    ///     Refusal::Early => format!("early: {number} is above last, {last}"),
    ///     other => other.to_string(),
    /// };
    /// assert_eq!(text(Refusal::Late, 1572, 2928, 3927), "late: 1572 is below first, 2928");
    /// assert_eq!(text(Refusal::Early, 9000, 2928, 3927), "early: 9000 is above last, 3927");
    /// ```
    pub fn error_code(self) -> Option<&'static str> {
        self.entry().and_then(|entry| entry.3)
    }

    fn entry(self) -> Option<Entry> {
        TABLE.into_iter().find(|entry| entry.1 == self)
    }
}

impl fmt::Display for Refusal {
    fn fmt(&self, f: &mut fmt::Formatter<'_>) -> fmt::Result {
        match self.entry() {
            Some((_, _, words, _)) => f.write_str(words),
            None => write!(f, "refusal {}", self.number()),
        }
    }
}

impl core::error::Error for Refusal {}

#[cfg(test)]
mod tests {
    use super::{Refusal, TABLE};
    use std::string::ToString;

    #[test]
    fn every_number_comes_back() {
        assert_eq!(Refusal::from_number(0), None);
        for number in (1..100).chain([255, 256, 1 << 32, (1 << 63) - 1, u64::MAX]) {
            let refusal = Refusal::from_number(number).unwrap();
            assert_eq!(refusal.number(), number);
            let unknown = number == 12 || number > 21;
            assert_eq!(matches!(refusal, Refusal::Unknown { .. }), unknown, "{number}");
        }
    }

    /// The numbers are the interface's, whatever the table says.
    #[test]
    fn numbers_are_the_interface_s() {
        let numbered = [
            (1, Refusal::Model),
            (2, Refusal::Store),
            (3, Refusal::Size),
            (4, Refusal::Item),
            (5, Refusal::Kind),
            (6, Refusal::Spent),
            (7, Refusal::InvalidUri),
            (8, Refusal::InvalidRequest),
            (9, Refusal::Unsupported),
            (10, Refusal::TooMany),
            (11, Refusal::InvalidXpath),
            (13, Refusal::AssetNotFound),
            (14, Refusal::Asset),
            (15, Refusal::Space),
            (16, Refusal::Batch),
            (17, Refusal::Late),
            (18, Refusal::Early),
            (19, Refusal::Crowded),
            (20, Refusal::Line),
            (21, Refusal::Stamp),
        ];
        assert_eq!(numbered.len(), TABLE.len());
        for (number, refusal) in numbered {
            assert_eq!((refusal.number(), Refusal::from_number(number)), (number, Some(refusal)));
        }
    }

    /// Late and early have numbers and words of their own, and one errorCode.
    #[test]
    fn late_and_early_are_told_apart() {
        let (late, early) = (Refusal::Late, Refusal::Early);
        assert_eq!((late.number(), early.number()), (17, 18));
        assert_eq!((late.error_code(), early.error_code()), (Some("OUT_OF_RANGE"), Some("OUT_OF_RANGE")));
        assert_eq!(late.to_string(), "late: the number is below first");
        assert_eq!(early.to_string(), "early: the number is above last");
        assert_eq!(TABLE.iter().filter(|entry| entry.3 == Some("OUT_OF_RANGE")).count(), 2);
    }

    /// It is what any number without a name is, and not what it was: late or early.
    #[test]
    fn twelve_is_no_refusal_s_number() {
        let twelve = Refusal::from_number(12).unwrap();
        assert!(matches!(twelve, Refusal::Unknown { number: 12 }));
        assert_eq!((twelve.number(), twelve.error_code()), (12, None));
        assert_eq!(twelve.to_string(), "refusal 12");
        assert!(TABLE.iter().all(|entry| entry.0 != 12));
    }

    #[test]
    fn words_are_said() {
        assert!(TABLE.iter().all(|(_, _, words, _)| !words.is_empty()));
        assert_eq!(Refusal::InvalidXpath.to_string(), "INVALID_XPATH");
        assert_eq!(Refusal::Crowded.to_string(), "eight other codes are active on the item");
        assert_eq!(Refusal::Line.to_string(), "the line is not of the form stamp|item|value");
        assert_eq!((Refusal::Line.error_code(), Refusal::Stamp.error_code()), (None, None));
        assert_eq!(Refusal::from_number(22).unwrap().to_string(), "refusal 22");
        assert_eq!(Refusal::from_number(22).unwrap().error_code(), None);
    }
}
