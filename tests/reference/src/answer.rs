//! Answers and refusals.

/// Why a call was refused. The discriminant is the refusal's number.
#[derive(Clone, Copy, PartialEq, Eq, Debug)]
#[repr(u64)]
pub enum Refusal {
    Model = 1,
    Store = 2,
    Size = 3,
    Item = 4,
    Kind = 5,
    Spent = 6,
    InvalidUri = 7,
    InvalidRequest = 8,
    Unsupported = 9,
    TooMany = 10,
    InvalidXpath = 11,
    AssetNotFound = 13,
    Asset = 14,
    Space = 15,
    Batch = 16,
    Late = 17,
    Early = 18,
    Crowded = 19,
    Line = 20,
    Stamp = 21,
}

impl Refusal {
    pub fn number(self) -> u64 {
        self as u64
    }

    /// The refusal as an answer word.
    pub fn word(self) -> u64 {
        (1 << 63) + self.number()
    }
}

/// What start, request, observe-batch, write-line and streams answer: how many rows, records or bytes there
/// are, or a refusal.
#[derive(Clone, Copy, PartialEq, Eq, Debug)]
pub enum Done {
    Done(u64),
    Refused(Refusal),
}

impl Done {
    /// Number and count, as the C interface returns them.
    pub fn pair(self) -> (u64, u64) {
        match self {
            Done::Done(k) => (0, k),
            Done::Refused(refusal) => (refusal.number(), 0),
        }
    }
}

impl From<Result<u64, Refusal>> for Done {
    fn from(result: Result<u64, Refusal>) -> Done {
        match result {
            Ok(k) => Done::Done(k),
            Err(refusal) => Done::Refused(refusal),
        }
    }
}

/// What observe answers: the number recorded, Same, or a refusal.
#[derive(Clone, Copy, PartialEq, Eq, Debug)]
pub enum Observed {
    Recorded(u64),
    Same,
    Refused(Refusal),
}

impl Observed {
    pub fn word(self) -> u64 {
        match self {
            Observed::Recorded(number) => number,
            Observed::Same => 0,
            Observed::Refused(refusal) => refusal.word(),
        }
    }
}

impl From<Result<Option<u64>, Refusal>> for Observed {
    fn from(result: Result<Option<u64>, Refusal>) -> Observed {
        match result {
            Ok(Some(number)) => Observed::Recorded(number),
            Ok(None) => Observed::Same,
            Err(refusal) => Observed::Refused(refusal),
        }
    }
}

/// What store-asset answers: the cell that now holds the asset, or a refusal.
#[derive(Clone, Copy, PartialEq, Eq, Debug)]
pub enum Stored {
    Stored(u64),
    Refused(Refusal),
}

impl Stored {
    pub fn word(self) -> u64 {
        match self {
            Stored::Stored(cell) => cell,
            Stored::Refused(refusal) => refusal.word(),
        }
    }
}

impl From<Result<u64, Refusal>> for Stored {
    fn from(result: Result<u64, Refusal>) -> Stored {
        match result {
            Ok(cell) => Stored::Stored(cell),
            Err(refusal) => Stored::Refused(refusal),
        }
    }
}
