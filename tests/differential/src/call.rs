//! Calls and answers as data.

use reference::streams::Given;
use reference::Record;
use std::fmt;

/// A call after a start, with its arguments in the C interface's shapes.
#[derive(Clone)]
pub enum Call {
    Observe {
        item: u64,
        time: u64,
        host: u64,
        value: u64,
    },
    /// With the words that stand in the answer buffer at the call.
    ObserveBatch {
        records: Vec<Record>,
        host: u64,
        answers: Vec<u64>,
    },
    ReadLine {
        line: Vec<u8>,
        host: u64,
    },
    /// With the bytes that stand in the text buffer at the call.
    WriteLine {
        item: u64,
        time: u64,
        value: u64,
        text: Vec<u8>,
    },
    /// With the bytes that stand in the text buffer at the call.
    Streams {
        reply: Vec<u64>,
        given: Given,
        text: Vec<u8>,
    },
    StoreAsset {
        id: Vec<u8>,
        body: Vec<u8>,
        host: u64,
    },
    /// With the words that stand in the reply buffer at the call.
    Request {
        text: Vec<u8>,
        reply: Vec<u64>,
    },
    Body {
        id: Vec<u8>,
    },
}

/// The arguments of a start, with what stands in the stores before it.
#[derive(Clone)]
pub struct Start {
    pub model: Vec<u32>,
    pub names: Vec<u8>,
    pub n: u64,
    pub a: u64,
    pub b: u64,
    pub host: u64,
    pub observations: Vec<u64>,
    pub assets: Vec<u8>,
}

/// The number that no refusal has: late and early were one refusal under it.
const RETIRED: u64 = 12;

/// An answer in the C interface's words.
#[derive(Clone, Copy, PartialEq, Eq, Debug)]
pub enum Answer {
    /// Number and count of start, request, observe-batch, write-line and streams.
    Pair(u64, u64),
    /// The answer word of observe, read-line and store-asset.
    Word(u64),
    /// The place of a body; (0, 0) for any empty part.
    Part(u64, u64),
}

impl Answer {
    /// The refusal's number, 0 for an accepted call. A body's empty part has no number.
    pub fn refusal(self) -> u64 {
        match self {
            Answer::Pair(number, _) => number,
            Answer::Word(word) => word.saturating_sub(1 << 63),
            Answer::Part(..) => 0,
        }
    }

    pub fn is_refused(self) -> bool {
        self.refusal() != 0 || self == Answer::Part(0, 0)
    }

    /// The answer itself, unless it carries the retired number, or one of the words does that an
    /// accepted delivery wrote.
    pub fn in_use(self, written: &[u64]) -> Result<Answer, String> {
        let count = if let Answer::Pair(0, count) = self { count as usize } else { 0 };
        let words = written.iter().take(count).map(|&word| Answer::Word(word));
        if words.chain([self]).any(|answer| answer.refusal() == RETIRED) {
            return Err(format!("{self:?} with {RETIRED}, which no refusal has"));
        }
        Ok(self)
    }
}

impl fmt::Debug for Call {
    fn fmt(&self, f: &mut fmt::Formatter<'_>) -> fmt::Result {
        match self {
            Call::Observe { item, time, host, value } => {
                write!(f, "observe item {item} time {time} host {host} value {value:#x}")
            }
            Call::ObserveBatch { records, host, answers } => {
                let (count, room) = (records.len(), answers.len());
                write!(f, "observe-batch of {count} host {host} answers of {room}: {records:x?}")
            }
            Call::ReadLine { line, host } => {
                // The longest are long.
                let front = &line[..line.len().min(300)];
                write!(f, "read-line of {} host {host}: {}", line.len(), front.escape_ascii())
            }
            Call::WriteLine { item, time, value, text } => {
                write!(f, "write-line item {item} time {time} value {value:#x} text of {}", text.len())
            }
            Call::Streams { reply, given, text } => {
                write!(f, "streams {given:?} text of {} reply of {}: {reply:x?}", text.len(), reply.len())
            }
            Call::StoreAsset { id, body, host } => {
                write!(f, "store-asset {} body of {} host {host}", id.escape_ascii(), body.len())
            }
            Call::Request { text, reply } => {
                write!(f, "request {} reply of {}", text.escape_ascii(), reply.len())
            }
            Call::Body { id } => write!(f, "body {}", id.escape_ascii()),
        }
    }
}

impl fmt::Debug for Start {
    fn fmt(&self, f: &mut fmt::Formatter<'_>) -> fmt::Result {
        let Start { model, names, n, a, b, host, observations, assets } = self;
        write!(
            f,
            "start model {model:?} names {} n {n} a {a} b {b} host {host} lengths {} {}",
            names.escape_ascii(),
            observations.len(),
            assets.len()
        )
    }
}
