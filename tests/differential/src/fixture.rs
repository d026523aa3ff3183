//! Sessions set up by hand, for named examples and for edges.

use crate::call::{Answer, Call, Start};
use crate::documents;
use crate::session::Session;
use crate::texts;
use crate::under_test::{self, UnderTest};
use crate::worlds::cell;
use reference::stores::{asset_bytes, observation_words};
use reference::streams::Given;
use reference::{Clean, Record, Value};

/// A session with the core under test.
pub type Tested<'c> = Session<'c, UnderTest, Clean>;

pub fn names(list: &[&str]) -> Vec<u8> {
    list.iter().flat_map(|name| cell(name.as_bytes())).collect()
}

/// A start with stores of the right lengths.
pub fn start(model: &[u32], names: &[u8], [n, a, b]: [u64; 3], host: u64) -> Start {
    let m = model.get(1).map_or(0, |&m| m as usize);
    Start {
        model: model.to_vec(),
        names: names.to_vec(),
        n,
        a,
        b,
        host,
        observations: vec![0x55; observation_words(n as usize, m)],
        assets: vec![0x55; asset_bytes(a as usize)],
    }
}

/// One component with so many items: samples, events, conditions in turn, and an asset-change
/// item last where it is wanted.
pub fn plain_model(items: u32, asset_item: bool) -> Vec<u32> {
    let mut model = vec![1, items, 0];
    model.extend((0..items).map(|item| item % 3 * 65_536));
    if asset_item {
        *model.last_mut().expect("there are items") = 3 * 65_536;
    }
    model
}

/// The same with discrete events in the place of the events.
pub fn discrete_model(items: u32, asset_item: bool) -> Vec<u32> {
    let discrete = |word| if word == 65_536 { 4 * 65_536 } else { word };
    plain_model(items, asset_item).into_iter().map(discrete).collect()
}

pub fn core() -> UnderTest {
    under_test::core()
}

/// The session after a start that has to be accepted.
pub fn begin<'c>(core: &'c UnderTest, start: &Start) -> Tested<'c> {
    let begun = Session::start(core, start, Clean).unwrap_or_else(|what| panic!("{start:?}: {what}"));
    begun.unwrap_or_else(|number| panic!("{start:?}: refused with {number}"))
}

impl Tested<'_> {
    /// Runs a call that has to be answered alike by all.
    pub fn must(&mut self, call: &Call) -> Answer {
        self.call(call).unwrap_or_else(|what| panic!("{call:?}: {what}"))
    }

    /// The answer word of an observe.
    pub fn observe(&mut self, item: u64, time: u64, host: u64, value: Value) -> u64 {
        match self.must(&Call::Observe { item, time, host, value: word(value) }) {
            Answer::Word(word) => word,
            other => panic!("observe answers {other:?}"),
        }
    }

    /// A delivery into a buffer of so many words: number and count, and what the buffer then holds.
    pub fn batch(&mut self, records: &[Record], host: u64, words: usize) -> ((u64, u64), Vec<u64>) {
        let answers = vec![UNTOUCHED; words];
        match self.must(&Call::ObserveBatch { records: records.to_vec(), host, answers }) {
            Answer::Pair(number, count) => ((number, count), self.pair.reply.clone()),
            other => panic!("observe-batch answers {other:?}"),
        }
    }

    /// The answer word of a line.
    pub fn line(&mut self, line: impl AsRef<[u8]>, host: u64) -> u64 {
        match self.must(&Call::ReadLine { line: line.as_ref().to_vec(), host }) {
            Answer::Word(word) => word,
            other => panic!("read-line answers {other:?}"),
        }
    }

    /// A line written into a buffer of so many bytes: number and bytes, and what the buffer then holds.
    pub fn write(&mut self, item: u64, time: u64, value: Value, room: usize) -> ((u64, u64), Vec<u8>) {
        let value = word(value);
        match self.must(&Call::WriteLine { item, time, value, text: vec![UNWRITTEN; room] }) {
            Answer::Pair(number, bytes) => ((number, bytes), self.pair.text.clone()),
            other => panic!("write-line answers {other:?}"),
        }
    }

    /// A document of a reply into a buffer of so many bytes: number and bytes, and what the buffer then holds.
    pub fn streams(&mut self, reply: &[u64], given: Given, room: usize) -> ((u64, u64), Vec<u8>) {
        match self.must(&Call::Streams { reply: reply.to_vec(), given, text: vec![UNWRITTEN; room] }) {
            Answer::Pair(number, bytes) => ((number, bytes), self.pair.text.clone()),
            other => panic!("streams answers {other:?}"),
        }
    }

    /// The document of a reply, or the refusal's number; with room for any.
    pub fn document(&mut self, reply: &[u64], given: Given) -> Result<String, u64> {
        let ((number, bytes), text) = self.streams(reply, given, documents::ample(reply));
        if number != 0 {
            return Err(number);
        }
        assert!(text[bytes as usize..].iter().all(|&byte| byte == UNWRITTEN), "bytes behind a document");
        Ok(String::from_utf8(text[..bytes as usize].to_vec()).expect("a document is text"))
    }

    /// The answer word of a store-asset.
    pub fn store(&mut self, id: &[u8], body: &[u8], host: u64) -> u64 {
        match self.must(&Call::StoreAsset { id: id.to_vec(), body: body.to_vec(), host }) {
            Answer::Word(word) => word,
            other => panic!("store-asset answers {other:?}"),
        }
    }

    /// The reply's own words, or the refusal's number.
    pub fn ask(&mut self, text: impl AsRef<[u8]>) -> Result<Vec<u64>, u64> {
        let text = text.as_ref();
        let reply = vec![0xfeed; texts::AMPLE];
        match self.must(&Call::Request { text: text.to_vec(), reply }) {
            Answer::Pair(0, k) => {
                let columns = if text.starts_with(b"/asset") { 2 } else { 3 };
                Ok(self.pair.reply[..4 + columns * k as usize].to_vec())
            }
            answer => Err(answer.refusal()),
        }
    }

    /// A request with a reply buffer of so many words: the refusal's number, 0 where accepted.
    pub fn ask_into(&mut self, text: &[u8], words: usize) -> u64 {
        self.must(&Call::Request { text: text.to_vec(), reply: vec![0xfeed; words] }).refusal()
    }

    /// The bytes of a body.
    pub fn body(&mut self, id: &[u8]) -> Vec<u8> {
        match self.must(&Call::Body { id: id.to_vec() }) {
            Answer::Part(start, length) => {
                self.pair.expected_assets[start as usize..][..length as usize].to_vec()
            }
            other => panic!("body answers {other:?}"),
        }
    }
}

/// What stands in an answer buffer before a delivery.
pub const UNTOUCHED: u64 = 0xfeed;

/// What stands in a text buffer before a line or a document is written.
pub const UNWRITTEN: u8 = 0xee;

/// A value's word, as the C interface takes it.
pub fn word(value: Value) -> u64 {
    (value.kind() << 32) + value.low(Clean)
}

/// A record of a value that some item takes.
pub fn record(item: u64, time: u64, value: Value) -> Record {
    Record { item, time, value: word(value) }
}

/// The numbers of a reply's rows.
pub fn numbers(reply: &[u64]) -> &[u64] {
    &reply[4..4 + reply[0] as usize]
}

/// The packed values of a reply's rows.
pub fn packed(reply: &[u64]) -> Vec<u64> {
    let k = reply[0] as usize;
    reply[4 + k..4 + 3 * k].chunks_exact(2).map(|pair| pair[1]).collect()
}
