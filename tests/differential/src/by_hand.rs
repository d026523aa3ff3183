//! Calls over stores changed by hand: core and store layer, compared.

use crate::call::{Answer, Call, Start};
use crate::fixture::{record, word, UNTOUCHED};
use crate::pair::Pair;
use crate::under_test::{self, UnderTest};
use reference::streams::Given;
use reference::{Record, Value};

/// The calls over stores as they stand, each over a fresh copy of them.
pub struct ByHand {
    core: UnderTest,
    pub start: Start,
}

impl ByHand {
    pub fn new(start: Start) -> ByHand {
        ByHand { core: under_test::core(), start }
    }

    /// One call over a fresh copy: its answer and what it left.
    pub fn run(&self, call: &Call) -> (Answer, Start, Vec<u64>) {
        let mut pair = Pair::over(&self.core, self.start.clone());
        let answer = pair.call(call).unwrap_or_else(|what| panic!("{call:?}: {what}"));
        let left = Start {
            observations: pair.expected_observations.clone(),
            assets: pair.expected_assets.clone(),
            ..self.start.clone()
        };
        if answer.is_refused() {
            assert!(left.observations == self.start.observations && left.assets == self.start.assets);
        }
        (answer, left, pair.reply)
    }

    pub fn observe(&self, item: u64, value: Value) -> u64 {
        match self.run(&Call::Observe { item, time: 7, host: 8, value: word(value) }).0 {
            Answer::Word(word) => word,
            other => panic!("{other:?}"),
        }
    }

    pub fn line(&self, line: &str) -> u64 {
        match self.run(&Call::ReadLine { line: line.into(), host: 8 }).0 {
            Answer::Word(word) => word,
            other => panic!("{other:?}"),
        }
    }

    /// A line with room for any: its number and bytes.
    pub fn write(&self, item: u64, time: u64, value: Value) -> (u64, u64) {
        match self.run(&Call::WriteLine { item, time, value: word(value), text: vec![0; 64] }).0 {
            Answer::Pair(number, bytes) => (number, bytes),
            other => panic!("{other:?}"),
        }
    }

    /// A document into so many bytes: its number and bytes.
    pub fn streams(&self, reply: &[u64], given: Given, room: usize) -> (u64, u64) {
        match self.run(&Call::Streams { reply: reply.to_vec(), given, text: vec![0; room] }).0 {
            Answer::Pair(number, bytes) => (number, bytes),
            other => panic!("{other:?}"),
        }
    }

    /// A delivery with room for so many answers: number and count, the answers, and the store left.
    pub fn batch(&self, records: &[Record], room: usize) -> ((u64, u64), Vec<u64>, Vec<u64>) {
        let answers = vec![UNTOUCHED; room];
        let call = Call::ObserveBatch { records: records.to_vec(), host: 8, answers };
        match self.run(&call) {
            (Answer::Pair(number, count), left, answers) => ((number, count), answers, left.observations),
            other => panic!("{:?}", other.0),
        }
    }

    pub fn store(&self, id: &[u8]) -> (u64, Start) {
        match self.run(&Call::StoreAsset { id: id.to_vec(), body: b"new".to_vec(), host: 9 }) {
            (Answer::Word(word), left, _) => (word, left),
            other => panic!("{:?}", other.0),
        }
    }

    /// The reply's words, or the refusal's number.
    pub fn ask_into(&self, text: &str, words: usize) -> Result<Vec<u64>, u64> {
        let (answer, _, reply) = self.run(&Call::Request { text: text.into(), reply: vec![0; words] });
        match answer {
            Answer::Pair(0, _) => Ok(reply),
            other => Err(other.refusal()),
        }
    }

    /// A delivery of so many records that is refused: its number.
    pub fn refused_batch(&self, records: usize, room: usize) -> u64 {
        let ((number, count), answers, _) = self.batch(&vec![record(9, 7, Value::Event(1)); records], room);
        assert_eq!((count, answers), (0, vec![UNTOUCHED; room]));
        number
    }

    pub fn ask(&self, text: &str) -> Result<Vec<u64>, u64> {
        self.ask_into(text, 40)
    }

    pub fn body(&self, id: &[u8]) -> (u64, u64) {
        match self.run(&Call::Body { id: id.to_vec() }).0 {
            Answer::Part(start, length) => (start, length),
            other => panic!("{other:?}"),
        }
    }
}
