//! A list of calls after a start: core, store layer and machine answer each call.

use crate::call::{Answer, Call, Start};
use crate::pair::{same, Pair};
use reference::model::Model;
use reference::value::Value;
use reference::{Clean, Core, FaultSet, Machine};

pub struct Session<'c, C: Core, F: FaultSet> {
    pub pair: Pair<'c, C>,
    pub machine: Machine<F>,
    scratch: Vec<u64>,
    text: Vec<u8>,
}

impl<'c, C: Core, F: FaultSet> Session<'c, C, F> {
    /// The session after an accepted start, or the refusal's number.
    pub fn start(core: &'c C, start: &Start, faults: F) -> Result<Result<Session<'c, C, F>, u64>, String> {
        let (pair, answer) = Pair::start(core, start)?;
        let Start { model, names, n, a, b, host, observations, assets } = start;
        let machine =
            Machine::start(model, names, observations.len(), assets.len(), *n, *a, *b, *host, faults);
        let expected = machine.as_ref().map_or_else(|refusal| refusal.number(), |_| 0);
        if answer != Answer::Pair(expected, 0) {
            return Err(format!("answer {answer:?}, the machine gives {expected}"));
        }
        let Ok(machine) = machine else {
            return Ok(Err(expected));
        };
        let session = Session { pair, machine, scratch: Vec::new(), text: Vec::new() };
        session.compare_contents()?;
        Ok(Ok(session))
    }

    /// Runs a call on all three and compares.
    pub fn call(&mut self, call: &Call) -> Result<Answer, String> {
        let answer = self.pair.call(call)?;
        let (model, names) = (&self.pair.expected_model, &self.pair.expected_names);
        let expected = match call {
            Call::Observe { item, time, host, value } => {
                let value = Value::decode(*value);
                Answer::Word(self.machine.observe(model, names, *item, *time, *host, value).word())
            }
            Call::ObserveBatch { records, host, answers } => {
                self.scratch.clear();
                self.scratch.extend_from_slice(answers);
                let done = self.machine.observe_batch(model, names, records, *host, &mut self.scratch);
                same("answer word", &self.pair.reply, &self.scratch)?;
                let (number, count) = done.pair();
                Answer::Pair(number, count)
            }
            Call::ReadLine { line, host } => {
                Answer::Word(self.machine.read_line(model, names, line, *host).word())
            }
            Call::WriteLine { item, time, value, text } => {
                self.text.clone_from(text);
                let value = Value::decode(*value);
                let done = self.machine.write_line(model, names, *item, *time, value, &mut self.text);
                same("text byte", &self.pair.text, &self.text)?;
                let (number, bytes) = done.pair();
                Answer::Pair(number, bytes)
            }
            Call::Streams { reply, given, text } => {
                self.text.clone_from(text);
                let done = self.machine.streams(model, names, reply, *given, &mut self.text);
                same("text byte", &self.pair.text, &self.text)?;
                let (number, bytes) = done.pair();
                Answer::Pair(number, bytes)
            }
            Call::StoreAsset { id, body, host } => {
                Answer::Word(self.machine.store_asset(model, names, id, body, *host).word())
            }
            Call::Request { text, reply } => {
                self.scratch.clear();
                self.scratch.extend_from_slice(reply);
                let (number, k) = self.machine.request(model, names, text, &mut self.scratch).pair();
                same("reply word", &self.pair.reply, &self.scratch)?;
                Answer::Pair(number, k)
            }
            Call::Body { id } => return self.compare_body(answer, id),
        };
        if answer != expected {
            return Err(format!("answer {answer:?}, the machine gives {expected:?}"));
        }
        Ok(answer)
    }

    /// The bytes returned are the machine's.
    fn compare_body(&self, answer: Answer, id: &[u8]) -> Result<Answer, String> {
        let Answer::Part(start, length) = answer else {
            return Err(format!("answer {answer:?} to a body"));
        };
        let part = self.pair.expected_assets.get(start as usize..(start + length) as usize);
        if part != Some(self.machine.body(id)) {
            return Err(format!("body {part:?}, the machine gives {:?}", self.machine.body(id)));
        }
        Ok(answer)
    }

    /// The stores hold exactly what the machine's record says, word for word.
    pub fn compare_contents(&self) -> Result<(), String> {
        let (words, names) = (&self.pair.expected_model, &self.pair.expected_names);
        let model = Model::check(words, names, Clean).ok_or("the start's model is no longer there")?;
        let words = self.machine.observation_store(&model);
        same("observation store word by the record", &self.pair.expected_observations, &words)?;
        same("asset store byte by the record", &self.pair.expected_assets, &self.machine.asset_store())
    }
}
