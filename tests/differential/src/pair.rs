//! The core and the reference's store layer side by side on the same stores.

use crate::call::{Answer, Call, Start};
use crate::guard::Guarded;
use reference::streams::Given;
use reference::{Clean, Core, Record, Stores};

/// Both implementations with their own copies of the stores. The core's stand between guards.
pub struct Pair<'c, C: Core> {
    core: &'c C,
    reference: Stores<Clean>,
    model: Guarded<u32>,
    names: Guarded<u8>,
    observations: Guarded<u64>,
    assets: Guarded<u8>,
    /// What the slices that a call only reads have to hold after it.
    pub expected_model: Vec<u32>,
    pub expected_names: Vec<u8>,
    pub expected_observations: Vec<u64>,
    pub expected_assets: Vec<u8>,
    /// The reply of the last request, or the answers of the last delivery, as both left them.
    pub reply: Vec<u64>,
    core_reply: Guarded<u64>,
    /// The text of the last line or document written, as both left it.
    pub text: Vec<u8>,
    core_text: Guarded<u8>,
    records: Guarded<Record>,
    rows: Guarded<u64>,
    first: Guarded<u8>,
    second: Guarded<u8>,
    /// Whole stores are compared at every so many calls; 1 unless they are large.
    pub every: u64,
    calls: u64,
}

impl<'c, C: Core> Pair<'c, C> {
    /// Runs a start on both. The stores then are what it left, also where it was refused.
    pub fn start(core: &'c C, start: &Start) -> Result<(Pair<'c, C>, Answer), String> {
        let mut pair = Pair::over(core, start.clone());
        let Start { n, a, b, host, .. } = *start;
        let got = core.start(
            pair.model.inner(),
            pair.names.inner(),
            pair.observations.inner_mut(),
            pair.assets.inner_mut(),
            n,
            a,
            b,
            host,
        );
        let expected = pair.reference.start(
            &pair.expected_model,
            &pair.expected_names,
            &mut pair.expected_observations,
            &mut pair.expected_assets,
            n,
            a,
            b,
            host,
        );
        let answer = Answer::Pair(got.0, got.1);
        let (number, count) = expected.pair();
        pair.compare(answer, Answer::Pair(number, count))?;
        pair.compare_inputs()?;
        pair.compare_stores()?;
        Ok((pair, answer))
    }

    /// Both over stores as they stand, whoever wrote them.
    pub fn over(core: &'c C, start: Start) -> Pair<'c, C> {
        Pair {
            core,
            reference: Stores::new(Clean),
            model: Guarded::new(&start.model),
            names: Guarded::new(&start.names),
            observations: Guarded::new(&start.observations),
            assets: Guarded::new(&start.assets),
            expected_model: start.model,
            expected_names: start.names,
            expected_observations: start.observations,
            expected_assets: start.assets,
            reply: Vec::new(),
            core_reply: Guarded::new(&[]),
            text: Vec::new(),
            core_text: Guarded::new(&[]),
            records: Guarded::new(&[]),
            rows: Guarded::new(&[]),
            first: Guarded::new(&[]),
            second: Guarded::new(&[]),
            every: 1,
            calls: 0,
        }
    }

    /// Puts changed contents before both.
    pub fn reload(&mut self) {
        self.model.set(&self.expected_model);
        self.names.set(&self.expected_names);
        self.observations.set(&self.expected_observations);
        self.assets.set(&self.expected_assets);
    }

    /// Runs a call on both and compares answer, reply, stores, inputs and guards.
    pub fn call(&mut self, call: &Call) -> Result<Answer, String> {
        let answer = match call {
            Call::Observe { item, time, host, value } => self.observe(*item, *time, *host, *value),
            Call::ObserveBatch { records, host, answers } => self.observe_batch(records, *host, answers),
            Call::ReadLine { line, host } => self.read_line(line, *host),
            Call::WriteLine { item, time, value, text } => self.write_line(*item, *time, *value, text),
            Call::Streams { reply, given, text } => self.streams(reply, *given, text),
            Call::StoreAsset { id, body, host } => self.store_asset(id, body, *host),
            Call::Request { text, reply } => self.request(text, reply),
            Call::Body { id } => self.body(id),
        }?;
        self.compare_inputs()?;
        self.calls += 1;
        if self.calls.is_multiple_of(self.every) {
            self.compare_stores()?;
        }
        Ok(answer)
    }

    fn observe(&mut self, item: u64, time: u64, host: u64, value: u64) -> Result<Answer, String> {
        let (model, names) = (self.model.inner(), self.names.inner());
        let got = self.core.observe(model, names, self.observations.inner_mut(), item, time, host, value);
        let expected = Core::observe(
            &self.reference,
            &self.expected_model,
            &self.expected_names,
            &mut self.expected_observations,
            item,
            time,
            host,
            value,
        );
        self.compare(Answer::Word(got), Answer::Word(expected))
    }

    fn observe_batch(&mut self, records: &[Record], host: u64, answers: &[u64]) -> Result<Answer, String> {
        self.records.set(records);
        self.lay_out(answers);
        let got = self.core.observe_batch(
            self.model.inner(),
            self.names.inner(),
            self.observations.inner_mut(),
            self.records.inner(),
            host,
            self.core_reply.inner_mut(),
        );
        let expected = Core::observe_batch(
            &self.reference,
            &self.expected_model,
            &self.expected_names,
            &mut self.expected_observations,
            records,
            host,
            &mut self.reply,
        );
        Answer::Pair(got.0, got.1).in_use(self.core_reply.inner())?;
        if !self.records.holds(records) {
            return Err("the records were written to".into());
        }
        self.compare_reply(got, expected)
    }

    fn read_line(&mut self, line: &[u8], host: u64) -> Result<Answer, String> {
        self.first.set(line);
        let (model, names, text) = (self.model.inner(), self.names.inner(), self.first.inner());
        let got = self.core.read_line(model, names, self.observations.inner_mut(), text, host);
        let expected = Core::read_line(
            &self.reference,
            &self.expected_model,
            &self.expected_names,
            &mut self.expected_observations,
            line,
            host,
        );
        if !self.first.holds(line) {
            return Err("the line was written to".into());
        }
        self.compare(Answer::Word(got), Answer::Word(expected))
    }

    fn write_line(&mut self, item: u64, time: u64, value: u64, text: &[u8]) -> Result<Answer, String> {
        self.lay_out_text(text);
        let (model, names) = (self.model.inner(), self.names.inner());
        let got = self.core.write_line(model, names, item, time, value, self.core_text.inner_mut());
        let (model, names) = (&self.expected_model, &self.expected_names);
        let expected = Core::write_line(&self.reference, model, names, item, time, value, &mut self.text);
        self.compare_text(got, expected)
    }

    fn streams(&mut self, reply: &[u64], given: Given, text: &[u8]) -> Result<Answer, String> {
        self.rows.set(reply);
        self.lay_out_text(text);
        let Given { n, instance_id, creation_time } = given;
        let got = self.core.streams(
            self.model.inner(),
            self.names.inner(),
            self.rows.inner(),
            n,
            instance_id,
            creation_time,
            self.core_text.inner_mut(),
        );
        let (model, names) = (&self.expected_model, &self.expected_names);
        let expected = self.reference.streams(model, names, reply, given, &mut self.text).pair();
        if !self.rows.holds(reply) {
            return Err("the reply was written to".into());
        }
        self.compare_text(got, expected)
    }

    /// The same bytes in both text buffers.
    fn lay_out_text(&mut self, text: &[u8]) {
        self.core_text.set(text);
        self.text.clear();
        self.text.extend_from_slice(text);
    }

    /// Number, bytes and the whole text buffer.
    fn compare_text(&self, got: (u64, u64), expected: (u64, u64)) -> Result<Answer, String> {
        let answer = self.compare(Answer::Pair(got.0, got.1), Answer::Pair(expected.0, expected.1))?;
        if !self.core_text.intact() {
            return Err("bytes beside the text were written to".into());
        }
        same("text byte", self.core_text.inner(), &self.text)?;
        Ok(answer)
    }

    fn store_asset(&mut self, id: &[u8], body: &[u8], host: u64) -> Result<Answer, String> {
        self.first.set(id);
        self.second.set(body);
        let got = self.core.store_asset(
            self.model.inner(),
            self.names.inner(),
            self.observations.inner_mut(),
            self.assets.inner_mut(),
            self.first.inner(),
            self.second.inner(),
            host,
        );
        let expected = Core::store_asset(
            &self.reference,
            &self.expected_model,
            &self.expected_names,
            &mut self.expected_observations,
            &mut self.expected_assets,
            id,
            body,
            host,
        );
        if !self.first.holds(id) || !self.second.holds(body) {
            return Err("id or body was written to".into());
        }
        self.compare(Answer::Word(got), Answer::Word(expected))
    }

    fn request(&mut self, text: &[u8], reply: &[u64]) -> Result<Answer, String> {
        self.first.set(text);
        self.lay_out(reply);
        let got = self.core.request(
            self.model.inner(),
            self.names.inner(),
            self.observations.inner(),
            self.assets.inner(),
            self.first.inner(),
            self.core_reply.inner_mut(),
        );
        let expected = Core::request(
            &self.reference,
            &self.expected_model,
            &self.expected_names,
            &self.expected_observations,
            &self.expected_assets,
            text,
            &mut self.reply,
        );
        if !self.first.holds(text) {
            return Err("the text was written to".into());
        }
        self.compare_reply(got, expected)
    }

    /// The same words in both reply buffers.
    fn lay_out(&mut self, reply: &[u64]) {
        self.core_reply.set(reply);
        self.reply.clear();
        self.reply.extend_from_slice(reply);
    }

    /// Number, count and the whole reply buffer.
    fn compare_reply(&self, got: (u64, u64), expected: (u64, u64)) -> Result<Answer, String> {
        let answer = self.compare(Answer::Pair(got.0, got.1), Answer::Pair(expected.0, expected.1))?;
        if !self.core_reply.intact() {
            return Err("words beside the reply were written to".into());
        }
        if self.core_reply.inner() != self.reply {
            return Err(format!("reply {:?}, expected {:?}", self.core_reply.inner(), self.reply));
        }
        Ok(answer)
    }

    fn body(&mut self, id: &[u8]) -> Result<Answer, String> {
        self.first.set(id);
        let got = self.core.body(self.assets.inner(), self.first.inner());
        let expected = Core::body(&self.reference, &self.expected_assets, id);
        if !self.first.holds(id) {
            return Err("the id was written to".into());
        }
        self.compare(part(got), part(expected))
    }

    fn compare(&self, got: Answer, expected: Answer) -> Result<Answer, String> {
        got.in_use(&[])?;
        if got != expected {
            return Err(format!("answer {got:?}, expected {expected:?}"));
        }
        Ok(got)
    }

    /// What a call only reads stayed, and nothing beside a slice was written.
    fn compare_inputs(&self) -> Result<(), String> {
        if !self.model.holds(&self.expected_model) || !self.names.holds(&self.expected_names) {
            return Err("model or names were written to".into());
        }
        if !self.observations.intact() || !self.assets.intact() {
            return Err("cells beside a store were written to".into());
        }
        Ok(())
    }

    /// Both stores word for word.
    pub fn compare_stores(&self) -> Result<(), String> {
        same("observation store word", self.observations.inner(), &self.expected_observations)?;
        same("asset store byte", self.assets.inner(), &self.expected_assets)
    }
}

/// Any empty part will do.
fn part((start, length): (u64, u64)) -> Answer {
    if length == 0 {
        return Answer::Part(0, 0);
    }
    Answer::Part(start, length)
}

/// Equal slices, or the first place where they differ.
pub fn same<T: PartialEq + std::fmt::Debug>(what: &str, got: &[T], expected: &[T]) -> Result<(), String> {
    if got == expected {
        return Ok(());
    }
    match got.iter().zip(expected).position(|(a, b)| a != b) {
        Some(at) => Err(format!("{what} {at}: {:?}, expected {:?}", got[at], expected[at])),
        None => Err(format!("{what}: lengths {} and {}", got.len(), expected.len())),
    }
}
