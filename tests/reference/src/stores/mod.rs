//! The calls over their stores, as the C interface takes them: any words, any lengths.
//!
//! Every call checks all it takes and changes nothing before its last check.

mod assets;
mod batch;
mod conditions;
mod lines;
mod observations;
mod request;
mod streams;

use crate::answer::{Done, Observed, Refusal, Stored};
use crate::calls::{Core, Record};
use crate::faults::{Clean, Fault, FaultSet};
use crate::misjudged;
use crate::model::Model;
use crate::streams::Given;
use crate::value::{item_of, Value, EVENT_KIND};
use crate::{LARGEST, MOST_CELLS, MOST_PLACES};
use assets::Cells;
use conditions::Standing;
use observations::{Head, Newest, Row, Table};
use request::View;

/// The calls over stores, with their planted faults.
#[derive(Clone, Copy, Default, Debug)]
pub struct Stores<F: FaultSet = Clean> {
    pub faults: F,
}

/// Words of an observation store.
pub fn observation_words(n: usize, m: usize) -> usize {
    observations::HEAD + 2 * n + 6 * conditions::ENTRIES * m
}

/// Bytes of an asset store.
pub fn asset_bytes(a: usize) -> usize {
    assets::length(a)
}

#[allow(clippy::too_many_arguments)]
impl<F: FaultSet> Stores<F> {
    pub fn new(faults: F) -> Stores<F> {
        Stores { faults }
    }

    pub fn start(
        &self,
        model: &[u32],
        names: &[u8],
        observations: &mut [u64],
        assets: &mut [u8],
        n: u64,
        a: u64,
        b: u64,
        host: u64,
    ) -> Done {
        self.try_start(model, names, observations, assets, [n, a, b], host).into()
    }

    fn try_start(
        &self,
        model: &[u32],
        names: &[u8],
        observations: &mut [u64],
        assets: &mut [u8],
        [n, a, b]: [u64; 3],
        host: u64,
    ) -> Result<u64, Refusal> {
        let model = self.model(model, names)?;
        let m = model.items();
        if !(1..=MOST_PLACES).contains(&n) || !(1..=MOST_CELLS).contains(&a) {
            return Err(Refusal::Size);
        }
        if b == 0 || b > LARGEST - m as u64 + 1 {
            return Err(Refusal::Size);
        }
        if observations.len() != observation_words(n as usize, m) || assets.len() != asset_bytes(a as usize) {
            return Err(Refusal::Size);
        }
        observations::start(observations, &model, n as usize, b, host, self.faults);
        assets::start(assets, a as u8, self.faults);
        Ok(0)
    }

    pub fn observe(
        &self,
        model: &[u32],
        names: &[u8],
        observations: &mut [u64],
        item: u64,
        time: u64,
        host: u64,
        value: Value,
    ) -> Observed {
        self.try_observe(model, names, observations, item, time, host, value).into()
    }

    fn try_observe(
        &self,
        model: &[u32],
        names: &[u8],
        words: &mut [u64],
        item: u64,
        time: u64,
        host: u64,
        value: Value,
    ) -> Result<Option<u64>, Refusal> {
        let model = self.model(model, names)?;
        let head = Head::check(words, &model, self.faults).ok_or(Refusal::Store)?;
        self.offer(&model, &head, words, None, item, time, host, value)
    }

    /// Observe behind the checks of model and head. Same is looked for in other words only by a planted fault.
    fn offer(
        &self,
        model: &Model,
        head: &Head,
        words: &mut [u64],
        stale: Option<&[u64]>,
        item: u64,
        time: u64,
        host: u64,
        value: Value,
    ) -> Result<Option<u64>, Refusal> {
        if item >= model.items() as u64 {
            return Err(Refusal::Item);
        }
        let item = item as usize;
        // A discrete item is asked for no Same, and its latest word is not read.
        let discrete = self.is_discrete(head, model, item, value);
        if !discrete && self.same_before_kind(head, words, item, value) {
            return Ok(None);
        }
        if !value.allowed(model.category(item), self.faults) {
            return Err(Refusal::Kind);
        }
        if self.faults.has(Fault::SpentBeforeSame) {
            head.not_spent(self.faults)?;
        }
        let missing = time == 0 && !self.faults.has(Fault::MissingTimeKept);
        let time = if missing { host } else { time };
        let packed = value.packed(item as u64, self.faults);
        if head.is_condition(item) {
            return self.offer_condition(head, words, stale, item, time, packed);
        }
        if !discrete && head.is_latest(stale.unwrap_or(words), item, packed, self.faults) {
            if self.faults.has(Fault::SameRenewsTime) {
                head.set_latest(words, item, Row { time, ..head.latest(words, item) });
            }
            return Ok(None);
        }
        self.add(head, words, item, time, packed, discrete).map(Some)
    }

    /// The same for a condition item: the entries' form, Same, and room among them.
    fn offer_condition(
        &self,
        head: &Head,
        words: &mut [u64],
        stale: Option<&[u64]>,
        item: usize,
        time: u64,
        packed: u64,
    ) -> Result<Option<u64>, Refusal> {
        let faults = self.faults;
        if self.same_before_form(head, words, item, packed) {
            return Ok(None);
        }
        let mut latest = head.standing(words, Table::Latest, item, Fault::ObserveFormUntested, faults)?;
        if latest.is_crowded_before_same(packed, faults) {
            return Err(Refusal::Crowded);
        }
        if self.is_same_condition(head, words, stale, item, packed, &latest) {
            if faults.has(Fault::SameRenewsTime) {
                head.set_standing(words, Table::Latest, item, &latest.renewed(packed, time, faults));
            }
            return Ok(None);
        }
        if faults.has(Fault::SpentBeforeCrowded) {
            head.not_spent(faults)?;
        }
        if latest.is_crowded_for(packed, faults) {
            return Err(Refusal::Crowded);
        }
        let place = head.make_room(words, item, faults)?;
        let newest = Newest { item, time, packed, standing: Some(&mut latest) };
        Ok(Some(head.record(words, place, newest, faults)))
    }

    fn is_same_condition(
        &self,
        head: &Head,
        words: &[u64],
        stale: Option<&[u64]>,
        item: usize,
        packed: u64,
        latest: &Standing,
    ) -> bool {
        if self.faults.has(Fault::NeverSame) {
            return false;
        }
        let entries = |words| head.entries_of(words, Table::Latest, item);
        let stale = stale.map(|words| Standing::of(entries(words), item, self.faults));
        let latest = stale.as_ref().unwrap_or(latest);
        latest.is_same(packed, self.faults) || head.is_held(words, packed, self.faults)
    }

    /// Whether a planted fault says Same ahead of the entries' form.
    fn same_before_form(&self, head: &Head, words: &[u64], item: usize, packed: u64) -> bool {
        let entries = head.entries_of(words, Table::Latest, item);
        self.faults.has(Fault::SameBeforeForm)
            && Standing::of(entries, item, self.faults).is_same(packed, self.faults)
    }

    /// Whether a planted fault says Same ahead of the kind.
    fn same_before_kind(&self, head: &Head, words: &[u64], item: usize, value: Value) -> bool {
        if value == Value::NONE || !self.faults.has(Fault::SameBeforeKind) {
            return false;
        }
        head.is_latest(words, item, value.packed(item as u64, self.faults), self.faults)
    }

    /// Whether the value counts even when equal.
    fn is_discrete(&self, head: &Head, model: &Model, item: usize, value: Value) -> bool {
        let overlooked = self.faults.has(Fault::DiscreteSameSpent) && head.not_spent(self.faults).is_err();
        value.counts_when_equal(model.category(item), self.faults) && !overlooked
    }

    /// Records if it can. Only planted faults look at what the item stands at.
    fn add(
        &self,
        head: &Head,
        words: &mut [u64],
        item: usize,
        time: u64,
        packed: u64,
        discrete: bool,
    ) -> Result<u64, Refusal> {
        let latest = head.latest(words, item);
        let odd = discrete && item_of(latest.packed) != item as u64;
        if odd && self.faults.has(Fault::DiscreteLatestTested) {
            return Err(Refusal::Store);
        }
        head.test_other(words, Table::Latest, item, self.faults)?;
        let place = head.make_room(words, item, self.faults)?;
        let newest = Newest { item, time, packed, standing: None };
        let number = head.record(words, place, newest, self.faults);
        if latest.packed == packed && self.faults.has(Fault::RepeatLeavesLatest) {
            head.set_latest(words, item, latest);
        }
        Ok(number)
    }

    pub fn store_asset(
        &self,
        model: &[u32],
        names: &[u8],
        observations: &mut [u64],
        assets: &mut [u8],
        id: &[u8],
        body: &[u8],
        host: u64,
    ) -> Stored {
        self.try_store_asset(model, names, observations, assets, id, body, host).into()
    }

    fn try_store_asset(
        &self,
        model: &[u32],
        names: &[u8],
        words: &mut [u64],
        bytes: &mut [u8],
        id: &[u8],
        body: &[u8],
        host: u64,
    ) -> Result<u64, Refusal> {
        let model = self.model(model, names)?;
        let head = Head::check(words, &model, self.faults).ok_or(Refusal::Store)?;
        let cells = Cells::check(bytes, self.faults).ok_or(Refusal::Store)?;
        let longest = if self.faults.has(Fault::LongestBodyRefused) { 509 } else { assets::LONGEST };
        if !assets::id_valid(id, self.faults) || !(1..=longest).contains(&body.len()) {
            return Err(Refusal::Asset);
        }
        let event_for = model.asset_item(self.faults);
        let place = event_for.map(|item| head.make_room(words, item, self.faults)).transpose();
        if place.is_err() && self.faults.has(Fault::StoredThoughSpent) {
            cells.store(bytes, id, body, self.faults);
        }
        let place = place?;
        let before = cells.find(bytes, id, self.faults);
        let cell = cells.store(bytes, id, body, self.faults) as u64;
        if let Some((item, place)) = event_for.zip(place) {
            let moved_from = before.filter(|_| self.faults.has(Fault::EventCodeBeforeMove));
            let code = moved_from.map_or(cell, |at| at as u64);
            let packed = ((item as u64) << 40) + (EVENT_KIND << 32) + code;
            let equal = head.is_latest(words, item, packed, Clean);
            if !(equal && self.faults.has(Fault::EqualEventDropped)) {
                let newest = Newest { item, time: host, packed, standing: None };
                head.record(words, place, newest, self.faults);
            }
        }
        Ok(cell)
    }

    pub fn request(
        &self,
        model: &[u32],
        names: &[u8],
        observations: &[u64],
        assets: &[u8],
        text: &[u8],
        reply: &mut [u64],
    ) -> Done {
        let answer = View::check(model, names, observations, assets, self.faults)
            .and_then(|view| view.answer(text, reply));
        if self.faults.has(Fault::RefusalClearsSizes) && answer.is_err() {
            reply.iter_mut().take(4).for_each(|word| *word = 0);
        }
        if let (true, Ok(written)) = (self.faults.has(Fault::TailCleared), &answer) {
            reply[written.words..].fill(0);
        }
        answer.map(|written| written.rows).into()
    }

    /// The place of an asset's body in its store: start and length.
    pub fn body_place(&self, bytes: &[u8], id: &[u8]) -> Option<(usize, usize)> {
        let cells = Cells::check(bytes, self.faults)?;
        let padded = self.faults.has(Fault::BodyByPaddedId) && id.len() <= 32 && !id.is_empty();
        if !assets::id_valid(id, self.faults) && !padded {
            return None;
        }
        let cell = cells.find(bytes, id, self.faults)?;
        let length = cells.length_of(bytes, cell, self.faults).ok()?;
        Some((cells.body_at(cell) + 2, length))
    }

    /// An asset's body, a part of its store; empty where there is none.
    pub fn body<'a>(&self, assets: &'a [u8], id: &[u8]) -> &'a [u8] {
        let Some((start, length)) = self.body_place(assets, id) else {
            return &[];
        };
        assets.get(start..start + length).unwrap_or(&[])
    }

    fn model<'a>(&self, words: &'a [u32], names: &'a [u8]) -> Result<Model<'a>, Refusal> {
        Model::check(words, names, self.faults).ok_or(Refusal::Model)
    }
}

impl<F: FaultSet> Core for Stores<F> {
    fn start(
        &self,
        model: &[u32],
        names: &[u8],
        observations: &mut [u64],
        assets: &mut [u8],
        n: u64,
        a: u64,
        b: u64,
        host: u64,
    ) -> (u64, u64) {
        Stores::start(self, model, names, observations, assets, n, a, b, host).pair()
    }

    fn observe(
        &self,
        model: &[u32],
        names: &[u8],
        observations: &mut [u64],
        item: u64,
        time: u64,
        host: u64,
        value: u64,
    ) -> u64 {
        Stores::observe(self, model, names, observations, item, time, host, Value::decode(value)).word()
    }

    fn observe_batch(
        &self,
        model: &[u32],
        names: &[u8],
        observations: &mut [u64],
        records: &[Record],
        host: u64,
        answers: &mut [u64],
    ) -> (u64, u64) {
        Stores::observe_batch(self, model, names, observations, records, host, answers).pair()
    }

    fn read_line(
        &self,
        model: &[u32],
        names: &[u8],
        observations: &mut [u64],
        line: &[u8],
        host: u64,
    ) -> u64 {
        Stores::read_line(self, model, names, observations, line, host).word()
    }

    fn write_line(
        &self,
        model: &[u32],
        names: &[u8],
        item: u64,
        time: u64,
        value: u64,
        text: &mut [u8],
    ) -> (u64, u64) {
        Stores::write_line(self, model, names, item, time, Value::decode(value), text).pair()
    }

    fn streams(
        &self,
        model: &[u32],
        names: &[u8],
        reply: &[u64],
        n: u64,
        instance_id: u64,
        creation_time: u64,
        text: &mut [u8],
    ) -> (u64, u64) {
        Stores::streams(self, model, names, reply, Given { n, instance_id, creation_time }, text).pair()
    }

    fn store_asset(
        &self,
        model: &[u32],
        names: &[u8],
        observations: &mut [u64],
        assets: &mut [u8],
        id: &[u8],
        body: &[u8],
        host: u64,
    ) -> u64 {
        Stores::store_asset(self, model, names, observations, assets, id, body, host).word()
    }

    fn request(
        &self,
        model: &[u32],
        names: &[u8],
        observations: &[u64],
        assets: &[u8],
        text: &[u8],
        reply: &mut [u64],
    ) -> (u64, u64) {
        let (number, k) = Stores::request(self, model, names, observations, assets, text, reply).pair();
        (misjudged::number(number, self.faults), k)
    }

    fn body(&self, assets: &[u8], id: &[u8]) -> (u64, u64) {
        self.body_place(assets, id).map_or((0, 0), |(start, length)| (start as u64, length as u64))
    }
}
