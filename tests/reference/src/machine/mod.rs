//! The machine that forgets nothing.
//!
//! Its state is N, A, B, every observation recorded and every asset stored. It knows no ring, no
//! latest values, no checkpoints and no byte cells: it searches what it has. It is fed model,
//! names and each call's arguments, and of the stores only their lengths at start.

mod batch;
mod conditions;
mod contents;
mod lines;
mod requests;
mod streams;

use crate::answer::{Observed, Refusal, Stored};
use crate::faults::{Clean, Fault, FaultSet};
use crate::model::{Model, CONDITION};
use crate::value::Value;
use crate::{LARGEST, MOST_CELLS, MOST_PLACES};

/// One observation recorded.
#[derive(Clone, Copy, PartialEq, Eq, Debug)]
pub struct Observation {
    pub number: u64,
    pub item: usize,
    pub time: u64,
    pub value: Value,
}

/// One asset stored.
#[derive(Clone, PartialEq, Eq, Debug)]
pub struct Asset {
    pub id: Vec<u8>,
    pub body: Vec<u8>,
}

/// The machine after a start.
#[derive(Clone, Debug)]
pub struct Machine<F: FaultSet = Clean> {
    faults: F,
    n: u64,
    a: usize,
    b: u64,
    /// Oldest first; never shortened.
    history: Vec<Observation>,
    /// Oldest first.
    assets: Vec<Asset>,
}

#[allow(clippy::too_many_arguments)]
impl<F: FaultSet> Machine<F> {
    /// One Unavailable per item, numbered from b; no assets.
    pub fn start(
        model: &[u32],
        names: &[u8],
        observations_len: usize,
        assets_len: usize,
        n: u64,
        a: u64,
        b: u64,
        host: u64,
        faults: F,
    ) -> Result<Machine<F>, Refusal> {
        let model = Model::check(model, names, faults).ok_or(Refusal::Model)?;
        let m = model.items() as u64;
        let sized = (1..=MOST_PLACES).contains(&n) && (1..=MOST_CELLS).contains(&a);
        let numbered = b >= 1 && b <= (1 << 63) - m;
        if !sized || !numbered {
            return Err(Refusal::Size);
        }
        if observations_len as u64 != 4 + 2 * n + 48 * m || assets_len as u64 != 2 + 544 * a {
            return Err(Refusal::Size);
        }
        let unavailable = |item: usize| Observation {
            number: b + item as u64,
            item,
            time: host,
            value: Value::Unavailable,
        };
        let history = (0..model.items()).map(unavailable).collect();
        Ok(Machine { faults, n, a: a as usize, b, history, assets: Vec::new() })
    }

    pub fn history(&self) -> &[Observation] {
        &self.history
    }

    pub fn assets(&self) -> &[Asset] {
        &self.assets
    }

    pub fn places(&self) -> u64 {
        self.n
    }

    pub fn cells(&self) -> usize {
        self.a
    }

    /// The first number of all.
    pub fn origin(&self) -> u64 {
        self.b
    }

    pub fn last(&self) -> u64 {
        self.history.last().map_or(self.b - 1, |newest| newest.number)
    }

    /// The lowest number that may still be asked for.
    pub fn first(&self) -> u64 {
        let kept = self.n + u64::from(self.faults.has(Fault::FirstTooLow));
        let first = self.b.max((self.last() + 1).saturating_sub(kept));
        if self.faults.has(Fault::FirstTooHigh) && first > self.b {
            return (first + 1).min(self.last());
        }
        first
    }

    pub fn observe(
        &mut self,
        model: &[u32],
        names: &[u8],
        item: u64,
        time: u64,
        host: u64,
        value: Value,
    ) -> Observed {
        self.try_observe(model, names, item, time, host, value).into()
    }

    fn try_observe(
        &mut self,
        model: &[u32],
        names: &[u8],
        item: u64,
        time: u64,
        host: u64,
        value: Value,
    ) -> Result<Option<u64>, Refusal> {
        let model = self.model(model, names)?;
        if item >= model.items() as u64 {
            return Err(Refusal::Item);
        }
        let item = item as usize;
        let category = model.category(item);
        if self.faults.has(Fault::SameBeforeKind) && self.is_same(category, item, value) {
            return Ok(None);
        }
        if !value.allowed(category, self.faults) {
            return Err(Refusal::Kind);
        }
        if self.faults.has(Fault::SpentBeforeSame) {
            self.not_spent()?;
        }
        if category == CONDITION && self.is_crowded_before_same(item, value) {
            return Err(Refusal::Crowded);
        }
        if self.is_same(category, item, value) {
            return Ok(None);
        }
        if category == CONDITION {
            self.not_crowded(item, value)?;
        }
        self.not_spent()?;
        let time = if time == 0 && !self.faults.has(Fault::MissingTimeKept) { host } else { time };
        Ok(Some(self.record(item, time, value)))
    }

    /// The value is the item's newest: Same, unless discrete.
    fn is_same(&self, category: u32, item: usize, value: Value) -> bool {
        let overlooked = self.faults.has(Fault::DiscreteSameSpent) && self.not_spent().is_err();
        let discrete = value.counts_when_equal(category, self.faults) && !overlooked;
        if category == CONDITION && value.allowed(category, self.faults) {
            let held = self.faults.has(Fault::SameAfterAnyEqual) && self.is_newest(item, value);
            return held || (self.is_same_condition(item, value) && !self.faults.has(Fault::NeverSame));
        }
        self.is_newest(item, value) && !discrete
    }

    /// Whether the value is the item's newest.
    fn is_newest(&self, item: usize, value: Value) -> bool {
        if self.faults.has(Fault::NeverSame) {
            return false;
        }
        let mut earlier = self.history.iter().rev().filter(|old| old.item == item);
        if self.faults.has(Fault::SameWithoutKind) {
            let low = value.low(self.faults) as u32;
            return earlier.next().is_some_and(|old| old.value.low(self.faults) as u32 == low);
        }
        if self.faults.has(Fault::SameAfterAnyEqual) {
            return earlier.any(|old| old.value == value);
        }
        earlier.next().is_some_and(|old| old.value == value)
    }

    fn not_spent(&self) -> Result<(), Refusal> {
        let end = if self.faults.has(Fault::SpentTooEarly) { LARGEST - 1 } else { LARGEST };
        if self.last() >= end {
            return Err(Refusal::Spent);
        }
        Ok(())
    }

    fn record(&mut self, item: usize, mut time: u64, value: Value) -> u64 {
        let number = self.last() + 1;
        if self.faults.has(Fault::TimesMadeToRise) {
            let newest = self.newest(item, number).map_or(0, |old| old.time);
            time = time.max(newest);
        }
        self.history.push(Observation { number, item, time, value });
        number
    }

    /// The item's newest observation numbered at or below a number.
    fn newest(&self, item: usize, at: u64) -> Option<&Observation> {
        self.history.iter().rev().find(|old| old.item == item && old.number <= at)
    }

    pub fn store_asset(&mut self, model: &[u32], names: &[u8], id: &[u8], body: &[u8], host: u64) -> Stored {
        self.try_store_asset(model, names, id, body, host).into()
    }

    fn try_store_asset(
        &mut self,
        model: &[u32],
        names: &[u8],
        id: &[u8],
        body: &[u8],
        host: u64,
    ) -> Result<u64, Refusal> {
        let event_for = self.model(model, names)?.asset_item(self.faults);
        let longest = if self.faults.has(Fault::LongestBodyRefused) { 509 } else { 510 };
        if !id_valid(id, self.faults) || body.is_empty() || body.len() > longest {
            return Err(Refusal::Asset);
        }
        if event_for.is_some() {
            self.not_spent()?;
        }
        let before = self.find(id);
        let cell = self.put(id, body) as u64;
        if let Some(item) = event_for {
            let moved_from = before.filter(|_| self.faults.has(Fault::EventCodeBeforeMove));
            let code = Value::Event(moved_from.map_or(cell as u32, |at| at as u32));
            let newest = self.newest(item, LARGEST).map(|old| old.value);
            if newest != Some(code) || !self.faults.has(Fault::EqualEventDropped) {
                self.record(item, host, code);
            }
        }
        Ok(cell)
    }

    /// Removes what makes way and puts the asset last. Answers its place.
    fn put(&mut self, id: &[u8], body: &[u8]) -> usize {
        let asset = Asset { id: id.to_vec(), body: body.to_vec() };
        let found = self.find(id);
        let full = self.assets.len() == self.a;
        match found {
            Some(at) if self.faults.has(Fault::ReplacedKeepsCell) => {
                self.assets[at] = asset;
                return at;
            }
            Some(at) => {
                self.assets.remove(at);
                if full && !self.assets.is_empty() && self.faults.has(Fault::ReplacedEvictsToo) {
                    self.assets.remove(0);
                }
            }
            None if full && self.faults.has(Fault::NewestEvicted) => {
                self.assets.pop();
            }
            None if full => {
                self.assets.remove(0);
            }
            None => {}
        }
        self.assets.push(asset);
        self.assets.len() - 1
    }

    fn find(&self, id: &[u8]) -> Option<usize> {
        let prefix = self.faults.has(Fault::IdPrefix);
        self.assets.iter().position(|asset| asset.id == id || (prefix && asset.id.starts_with(id)))
    }

    /// The asset's body; empty where the id is not stored.
    pub fn body(&self, id: &[u8]) -> &[u8] {
        if !id_valid(id, self.faults) {
            return &[];
        }
        self.find(id).map_or(&[], |at| &self.assets[at].body)
    }

    fn model<'a>(&self, words: &'a [u32], names: &'a [u8]) -> Result<Model<'a>, Refusal> {
        Model::check(words, names, self.faults).ok_or(Refusal::Model)
    }
}

/// 1 to 32 bytes of 33..126 without `;`, `/` and `?`.
fn id_valid<F: FaultSet>(id: &[u8], faults: F) -> bool {
    let kept_out: &[u8] = match (faults.has(Fault::QuestionMarkInIds), faults.has(Fault::ColonRefusedInIds)) {
        (false, false) => b";/?",
        (true, _) => b";/",
        (false, true) => b";/?:",
    };
    (1..=32).contains(&id.len()) && id.iter().all(|byte| matches!(byte, 33..=126) && !kept_out.contains(byte))
}
