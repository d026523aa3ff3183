//! What stands on a condition item, found by searching the record.

use super::{Machine, Observation};
use crate::answer::Refusal;
use crate::faults::{Fault, FaultSet};
use crate::value::{Level, Value};

/// The most codes that stand on an item together.
const MOST_CODES: usize = 8;

impl<F: FaultSet> Machine<F> {
    /// The rows of a condition item at a number: the codes that stand, in the order added, each by its
    /// newest observation. With none standing, the item's newest observation.
    pub fn shown(&self, item: usize, at: u64) -> Vec<Observation> {
        let mut rows = self.standing(item, at);
        if rows.is_empty() {
            rows.extend(self.newest(item, at).filter(|newest| !self.is_left_out(newest.value)));
        }
        if self.faults.has(Fault::RowsByNumber) {
            rows.sort_by_key(|row| row.number);
        }
        if self.faults.has(Fault::FirstRowOnly) {
            rows.truncate(1);
        }
        rows
    }

    /// The newest observation of each code that is a Warning or Fault, since the last clearing of all.
    pub fn standing(&self, item: usize, at: u64) -> Vec<Observation> {
        let upto = self.history.len().min((at + 1).saturating_sub(self.b) as usize);
        let of_item = self.history[..upto].iter().rev().filter(|old| old.item == item);
        // Newest first.
        let since: Vec<Observation> =
            of_item.take_while(|old| !self.clears_all(old.value)).copied().collect();
        let mut found: Vec<(u64, Observation)> = Vec::new();
        for (back, &newest) in since.iter().enumerate() {
            let later = since[..back].iter().any(|old| self.concerns(old.value, newest.value));
            if later || !is_raised(newest.value) {
                continue;
            }
            let added = self.added(&since[back..], newest);
            let number = if self.faults.has(Fault::ReplacedKeepsNumber) { added } else { newest.number };
            found.push((added, Observation { number, ..newest }));
        }
        if !self.faults.has(Fault::ReplacedToEnd) {
            found.sort_by_key(|&(added, _)| added);
        } else {
            found.reverse();
        }
        let pushed_out = found.len().saturating_sub(MOST_CODES);
        found.into_iter().skip(pushed_out).map(|(_, row)| row).collect()
    }

    /// The number that a code was added by: its oldest Warning or Fault behind its last Normal.
    fn added(&self, since: &[Observation], newest: Observation) -> u64 {
        let of_code = since.iter().filter(|old| self.concerns(old.value, newest.value));
        of_code.take_while(|old| is_raised(old.value)).last().map_or(newest.number, |oldest| oldest.number)
    }

    /// Whether the value says something of the code that the other one raised.
    fn concerns(&self, value: Value, raised: Value) -> bool {
        let apart = self.faults.has(Fault::LevelsApart) && is_raised(value);
        code(value) == code(raised) && (!apart || value == raised)
    }

    /// Unavailable and Normal 0.
    fn clears_all(&self, value: Value) -> bool {
        match value {
            Value::Unavailable => !self.faults.has(Fault::UnavailableClearsNothing),
            Value::Condition(Level::Normal, 0) => !self.faults.has(Fault::NormalZeroClearsOne),
            Value::Condition(Level::Normal, _) => self.faults.has(Fault::NormalClearsAll),
            _ => false,
        }
    }

    /// Whether a planted fault leaves out the Normal of an item's last code.
    fn is_left_out(&self, value: Value) -> bool {
        self.faults.has(Fault::LastNormalLeavesNothing)
            && matches!(value, Value::Condition(Level::Normal, 1..))
    }

    /// A repeated level of a code, a repeated Unavailable, or a Normal that clears nothing, unless it is
    /// Normal 0 after Unavailable.
    pub(super) fn is_same_condition(&self, item: usize, value: Value) -> bool {
        if self.faults.has(Fault::SameByNewest) {
            return self.newest(item, self.last()).is_some_and(|old| old.value == value);
        }
        let standing = self.standing(item, self.last());
        let none = standing.is_empty();
        let lost = self.newest(item, self.last()).is_some_and(|old| old.value == Value::Unavailable);
        match value {
            Value::Condition(Level::Normal, 0) => {
                none && (!lost || self.faults.has(Fault::NormalZeroAlwaysSame))
            }
            Value::Condition(Level::Normal, _) => {
                let clears = standing.iter().any(|row| code(row.value) == code(value));
                let recorded = self.faults.has(Fault::UnknownNormalRecorded)
                    || (lost && self.faults.has(Fault::NormalAfterUnavailable));
                !clears && !recorded
            }
            Value::Condition(..) => standing.iter().any(|row| row.value == value),
            _ => none && lost,
        }
    }

    /// No further code while as many stand as may.
    pub(super) fn not_crowded(&self, item: usize, value: Value) -> Result<(), Refusal> {
        if self.faults.has(Fault::SpentBeforeCrowded) {
            self.not_spent()?;
        }
        if !is_raised(value) || self.faults.has(Fault::NinthPushesOut) {
            return Ok(());
        }
        let most = if self.faults.has(Fault::EighthCrowded) { MOST_CODES - 1 } else { MOST_CODES };
        let standing = self.standing(item, self.last());
        let replaces = standing.iter().any(|row| self.concerns(row.value, value));
        if standing.len() >= most && (!replaces || self.faults.has(Fault::ReplacingCrowded)) {
            return Err(Refusal::Crowded);
        }
        Ok(())
    }

    /// Whether a planted fault takes a repeated level for crowded.
    pub(super) fn is_crowded_before_same(&self, item: usize, value: Value) -> bool {
        if !is_raised(value) || !self.faults.has(Fault::CrowdedBeforeSame) {
            return false;
        }
        let standing = self.standing(item, self.last());
        standing.len() == MOST_CODES && standing.iter().any(|row| row.value == value)
    }
}

fn is_raised(value: Value) -> bool {
    matches!(value, Value::Condition(Level::Warning | Level::Fault, _))
}

fn code(value: Value) -> Option<u32> {
    match value {
        Value::Condition(_, code) => Some(code),
        _ => None,
    }
}
