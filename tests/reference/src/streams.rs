//! What stands in an MTConnectStreams document: what the host gives, and what a reply's words say. The two layers
//! take a reply apart each by itself.

use crate::answer::{Done, Refusal};
use crate::calendar::last_time;
use crate::faults::{Fault, FaultSet};
use crate::model::{Model, ASSET_CHANGE, CONDITION, DISCRETE};
use crate::value::{item_of, Level, Value, CODES};

/// What the host gives for a document's header.
#[derive(Clone, Copy, PartialEq, Eq, Debug)]
pub struct Given {
    pub n: u64,
    pub instance_id: u64,
    pub creation_time: u64,
}

impl Given {
    pub fn is_late<F: FaultSet>(&self, faults: F) -> bool {
        self.creation_time > last_time(faults) && !faults.has(Fault::CreationTimeUntested)
    }
}

/// The sequence numbers that a reply begins with, behind the number of its rows.
#[derive(Clone, Copy, PartialEq, Eq, Debug)]
pub struct Sizes {
    pub first: u64,
    pub last: u64,
    pub next: u64,
}

impl Sizes {
    /// Only a planted fault asks whether they go together.
    pub fn refused<F: FaultSet>(&self, faults: F) -> bool {
        let Sizes { first, last, next } = *self;
        let end = last.saturating_add(1);
        faults.has(Fault::SizesTested) && !(first <= end && (first..=end).contains(&next))
    }
}

/// The parts of a component that rows stand in.
#[derive(Clone, Copy, PartialEq, Eq, Debug)]
pub enum Group {
    Samples,
    Events,
    Condition,
}

impl Group {
    /// How many there are.
    pub const COUNT: usize = 3;

    /// In the order of a document.
    pub fn ordered<F: FaultSet>(faults: F) -> [Group; Group::COUNT] {
        if faults.has(Fault::ConditionBeforeEvents) {
            return [Group::Samples, Group::Condition, Group::Events];
        }
        [Group::Samples, Group::Events, Group::Condition]
    }

    fn of<F: FaultSet>(category: u32, faults: F) -> Group {
        match category {
            0 => Group::Samples,
            CONDITION => Group::Condition,
            DISCRETE if faults.has(Fault::DiscreteUnderSamples) => Group::Samples,
            ASSET_CHANGE if faults.has(Fault::AssetRowUnderCondition) => Group::Condition,
            _ => Group::Events,
        }
    }

    pub fn name(self) -> &'static [u8] {
        match self {
            Group::Samples => b"Samples",
            Group::Events => b"Events",
            Group::Condition => b"Condition",
        }
    }
}

/// A row of a reply: an observation that its item can have.
#[derive(Clone, Copy, PartialEq, Eq, Debug)]
pub struct Row {
    pub number: u64,
    pub time: u64,
    pub item: usize,
    pub value: Value,
}

impl Row {
    /// None where no item can have the packed value.
    pub fn read<F: FaultSet>(model: &Model, number: u64, time: u64, packed: u64, faults: F) -> Option<Row> {
        let item = match item_of(packed) {
            item if faults.has(Fault::RowItemCut) => item % 256,
            item if faults.has(Fault::ItemBehindLastTaken) && item == model.items() as u64 => item - 1,
            item => item,
        };
        let item = usize::try_from(item).ok().filter(|&item| item < model.items())?;
        Some(Row { number, time, item, value: value(packed % (1 << 40), model.category(item), faults)? })
    }

    pub fn is_late<F: FaultSet>(&self, faults: F) -> bool {
        is_late(self.time, faults)
    }

    /// The component that the row stands under: its item's own.
    pub fn component<F: FaultSet>(&self, model: &Model, faults: F) -> usize {
        let own = model.component(self.item);
        if faults.has(Fault::RowUnderParent) {
            return model.parent(own);
        }
        let alike = |&other: &usize| model.component_type(other) == model.component_type(own);
        let first = || (0..own).find(alike);
        if faults.has(Fault::EqualTypesMerged) { first() } else { None }.unwrap_or(own)
    }

    pub fn group<F: FaultSet>(&self, model: &Model, faults: F) -> Group {
        Group::of(model.category(self.item), faults)
    }
}

/// Whether a row's time is after the last.
pub fn is_late<F: FaultSet>(time: u64, faults: F) -> bool {
    time > last_time(faults) && !faults.has(Fault::RowTimeUntested)
}

/// The value of a word, if an item of the category can have it. Asset changes are events.
fn value<F: FaultSet>(word: u64, category: u32, faults: F) -> Option<Value> {
    let word = if faults.has(Fault::RowKindCut) { word % (1 << 34) } else { word };
    let (kind, low) = (word >> 32, word as u32);
    let value = match kind {
        0 if faults.has(Fault::UnavailableLowTaken) => Value::Unavailable,
        3 if low / CODES == 3 && faults.has(Fault::LevelThreeTaken) => {
            Value::Condition(Level::Fault, low % CODES)
        }
        _ => Value::decode(word),
    };
    let can = match (category, value) {
        (_, Value::Unavailable) => true,
        (0, Value::Sample(_)) => true,
        (1 | DISCRETE, Value::Event(_)) => true,
        (ASSET_CHANGE, Value::Event(_)) => !faults.has(Fault::AssetRowRefused),
        (CONDITION, Value::Condition(_, code)) => code < CODES,
        (_, value) => value != Value::NONE && faults.has(Fault::OtherKindWritten),
    };
    can.then_some(value)
}

/// Puts the document into the text, whole or not at all. With it stands whether a time is after the last: only where
/// a planted fault tests the room before.
pub fn hand_over<F: FaultSet>(
    document: Result<(Vec<u8>, bool), Refusal>,
    text: &mut [u8],
    faults: F,
) -> Done {
    let spare = usize::from(faults.has(Fault::ExactDocumentRefused));
    let answer = document.and_then(|(document, late)| {
        if text.len() < document.len() + spare {
            if faults.has(Fault::ShortDocumentCut) {
                text.copy_from_slice(&document[..text.len()]);
            }
            return Err(Refusal::Space);
        }
        if late {
            return Err(Refusal::Stamp);
        }
        let (place, behind) = text.split_at_mut(document.len());
        place.copy_from_slice(&document);
        if faults.has(Fault::DocumentTailCleared) {
            behind.fill(0);
        }
        Ok(document.len() as u64)
    });
    if answer.is_err() && faults.has(Fault::RefusedDocumentWrites) {
        text.iter_mut().take(1).for_each(|byte| *byte = 0);
    }
    answer.into()
}

/// Whether a planted fault refuses a buffer that no document has room in, ahead of the reply.
pub fn no_room<F: FaultSet>(room: usize, faults: F) -> bool {
    room < 100 && faults.has(Fault::RoomBeforeReply)
}
