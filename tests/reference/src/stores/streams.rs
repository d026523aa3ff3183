//! A reply, made into a streams document. The rows are sorted by component and group in one pass.

use super::Stores;
use crate::answer::{Done, Refusal};
use crate::document::Document;
use crate::faults::{Fault, FaultSet};
use crate::model::Model;
use crate::streams::{self, Given, Group, Row, Sizes};

impl<F: FaultSet> Stores<F> {
    pub fn streams(&self, model: &[u32], names: &[u8], reply: &[u64], given: Given, text: &mut [u8]) -> Done {
        let document = self.document(model, names, reply, given, text.len());
        streams::hand_over(document, text, self.faults)
    }

    /// The document, and whether a time is after the last.
    fn document(
        &self,
        model: &[u32],
        names: &[u8],
        reply: &[u64],
        given: Given,
        room: usize,
    ) -> Result<(Vec<u8>, bool), Refusal> {
        let faults = self.faults;
        if faults.has(Fault::ReplyBeforeModel) && reply.len() < 4 {
            return Err(Refusal::Store);
        }
        let model = self.model(model, names)?;
        if streams::no_room(room, faults) {
            return Err(Refusal::Space);
        }
        let (sizes, rows) = read(&model, reply, given, faults)?;
        let late = given.is_late(faults) || rows.iter().any(|row| row.is_late(faults));
        if late && !faults.has(Fault::RoomBeforeStamp) {
            return Err(Refusal::Stamp);
        }
        let sorted = Sorted::new(&model, &rows, faults);
        let document = Document::of(&model, given, sizes, rows.len(), faults, |component, group| {
            sorted.of(component, group).iter().map(|&place| (place, &rows[place]))
        });
        Ok((document, late))
    }
}

/// The sizes and rows of a reply.
fn read<F: FaultSet>(
    model: &Model,
    reply: &[u64],
    given: Given,
    faults: F,
) -> Result<(Sizes, Vec<Row>), Refusal> {
    let (&[k, first, last, next], rest) = reply.split_first_chunk::<4>().ok_or(Refusal::Store)?;
    let k = row_count(k, rest.len(), faults).ok_or(Refusal::Store)?;
    let (numbers, pairs) = rest[..3 * k].split_at(k);
    let behind = &rest[3 * k..];
    let pairs = pairs.chunks_exact(2).map(|pair| (pair[0], pair[1]));
    let sizes = Sizes { first, last, next };
    if sizes.refused(faults) {
        return Err(Refusal::Store);
    }
    let late = || given.is_late(faults) || pairs.clone().any(|(time, _)| streams::is_late(time, faults));
    if faults.has(Fault::StampBeforeRows) && late() {
        return Err(Refusal::Stamp);
    }
    if faults.has(Fault::TimesBehindTested) && behind.iter().any(|&time| streams::is_late(time, faults)) {
        return Err(Refusal::Stamp);
    }
    let row = |(&number, (time, packed)): (&u64, (u64, u64))| {
        let row = Row::read(model, number, time, packed, faults).ok_or(Refusal::Store)?;
        if faults.has(Fault::FirstWrongRowDecides) && row.is_late(faults) {
            return Err(Refusal::Stamp);
        }
        Ok(row)
    };
    let rows = numbers.iter().zip(pairs.clone()).map(row).collect::<Result<Vec<Row>, Refusal>>()?;
    Ok((sizes, rows))
}

/// The rows of a reply with so many words behind its sizes, if it has them all.
fn row_count<F: FaultSet>(k: u64, words: usize, faults: F) -> Option<usize> {
    let most = words / 3;
    if faults.has(Fault::RowCountWraps) && k.wrapping_mul(3).wrapping_add(4) <= words as u64 + 4 {
        return Some(most.min(usize::try_from(k).unwrap_or(most)));
    }
    match usize::try_from(k) {
        Ok(k) if k <= most => Some(k).filter(|k| 3 * k == words || !faults.has(Fault::WordsBehindRefused)),
        _ => faults.has(Fault::CutReplyTaken).then_some(most),
    }
}

/// Places of rows in the reply, by component, then group, then place.
struct Sorted {
    places: Vec<usize>,
    /// Where the rows of each component and group begin, and behind the last.
    starts: Vec<usize>,
}

impl Sorted {
    fn new<F: FaultSet>(model: &Model, rows: &[Row], faults: F) -> Sorted {
        let shelf = |row: &Row| shelf(row.component(model, faults), row.group(model, faults));
        let shelves = model.components() * Group::COUNT;
        let mut starts = vec![0; shelves + 1];
        for row in rows {
            starts[shelf(row) + 1] += 1;
        }
        for at in 0..shelves {
            starts[at + 1] += starts[at];
        }
        let mut ends = starts.clone();
        let mut places = vec![0; rows.len()];
        for (place, row) in rows.iter().enumerate() {
            let end = &mut ends[shelf(row)];
            places[*end] = place;
            *end += 1;
        }
        Sorted { places, starts }
    }

    fn of(&self, component: usize, group: Group) -> &[usize] {
        let at = shelf(component, group);
        &self.places[self.starts[at]..self.starts[at + 1]]
    }
}

fn shelf(component: usize, group: Group) -> usize {
    component * Group::COUNT + group as usize
}
