//! A reply, made into a streams document. Nothing that was recorded has a part in it. The rows of each group are
//! searched for.

use super::Machine;
use crate::answer::{Done, Refusal};
use crate::document::Document;
use crate::faults::{Fault, FaultSet};
use crate::model::Model;
use crate::streams::{self, Given, Row, Sizes};

impl<F: FaultSet> Machine<F> {
    pub fn streams(&self, model: &[u32], names: &[u8], reply: &[u64], given: Given, text: &mut [u8]) -> Done {
        let document = self.document(model, names, reply, given, text.len());
        streams::hand_over(document, text, self.faults)
    }

    /// The document, and whether a time is after the last.
    fn document(
        &self,
        model: &[u32],
        names: &[u8],
        reply: &[u64],
        given: Given,
        room: usize,
    ) -> Result<(Vec<u8>, bool), Refusal> {
        let faults = self.faults;
        let model = self.model(model, names)?;
        if streams::no_room(room, faults) {
            return Err(Refusal::Space);
        }
        let rows = self.rows_of_reply(&model, reply, given)?;
        let late = given.is_late(faults) || rows.iter().any(|row| row.is_late(faults));
        if late && !faults.has(Fault::RoomBeforeStamp) {
            return Err(Refusal::Stamp);
        }
        let sizes = Sizes { first: reply[1], last: reply[2], next: reply[3] };
        let document = Document::of(&model, given, sizes, rows.len(), faults, |component, group| {
            let here = |row: &Row| (row.component(&model, faults), row.group(&model, faults));
            rows.iter().enumerate().filter(move |(_, row)| here(row) == (component, group))
        });
        Ok((document, late))
    }

    /// Every row, each looked up by itself: k numbers stand behind the four sizes, and behind them k times with
    /// their packed values.
    fn rows_of_reply(&self, model: &Model, reply: &[u64], given: Given) -> Result<Vec<Row>, Refusal> {
        let faults = self.faults;
        let Some(&[k, first, last, next]) = reply.first_chunk() else {
            return Err(Refusal::Store);
        };
        let mut words = 4 + 3 * u128::from(k);
        let mut k = u128::from(k);
        let most = (reply.len() as u128 - 4) / 3;
        if faults.has(Fault::RowCountWraps) {
            words %= 1 << 64;
        }
        if faults.has(Fault::CutReplyTaken) {
            words = words.min(4 + 3 * most);
        }
        let left_over = faults.has(Fault::WordsBehindRefused) && words != reply.len() as u128;
        if words > reply.len() as u128 || left_over || (Sizes { first, last, next }).refused(faults) {
            return Err(Refusal::Store);
        }
        // Only behind a planted fault there are fewer.
        k = k.min(most);
        let k = k as usize;
        let late = (0..k).any(|j| streams::is_late(reply[4 + k + 2 * j], faults));
        if faults.has(Fault::StampBeforeRows) && (late || given.is_late(faults)) {
            return Err(Refusal::Stamp);
        }
        let behind = reply[4 + 3 * k..].iter().any(|&time| streams::is_late(time, faults));
        if faults.has(Fault::TimesBehindTested) && behind {
            return Err(Refusal::Stamp);
        }
        let mut rows = Vec::new();
        for j in 0..k {
            let (number, time, packed) = (reply[4 + j], reply[4 + k + 2 * j], reply[4 + k + 2 * j + 1]);
            let row = Row::read(model, number, time, packed, faults).ok_or(Refusal::Store)?;
            if faults.has(Fault::FirstWrongRowDecides) && row.is_late(faults) {
                return Err(Refusal::Stamp);
            }
            rows.push(row);
        }
        Ok(rows)
    }
}
