//! Adapter lines: read into the observation store, and written.

use super::observations::Head;
use super::Stores;
use crate::answer::{Done, Observed, Refusal};
use crate::calendar::last_time;
use crate::faults::{Fault, FaultSet};
use crate::line::{self, Line};
use crate::model::Model;
use crate::value::Value;
use crate::writer::Written;

#[allow(clippy::too_many_arguments)]
impl<F: FaultSet> Stores<F> {
    pub fn read_line(
        &self,
        model: &[u32],
        names: &[u8],
        observations: &mut [u64],
        line: &[u8],
        host: u64,
    ) -> Observed {
        self.try_read_line(model, names, observations, line, host).into()
    }

    fn try_read_line(
        &self,
        model: &[u32],
        names: &[u8],
        words: &mut [u64],
        text: &[u8],
        host: u64,
    ) -> Result<Option<u64>, Refusal> {
        let faults = self.faults;
        let read = || line::read(text, faults).ok_or(Refusal::Line);
        if faults.has(Fault::LineBeforeModel) {
            read()?;
        }
        let model = self.model(model, names)?;
        if faults.has(Fault::LineBeforeHead) {
            read()?;
        }
        let head = Head::check(words, &model, faults).ok_or(Refusal::Store)?;
        if let Some(refusal) = line::refused_early(text, &model, faults) {
            return Err(refusal);
        }
        let line = read()?;
        let time = line.time(faults).ok_or(Refusal::Stamp)?;
        let (item, host) = (line.item(faults), line.host(host, faults));
        self.offer(&model, &head, words, None, item, time, host, reading(&model, &line, faults))
    }

    pub fn write_line(
        &self,
        model: &[u32],
        names: &[u8],
        item: u64,
        time: u64,
        value: Value,
        text: &mut [u8],
    ) -> Done {
        let answer = self.try_write_line(model, names, item, time, value, text);
        if answer.is_err() && self.faults.has(Fault::RefusedLineWrites) {
            text.iter_mut().take(1).for_each(|byte| *byte = 0);
        }
        answer.into()
    }

    fn try_write_line(
        &self,
        model: &[u32],
        names: &[u8],
        item: u64,
        time: u64,
        value: Value,
        text: &mut [u8],
    ) -> Result<u64, Refusal> {
        let faults = self.faults;
        let model = self.model(model, names)?;
        if item >= model.items() as u64 {
            return Err(Refusal::Item);
        }
        let late = time > last_time(faults);
        if late && faults.has(Fault::StampBeforeKind) {
            return Err(Refusal::Stamp);
        }
        if !value.allowed(model.category(item as usize), faults) {
            return Err(Refusal::Kind);
        }
        if late && !faults.has(Fault::SpaceBeforeStamp) {
            return Err(Refusal::Stamp);
        }
        let line = Written::line(item, time.min(last_time(faults)), value, faults);
        let line = line.bytes();
        let spare = usize::from(faults.has(Fault::ExactLineRefused));
        if text.len() < line.len() + spare {
            if faults.has(Fault::ShortRoomFilled) {
                text.copy_from_slice(&line[..text.len()]);
            }
            return Err(Refusal::Space);
        }
        if late {
            return Err(Refusal::Stamp);
        }
        let (place, behind) = text.split_at_mut(line.len());
        place.copy_from_slice(line);
        if faults.has(Fault::LineTailCleared) {
            behind.fill(0);
        }
        Ok(line.len() as u64)
    }
}

/// What a line says of its item; of one that isn't there, anything.
fn reading<F: FaultSet>(model: &Model, line: &Line, faults: F) -> Value {
    let item = line.item(faults);
    if item >= model.items() as u64 {
        return Value::NONE;
    }
    line.value(model.category(item as usize), faults)
}
