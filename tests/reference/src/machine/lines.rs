//! Adapter lines: the machine takes one that reads as the observe of its reading.

use super::Machine;
use crate::answer::{Done, Observed, Refusal};
use crate::calendar::last_time;
use crate::faults::{Fault, FaultSet};
use crate::line;
use crate::value::Value;
use crate::writer::Written;

#[allow(clippy::too_many_arguments)]
impl<F: FaultSet> Machine<F> {
    pub fn read_line(&mut self, model: &[u32], names: &[u8], line: &[u8], host: u64) -> Observed {
        match self.reading(model, names, line, host) {
            Ok((item, time, host, value)) => self.observe(model, names, item, time, host, value),
            Err(refusal) => Observed::Refused(refusal),
        }
    }

    /// Item, time, host time and value of the observe that the line stands for.
    fn reading(
        &self,
        model: &[u32],
        names: &[u8],
        text: &[u8],
        host: u64,
    ) -> Result<(u64, u64, u64, Value), Refusal> {
        let model = self.model(model, names)?;
        line::refused_early(text, &model, self.faults).map_or(Ok(()), Err)?;
        let line = line::read(text, self.faults).ok_or(Refusal::Line)?;
        let time = line.time(self.faults).ok_or(Refusal::Stamp)?;
        let item = line.item(self.faults);
        let known = (0..model.items()).find(|&known| known as u64 == item);
        let value = known.map_or(Value::NONE, |known| line.value(model.category(known), self.faults));
        Ok((item, time, line.host(host, self.faults), value))
    }

    /// The line of an item, a time and a value. Nothing that was recorded has a part in it.
    pub fn write_line(
        &self,
        model: &[u32],
        names: &[u8],
        item: u64,
        time: u64,
        value: Value,
        text: &mut [u8],
    ) -> Done {
        let written = self.line_of(model, names, item, time, value, text.len());
        match &written {
            Ok(line) => {
                text[..line.len()].copy_from_slice(line);
                if self.faults.has(Fault::LineTailCleared) {
                    text[line.len()..].fill(0);
                }
            }
            Err(Refusal::Space) if self.faults.has(Fault::ShortRoomFilled) => {
                let line = Written::line(item, time, value, self.faults);
                text.copy_from_slice(&line.bytes()[..text.len()]);
            }
            Err(_) if self.faults.has(Fault::RefusedLineWrites) => {
                text.iter_mut().take(1).for_each(|byte| *byte = 0)
            }
            Err(_) => {}
        }
        written.map(|line| line.len() as u64).into()
    }

    fn line_of(
        &self,
        model: &[u32],
        names: &[u8],
        item: u64,
        time: u64,
        value: Value,
        room: usize,
    ) -> Result<Vec<u8>, Refusal> {
        let model = self.model(model, names)?;
        if item >= model.items() as u64 {
            return Err(Refusal::Item);
        }
        let last = last_time(self.faults);
        if time > last && self.faults.has(Fault::StampBeforeKind) {
            return Err(Refusal::Stamp);
        }
        if !value.allowed(model.category(item as usize), self.faults) {
            return Err(Refusal::Kind);
        }
        let line = Written::line(item, time.min(last), value, self.faults).bytes().to_vec();
        let short = room < line.len() + usize::from(self.faults.has(Fault::ExactLineRefused));
        match (time > last, short) {
            (true, true) if self.faults.has(Fault::SpaceBeforeStamp) => Err(Refusal::Space),
            (true, _) => Err(Refusal::Stamp),
            (_, true) => Err(Refusal::Space),
            _ => Ok(line),
        }
    }
}
