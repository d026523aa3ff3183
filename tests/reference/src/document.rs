//! An MTConnectStreams document as it is written. Where its rows come from is the affair of the two layers.

use crate::calendar::LAST_TIME;
use crate::faults::{Fault, FaultSet};
use crate::line::digits_of;
use crate::model::Model;
use crate::streams::{Given, Group, Row, Sizes};
use crate::value::{Level, Value};
use crate::writer::{digits, stamp, Written};

/// Bytes of a document without rows, and of a row with its share of the tags around it. The text grows where
/// they are more.
const FRAME: usize = 600;
const ROW: usize = 160;

/// A document as it grows.
pub struct Document<'a, F: FaultSet> {
    model: &'a Model<'a>,
    faults: F,
    bytes: Vec<u8>,
}

impl<'a, F: FaultSet> Document<'a, F> {
    /// The document of so many rows. `rows_of` finds those of a component and group in the order of the reply, each
    /// with its place there.
    pub fn of<'r, I: Iterator<Item = (usize, &'r Row)>>(
        model: &'a Model<'a>,
        given: Given,
        sizes: Sizes,
        rows: usize,
        faults: F,
        rows_of: impl Fn(usize, Group) -> I,
    ) -> Vec<u8> {
        let mut document = Document { model, faults, bytes: Vec::with_capacity(FRAME + ROW * rows) };
        document.header(given, sizes);
        match rows {
            0 if faults.has(Fault::EmptyStreamsInFull) => document.text(b"<Streams>\n</Streams>\n"),
            0 if !faults.has(Fault::EmptyDeviceKept) => document.text(b"<Streams/>\n"),
            _ => document.device(rows_of),
        }
        document.text(b"</MTConnectStreams>\n");
        if faults.has(Fault::LastLineFeedLost) {
            document.bytes.pop();
        }
        document.bytes
    }

    fn header(&mut self, given: Given, sizes: Sizes) {
        let Sizes { mut first, mut last, mut next } = sizes;
        let Given { mut n, mut instance_id, creation_time } = given;
        if self.faults.has(Fault::FirstAndLastExchanged) {
            (first, last) = (last, first);
        }
        if self.faults.has(Fault::NextFromLast) {
            next = last.wrapping_add(1);
        }
        if self.faults.has(Fault::SizeAndInstanceExchanged) {
            (n, instance_id) = (instance_id, n);
        }
        self.text(b"<?xml version=\"1.0\" encoding=\"UTF-8\"?>\n");
        self.text(b"<MTConnectStreams xmlns=\"urn:mtconnect.org:MTConnectStreams:1.2\">\n");
        self.text(b"<Header creationTime=\"");
        self.stamp(creation_time);
        self.text(b"\" sender=\"box\" instanceId=\"");
        self.number(instance_id);
        self.text(b"\" bufferSize=\"");
        self.number(n);
        self.text(b"\" version=\"1.2\" nextSequence=\"");
        self.number(next);
        self.text(b"\" firstSequence=\"");
        self.number(first);
        self.text(b"\" lastSequence=\"");
        self.number(last);
        self.text(b"\"/>\n");
    }

    fn device<'r, I: Iterator<Item = (usize, &'r Row)>>(&mut self, rows_of: impl Fn(usize, Group) -> I) {
        let first = self.faults.has(Fault::DeviceOfFirstRow).then(|| by_first_row(self.model, &rows_of));
        let named = first.and_then(|components| components.first().copied()).unwrap_or(0);
        let name = self.model.component_type(named);
        self.text(b"<Streams>\n<DeviceStream name=\"");
        self.text(name);
        self.text(b"\" uuid=\"");
        self.text(name);
        self.text(b"\">\n");
        if self.faults.has(Fault::ComponentsByFirstRow) {
            for component in by_first_row(self.model, &rows_of) {
                self.component(component, &rows_of);
            }
        } else {
            for component in 0..self.model.components() {
                self.component(component, &rows_of);
            }
        }
        self.text(b"</DeviceStream>\n</Streams>\n");
    }

    /// Nothing for a component without rows.
    fn component<'r, I: Iterator<Item = (usize, &'r Row)>>(
        &mut self,
        component: usize,
        rows_of: &impl Fn(usize, Group) -> I,
    ) {
        let groups = Group::ordered(self.faults);
        let has_rows = || groups.iter().any(|&group| rows_of(component, group).next().is_some());
        let keep_groups = self.faults.has(Fault::EmptyGroupKept) && has_rows();
        let mut opened = false;
        for group in groups {
            let mut rows = rows_of(component, group).peekable();
            if rows.peek().is_none() && !keep_groups {
                continue;
            }
            if !opened {
                self.open_component(component);
                opened = true;
            }
            self.group(group, rows);
        }
        if !opened && self.faults.has(Fault::EmptyComponentKept) {
            self.open_component(component);
            opened = true;
        }
        if opened && self.faults.has(Fault::GroupsClosedLate) {
            let left_open = groups.into_iter().filter(|&group| rows_of(component, group).next().is_some());
            left_open.for_each(|group| self.tag(b"</", group));
        }
        if opened {
            self.text(b"</ComponentStream>\n");
        }
    }

    fn open_component(&mut self, component: usize) {
        let name = self.model.component_type(component);
        self.text(b"<ComponentStream component=\"");
        if self.faults.has(Fault::ComponentInPascal) {
            self.element(name);
        } else {
            self.text(name);
        }
        self.text(b"\" name=\"");
        self.text(name);
        self.text(b"\" componentId=\"c");
        if self.faults.has(Fault::ComponentIdByType) {
            self.text(name);
        } else {
            self.number(component as u64 + u64::from(self.faults.has(Fault::ComponentIdFromOne)));
        }
        self.text(b"\">\n");
    }

    /// The rows of a group between its tags.
    fn group<'r>(&mut self, group: Group, rows: impl Iterator<Item = (usize, &'r Row)>) {
        self.tag(b"<", group);
        if self.faults.has(Fault::RowsOrderedByNumber) {
            let mut sorted: Vec<_> = rows.collect();
            sorted.sort_by_key(|(_, row)| row.number);
            self.rows(group, sorted.into_iter());
        } else {
            self.rows(group, rows);
        }
        if !self.faults.has(Fault::GroupsClosedLate) {
            self.tag(b"</", group);
        }
    }

    fn tag(&mut self, opening: &[u8], group: Group) {
        self.text(opening);
        self.text(group.name());
        self.text(b">\n");
    }

    fn rows<'r>(&mut self, group: Group, rows: impl Iterator<Item = (usize, &'r Row)>) {
        let mut rows = rows.peekable();
        let mut before: Option<usize> = None;
        let mut written: Vec<Row> = Vec::new();
        while let Some((place, &row)) = rows.next() {
            let elsewhere = before.is_some_and(|before| before + 1 != place);
            if elsewhere && self.faults.has(Fault::GroupsReopened) {
                self.tag(b"</", group);
                self.tag(b"<", group);
            }
            before = Some(place);
            if self.faults.has(Fault::EqualRowsWrittenOnce) {
                if written.contains(&row) {
                    continue;
                }
                written.push(row);
            }
            match rows.peek() {
                Some(&(_, next)) if self.faults.has(Fault::SequenceOfNextRow) => {
                    self.row(Row { number: next.number, ..row });
                }
                _ => self.row(row),
            }
        }
    }

    fn row(&mut self, row: Row) {
        let condition = self.model.is_condition(row.item);
        match row.value {
            Value::Unavailable if condition && !self.faults.has(Fault::UnavailableByType) => {
                self.condition(row, b"Unavailable", None)
            }
            Value::Condition(Level::Normal, code) => self.condition(row, b"Normal", Some(code)),
            Value::Condition(Level::Warning, code) => self.condition(row, b"Warning", Some(code)),
            Value::Condition(Level::Fault, code) => self.condition(row, b"Fault", Some(code)),
            _ => self.text_row(row),
        }
    }

    /// An element with its value as text.
    fn text_row(&mut self, row: Row) {
        self.text(b"<");
        let from = self.bytes.len();
        self.element(self.model.item_type(row.item));
        let name = from..self.bytes.len();
        self.attributes(row);
        self.text(b">");
        self.text(Written::text_of(row.value, self.faults).bytes());
        self.text(b"</");
        self.bytes.extend_from_within(name);
        self.text(b">\n");
    }

    /// An element that its level gives the name, without text. Unavailable has no code.
    fn condition(&mut self, row: Row, level: &[u8], code: Option<u32>) {
        let faults = self.faults;
        let name = self.model.item_type(row.item);
        self.text(b"<");
        self.text(level);
        self.attributes(row);
        self.text(b" type=\"");
        if faults.has(Fault::ConditionTypeInPascal) {
            self.element(name);
        } else {
            self.text(name);
        }
        let code = match code {
            None => faults.has(Fault::NativeCodeForUnavailable).then_some(0),
            Some(0) if faults.has(Fault::NativeCodeZeroLeftOut) => None,
            Some(_) if level == b"Normal" && faults.has(Fault::NormalCodeLeftOut) => None,
            code => code,
        };
        if let Some(code) = code {
            self.text(b"\" nativeCode=\"");
            self.number(u64::from(code));
        }
        self.text(b"\"/>\n");
    }

    /// What all rows have.
    fn attributes(&mut self, row: Row) {
        self.text(b" dataItemId=\"i");
        self.number(row.item as u64);
        self.text(b"\" sequence=\"");
        self.number(row.number);
        self.text(b"\" timestamp=\"");
        if row.time != 0 || !self.faults.has(Fault::EmptyStampInDocument) {
            self.stamp(row.time);
        }
        self.text(b"\"");
    }

    /// A type's name in Pascal case, without `_`, and with `T` before it where no letter begins it.
    fn element(&mut self, name: &[u8]) {
        let faults = self.faults;
        let from = self.bytes.len();
        let mut begins = true;
        for &byte in name {
            if byte == b'_' {
                begins = true;
                if faults.has(Fault::UnderscoresKept) {
                    self.bytes.push(byte);
                }
                continue;
            }
            let kept = !begins && faults.has(Fault::RestOfWordKept);
            self.bytes.push(match begins {
                _ if kept => byte,
                true => byte.to_ascii_uppercase(),
                false => byte.to_ascii_lowercase(),
            });
            begins = byte.is_ascii_digit() && faults.has(Fault::RaisedBehindDigit);
        }
        let without = match self.bytes.get(from) {
            Some(byte) => byte.is_ascii_alphabetic() || faults.has(Fault::DigitWithoutT),
            None => faults.has(Fault::NothingWithoutT),
        };
        if !without {
            self.bytes.insert(from, b'T');
        }
    }

    fn text(&mut self, text: &[u8]) {
        self.bytes.extend_from_slice(text);
    }

    fn number(&mut self, number: u64) {
        let signed = number as i64;
        let signed = if self.faults.has(Fault::NumbersSigned) && signed < 0 { Some(signed) } else { None };
        if signed.is_some() {
            self.text(b"-");
        }
        let number = signed.map_or(number, i64::unsigned_abs);
        let from = self.bytes.len();
        self.bytes.resize(from + digits_of(number), b'0');
        digits(&mut self.bytes[from..], number);
    }

    /// In full, time 0 too. Only a planted fault comes here with a time after the last.
    fn stamp(&mut self, time: u64) {
        self.text(&stamp(time.min(LAST_TIME + 1), self.faults));
    }
}

/// Components with rows, in the order in which the reply first has them. Only planted faults ask for it.
fn by_first_row<'r, I: Iterator<Item = (usize, &'r Row)>>(
    model: &Model,
    rows_of: &impl Fn(usize, Group) -> I,
) -> Vec<usize> {
    let groups = [Group::Samples, Group::Events, Group::Condition];
    let first = |component| {
        let places = groups.iter().filter_map(|&group| Some(rows_of(component, group).next()?.0));
        Some((places.min()?, component))
    };
    let mut components: Vec<(usize, usize)> = (0..model.components()).filter_map(first).collect();
    components.sort_unstable();
    components.into_iter().map(|(_, component)| component).collect()
}
