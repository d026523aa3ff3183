//! A snapshot at every number that the ring holds, by core, store layer and machine, and what the lists
//! meet of conditions.

use crate::call::{Answer, Call};
use crate::session::Session;
use crate::texts;
use reference::machine::Observation;
use reference::value::item_of;
use reference::{Core, FaultSet, Level, Value};
use std::fmt;

/// What was met of conditions.
#[derive(Clone, Copy, Default, Debug)]
pub struct Conditions {
    /// Snapshots compared, one at every held number.
    pub snapshots: u64,
    /// Items in them with as many codes standing as may, and with several of which one is numbered below
    /// the ring's oldest.
    pub full: u64,
    pub outlived: u64,
    /// Codes recorded that stood already, and that did not.
    pub replaced: u64,
    pub raised: u64,
    /// Normals of one code, and over standing codes Normal 0 and Unavailable.
    pub cleared: u64,
    pub all_cleared: u64,
    pub lost: u64,
}

impl Conditions {
    /// The counts with their names.
    pub fn each(&self) -> [(&'static str, u64); 8] {
        [
            ("snapshots", self.snapshots),
            ("with eight codes", self.full),
            ("with several, one from before the ring", self.outlived),
            ("codes replaced", self.replaced),
            ("codes raised", self.raised),
            ("codes cleared by their Normal", self.cleared),
            ("cleared by Normal 0", self.all_cleared),
            ("cleared by Unavailable", self.lost),
        ]
    }

    pub fn add(&mut self, other: &Conditions) {
        self.snapshots += other.snapshots;
        self.full += other.full;
        self.outlived += other.outlived;
        self.replaced += other.replaced;
        self.raised += other.raised;
        self.cleared += other.cleared;
        self.all_cleared += other.all_cleared;
        self.lost += other.lost;
    }

    /// Compares a snapshot at every held number.
    pub fn compare_all<C: Core, F: FaultSet>(&mut self, session: &mut Session<C, F>) -> Result<(), String> {
        for at in session.machine.first()..=session.machine.last() {
            let text = format!("/current?at={at}").into_bytes();
            let call = Call::Request { text, reply: vec![0xfeed; texts::AMPLE] };
            let answer = session.call(&call).map_err(|what| format!("at={at}: {what}"))?;
            let Answer::Pair(0, k) = answer else {
                return Err(format!("at={at} is answered {answer:?}"));
            };
            self.snapshots += 1;
            self.take(&session.pair.reply, k as usize);
        }
        Ok(())
    }

    /// Rows of one item stand together.
    fn take(&mut self, reply: &[u64], k: usize) {
        let first = reply[1];
        let item = |row: &usize| item_of(reply[4 + k + 2 * row + 1]);
        let rows: Vec<usize> = (0..k).collect();
        for of_item in rows.chunk_by(|one, other| item(one) == item(other)) {
            self.full += u64::from(of_item.len() == 8);
            self.outlived += u64::from(of_item.len() > 1 && of_item.iter().any(|row| reply[4 + row] < first));
        }
    }

    /// Counts what a list recorded of an item's conditions.
    pub fn count(&mut self, history: &[Observation], item: usize) {
        let mut codes = Vec::new();
        for row in history.iter().filter(|row| row.item == item) {
            match row.value {
                Value::Condition(Level::Normal, code @ 1..) => {
                    codes.retain(|&other| other != code);
                    self.cleared += 1;
                }
                Value::Condition(Level::Warning | Level::Fault, code) if codes.contains(&code) => {
                    self.replaced += 1;
                }
                Value::Condition(Level::Warning | Level::Fault, code) => {
                    codes.push(code);
                    self.raised += 1;
                }
                Value::Unavailable => self.lost += u64::from(!codes.is_empty()),
                _ => self.all_cleared += u64::from(!codes.is_empty()),
            }
            if matches!(row.value, Value::Unavailable | Value::Condition(Level::Normal, 0)) {
                codes.clear();
            }
        }
    }
}

impl fmt::Display for Conditions {
    fn fmt(&self, f: &mut fmt::Formatter<'_>) -> fmt::Result {
        let met: Vec<String> = self.each().iter().map(|(what, met)| format!("{met} {what}")).collect();
        write!(f, "{}", met.join(", "))
    }
}
