//! The asset store: head, id cells and body cells in one array of bytes.

use crate::answer::Refusal;
use crate::faults::{Fault, FaultSet};
use crate::text::visible;
use crate::MOST_CELLS;

const HEAD: usize = 2;
const ID: usize = 32;
const BODY: usize = 512;
/// Bytes of the longest body: a cell without its length.
pub const LONGEST: usize = BODY - 2;

/// Bytes of a store of a cells.
pub fn length(a: usize) -> usize {
    HEAD + (ID + BODY) * a
}

/// 1 to 32 visible bytes, without those that part ids in a text.
pub fn id_valid<F: FaultSet>(id: &[u8], faults: F) -> bool {
    (1..=ID).contains(&id.len()) && id.iter().all(|&byte| visible(byte) && !parts(byte, faults))
}

/// Whether a byte ends an id in a text, or the list of them.
fn parts<F: FaultSet>(byte: u8, faults: F) -> bool {
    match byte {
        b';' | b'/' => true,
        b'?' => !faults.has(Fault::QuestionMarkInIds),
        b':' => faults.has(Fault::ColonRefusedInIds),
        _ => false,
    }
}

/// The checked head of an asset store.
#[derive(Clone, Copy)]
pub struct Cells {
    pub cells: usize,
    pub used: usize,
}

impl Cells {
    pub fn check<F: FaultSet>(bytes: &[u8], faults: F) -> Option<Cells> {
        let &[cells, used] = bytes.first_chunk::<HEAD>()?;
        if !(1..=MOST_CELLS).contains(&u64::from(cells)) {
            return None;
        }
        let used = if faults.has(Fault::UsedUncompared) { used.min(cells) } else { used };
        let needed = length(usize::from(cells));
        let fits = bytes.len() == needed || (bytes.len() > needed && faults.has(Fault::LongerStores));
        (used <= cells && fits).then_some(Cells { cells: cells.into(), used: used.into() })
    }

    fn id_at(&self, cell: usize) -> usize {
        HEAD + ID * cell
    }

    /// Where a body cell begins, with its length.
    pub fn body_at(&self, cell: usize) -> usize {
        HEAD + ID * self.cells + BODY * cell
    }

    /// The cell of an id, the lower of two.
    pub fn find<F: FaultSet>(&self, bytes: &[u8], id: &[u8], faults: F) -> Option<usize> {
        let holds = |&cell: &usize| {
            let stored = &bytes[self.id_at(cell)..self.id_at(cell) + ID];
            let prefix = faults.has(Fault::IdPrefix);
            id.len() <= ID
                && stored.starts_with(id)
                && (prefix || stored[id.len()..].iter().all(|&byte| byte == 0))
        };
        if faults.has(Fault::HigherCellMeant) {
            return (0..self.used).rev().find(holds);
        }
        (0..self.used).find(holds)
    }

    /// The stored length of a body, as it stands.
    pub fn stored_length(&self, bytes: &[u8], cell: usize) -> usize {
        let at = self.body_at(cell);
        usize::from(u16::from_be_bytes([bytes[at], bytes[at + 1]]))
    }

    /// The length of a body, if it can be one.
    pub fn length_of<F: FaultSet>(&self, bytes: &[u8], cell: usize, faults: F) -> Result<usize, Refusal> {
        let length = self.stored_length(bytes, cell);
        let most = if faults.has(Fault::LengthUntested) { BODY } else { LONGEST };
        if !(1..=most).contains(&length) {
            return Err(Refusal::Store);
        }
        Ok(length)
    }

    /// Stores an asset as the newest and answers its cell. All checks are done.
    pub fn store<F: FaultSet>(&self, bytes: &mut [u8], id: &[u8], body: &[u8], faults: F) -> usize {
        let found = self.find(bytes, id, faults);
        let full = self.used == self.cells;
        if let (Some(cell), true) = (found, faults.has(Fault::ReplacedKeepsCell)) {
            self.write(bytes, cell, id, body, faults);
            return cell;
        }
        let oldest = if faults.has(Fault::NewestEvicted) { self.used - usize::from(full) } else { 0 };
        let removed = found.or(full.then_some(oldest));
        let mut used = self.used;
        if let Some(cell) = removed {
            self.remove(bytes, cell, used);
            used -= 1;
        }
        if found.is_some() && full && used > 0 && faults.has(Fault::ReplacedEvictsToo) {
            self.remove(bytes, 0, used);
            used -= 1;
        }
        self.write(bytes, used, id, body, faults);
        bytes[1] = used as u8 + 1;
        used
    }

    /// Cells above a removed one move down whole. What the last of them held stays behind, to be
    /// written over.
    fn remove(&self, bytes: &mut [u8], cell: usize, used: usize) {
        bytes.copy_within(self.id_at(cell + 1)..self.id_at(used), self.id_at(cell));
        bytes.copy_within(self.body_at(cell + 1)..self.body_at(used), self.body_at(cell));
    }

    fn write<F: FaultSet>(&self, bytes: &mut [u8], cell: usize, id: &[u8], body: &[u8], faults: F) {
        let id_cell = &mut bytes[self.id_at(cell)..][..ID];
        id_cell.fill(0);
        id_cell[..id.len()].copy_from_slice(id);
        let body_cell = &mut bytes[self.body_at(cell)..][..BODY];
        if !faults.has(Fault::StaleBodyBytes) {
            body_cell.fill(0);
        }
        body_cell[..2].copy_from_slice(&(body.len() as u16).to_be_bytes());
        body_cell[2..2 + body.len()].copy_from_slice(body);
    }
}

/// Writes a whole fresh store of a cells.
pub fn start<F: FaultSet>(bytes: &mut [u8], a: u8, faults: F) {
    if !faults.has(Fault::StartKeepsOldWords) {
        bytes.fill(0);
    }
    bytes[0] = a;
    bytes[1] = 0;
}
