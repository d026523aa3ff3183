//! What the stores have to hold, worked out from the record alone. The machine itself has no use for
//! it: it is there to compare whole stores with.

use super::Machine;
use crate::faults::FaultSet;
use crate::model::Model;

impl<F: FaultSet> Machine<F> {
    /// What the observation store has to hold now, word for word, worked out from the record.
    pub fn observation_store(&self, model: &Model) -> Vec<u64> {
        let (n, m) = (self.n as usize, model.items());
        let mut words = vec![0; 4 + 2 * n + 48 * m];
        words[..4].copy_from_slice(&[self.n, m as u64, self.b, self.last()]);
        for row in &self.history {
            let place = ((row.number - self.b) % self.n) as usize;
            words[4 + place] = row.time;
            words[4 + n + place] = row.value.packed(row.item as u64, self.faults);
        }
        for item in 0..m {
            for (base, at) in [(4 + 2 * n, self.last()), (4 + 2 * n + 24 * m, self.first() - 1)] {
                for (entry, row) in self.rows_of(model, item, at).into_iter().enumerate() {
                    let place = base + 8 * item + entry;
                    words[place] = row.number;
                    words[place + 8 * m] = row.time;
                    words[place + 16 * m] = row.value.packed(row.item as u64, self.faults);
                }
            }
        }
        words
    }

    /// What the asset store has to hold now, byte for byte.
    pub fn asset_store(&self) -> Vec<u8> {
        let mut bytes = vec![0; 2 + 544 * self.a];
        bytes[0] = self.a as u8;
        bytes[1] = self.assets.len() as u8;
        for (cell, asset) in self.assets.iter().enumerate() {
            bytes[2 + 32 * cell..][..asset.id.len()].copy_from_slice(&asset.id);
            let at = 2 + 32 * self.a + 512 * cell;
            bytes[at] = (asset.body.len() / 256) as u8;
            bytes[at + 1] = (asset.body.len() % 256) as u8;
            bytes[at + 2..][..asset.body.len()].copy_from_slice(&asset.body);
        }
        bytes
    }
}
