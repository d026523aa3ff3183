//! The model words and the name cells, checked whole and then read.

use crate::faults::{Fault, FaultSet};

/// Bytes of a name cell.
pub const NAME: usize = 24;
const MOST_NAMES: usize = 256;
const MOST_PARTS: u32 = 64;

/// Category of conditions, of which several may stand on an item.
pub const CONDITION: u32 = 2;
/// Category of the item that store-asset writes its events for.
pub const ASSET_CHANGE: u32 = 3;
/// Category of events that count even when equal.
pub const DISCRETE: u32 = 4;

/// A checked model.
#[derive(Clone, Copy)]
pub struct Model<'a> {
    components: &'a [u32],
    items: &'a [u32],
    names: &'a [u8],
}

impl<'a> Model<'a> {
    /// The model, if words and names keep their rules.
    pub fn check<F: FaultSet>(words: &'a [u32], names: &'a [u8], faults: F) -> Option<Model<'a>> {
        let (&[c, m], rest) = words.split_first_chunk::<2>()?;
        if !(1..=MOST_PARTS).contains(&c) || !(1..=MOST_PARTS).contains(&m) {
            return None;
        }
        if rest.len() != (c + m) as usize {
            return None;
        }
        let (components, items) = rest.split_at(c as usize);
        let model = Model { components, items, names };
        (names_valid(names, faults) && model.components_valid() && model.items_valid(faults)).then_some(model)
    }

    fn components_valid(&self) -> bool {
        let cells = (self.names.len() / NAME) as u32;
        self.components.iter().enumerate().all(|(index, &word)| {
            let (parent, name) = (word / 256, word % 256);
            let placed = if index == 0 { parent == 0 } else { parent < index as u32 };
            placed && name < cells
        })
    }

    fn items_valid<F: FaultSet>(&self, faults: F) -> bool {
        let cells = (self.names.len() / NAME) as u32;
        let c = self.components.len() as u32;
        let each = self.items.iter().all(|&word| {
            category_valid(category(word), faults) && word / 256 % 256 < c && word % 256 < cells
        });
        let several = |of: u32| self.items.iter().filter(|&&word| category(word) == of).count() > 1;
        let too_many = (several(ASSET_CHANGE) && !faults.has(Fault::ManyAssetItems))
            || (faults.has(Fault::OneDiscreteItem) && several(DISCRETE));
        each && !too_many
    }

    /// How many items there are.
    pub fn items(&self) -> usize {
        self.items.len()
    }

    pub fn components(&self) -> usize {
        self.components.len()
    }

    pub fn category(&self, item: usize) -> u32 {
        category(self.items[item])
    }

    pub fn is_condition(&self, item: usize) -> bool {
        self.category(item) == CONDITION
    }

    /// The component an item stands at.
    pub fn component(&self, item: usize) -> usize {
        (self.items[item] / 256 % 256) as usize
    }

    /// The type name of an item.
    pub fn item_type(&self, item: usize) -> &'a [u8] {
        self.name(self.items[item] % 256)
    }

    pub fn parent(&self, component: usize) -> usize {
        (self.components[component] / 256) as usize
    }

    /// The type name of a component.
    pub fn component_type(&self, component: usize) -> &'a [u8] {
        self.name(self.components[component] % 256)
    }

    /// The item that store-asset writes its events for.
    pub fn asset_item<F: FaultSet>(&self, faults: F) -> Option<usize> {
        self.items.iter().position(|&word| match category(word) {
            DISCRETE => faults.has(Fault::AssetEventForDiscrete),
            of => of == ASSET_CHANGE,
        })
    }

    fn name(&self, index: u32) -> &'a [u8] {
        let at = index as usize * NAME;
        let cell = &self.names[at..at + NAME];
        let used = cell.iter().position(|&byte| byte == 0).unwrap_or(NAME);
        &cell[..used]
    }
}

fn category(word: u32) -> u32 {
    word / 65_536
}

fn category_valid<F: FaultSet>(category: u32, faults: F) -> bool {
    match category {
        0..=3 => true,
        DISCRETE => !faults.has(Fault::DiscreteRefused),
        5 => faults.has(Fault::CategoryFive),
        _ => false,
    }
}

fn names_valid<F: FaultSet>(names: &[u8], faults: F) -> bool {
    let whole = names.len().is_multiple_of(NAME);
    let count = names.len() / NAME;
    let cut = faults.has(Fault::LastNamesUnseen) && count > 1;
    let seen = if cut { names.len() / 32 * 32 } else { names.len() };
    whole
        && (1..=MOST_NAMES).contains(&count)
        && names[..seen].chunks_exact(NAME).all(|cell| name_valid(cell, faults))
}

/// 1 to 24 letters, digits or `_`, then zeros to the end of the cell.
fn name_valid<F: FaultSet>(cell: &[u8], faults: F) -> bool {
    let used = cell.iter().position(|&byte| byte == 0).unwrap_or(NAME);
    let (name, padding) = cell.split_at(used);
    let filled = used > 0 || faults.has(Fault::SpareNameCells);
    filled
        && name_bytes_valid(name, faults)
        && (padding.iter().all(|&byte| byte == 0) || faults.has(Fault::BytesBehindNames))
}

fn name_bytes_valid<F: FaultSet>(name: &[u8], faults: F) -> bool {
    let right = |&byte: &u8| name_byte(byte, faults);
    let wrong = || name.iter().filter(|byte| !right(byte)).count();
    name.iter().all(right) || (faults.has(Fault::WrongBytesCancel) && wrong() % 2 == 0)
}

/// Letters, digits and `_`.
fn name_byte<F: FaultSet>(byte: u8, faults: F) -> bool {
    let let_in = match byte {
        b'-' => faults.has(Fault::HyphenInNames),
        b'['..=b'`' => faults.has(Fault::BetweenCasesInNames),
        128.. => faults.has(Fault::HighBitInNames) && (byte - 128).is_ascii_alphanumeric(),
        _ => false,
    };
    let kept_out = byte == b'Z' && faults.has(Fault::LastCapitalRefused);
    let_in || ((byte.is_ascii_alphanumeric() || byte == b'_') && !kept_out)
}
