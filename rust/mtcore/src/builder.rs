//! A model and its names, put together part by part.

use crate::model::{component_word, item_word, name_cell};
use crate::sizes::{MAX_COMPONENTS, MAX_ITEMS, NAME_BYTES};
use crate::{Category, Component, Model, ModelError};

/// Puts a model and its names together in two buffers that the host lends: no heap.
///
/// Components and items may come in any order, but a parent before what stands below it. A name that
/// occurs twice takes one cell. Buffers of [`model_words`](crate::model_words) words and of a
/// [`NAME_BYTES`] cell for each different name are enough; what is left over of them stays unused.
///
/// ```
/// use mtcore::{Category, Component, ModelBuilder};
///
/// let (mut words, mut names) = ([0; mtcore::model_words(3, 4)], [0; mtcore::name_bytes(7)]);
/// let mut build = ModelBuilder::new(&mut words, &mut names, "Device")?;
/// let available = build.item(Component::DEVICE, Category::Event, "AVAILABILITY")?;
/// let axes = build.component(Component::DEVICE, "Axes")?;
/// let x = build.component(axes, "Linear")?;
/// let position = build.item(x, Category::Sample, "POSITION")?;
/// let travel = build.item(x, Category::Condition, "OVERTRAVEL")?;
/// let changed = build.item(Component::DEVICE, Category::AssetChange, "ASSET_CHANGED")?;
/// let model = build.finish()?;
///
/// assert_eq!((available, position, travel, changed), (0, 1, 2, 3));
/// assert_eq!(model.words(), [3, 4, 0, 2, 259, 65_537, 516, 131_589, 196_614]);
/// assert_eq!(model.item_type(position), Some("POSITION"));
/// assert_eq!(model.parent(x), Some(axes));
/// # Ok::<(), mtcore::ModelError>(())
/// ```
#[derive(Debug)]
pub struct ModelBuilder<'a> {
    words: &'a mut [u32],
    names: &'a mut [u8],
    components: usize,
    items: usize,
    cells: usize,
    changes: bool,
}

impl<'a> ModelBuilder<'a> {
    /// A model of one component, the device. What stood in the buffers is written over.
    ///
    /// # Errors
    ///
    /// A buffer has no room, or the name breaks its rules.
    pub fn new(words: &'a mut [u32], names: &'a mut [u8], device: &str) -> Result<Self, ModelError> {
        let mut build = ModelBuilder { words, names, components: 0, items: 0, cells: 0, changes: false };
        build.component(Component::DEVICE, device)?;
        Ok(build)
    }

    /// Adds a component below another one, and tells its place.
    ///
    /// # Errors
    ///
    /// There are 64 components, the parent is not one of them, the name breaks its rules, or a buffer has
    /// no room. Nothing is added then.
    pub fn component(&mut self, parent: Component, name: &str) -> Result<Component, ModelError> {
        let place = self.components;
        let component = u8::try_from(place).map_err(|_| ModelError::Components)?;
        if place >= MAX_COMPONENTS {
            return Err(ModelError::Components);
        }
        if usize::from(parent.0) >= place.max(1) {
            return Err(ModelError::Parent(place));
        }
        self.room()?;
        let name = self.name(name)?;
        self.insert(2 + place, component_word(parent, name));
        self.components += 1;
        self.count();
        Ok(Component(component))
    }

    /// Adds an item, and tells its place among the items, by which all calls and rows name it.
    ///
    /// # Errors
    ///
    /// There are 64 items, the component is not in the model, the model has an asset change item already,
    /// the name breaks its rules, or a buffer has no room. Nothing is added then.
    pub fn item(&mut self, component: Component, category: Category, name: &str) -> Result<u64, ModelError> {
        let place = self.items;
        if place >= MAX_ITEMS {
            return Err(ModelError::Items);
        }
        if usize::from(component.0) >= self.components {
            return Err(ModelError::ItemComponent(place));
        }
        let change = category == Category::AssetChange;
        if change && self.changes {
            return Err(ModelError::SecondAssetChange(place));
        }
        self.room()?;
        let name = self.name(name)?;
        self.insert(2 + self.components + place, item_word(category, component, name));
        self.items += 1;
        self.changes |= change;
        self.count();
        Ok(place as u64)
    }

    /// The model: the front of the two buffers.
    ///
    /// # Errors
    ///
    /// There is no item.
    pub fn finish(self) -> Result<Model<&'a [u32], &'a [u8]>, ModelError> {
        let (words, names): (&'a [u32], &'a [u8]) = (self.words, self.names);
        let words = words.get(..2 + self.components + self.items).ok_or(ModelError::WordBuffer)?;
        let names = names.get(..self.cells * NAME_BYTES).ok_or(ModelError::NameBuffer)?;
        Model::new(words, names)
    }

    /// Whether there is room for a word more.
    fn room(&self) -> Result<(), ModelError> {
        let used = 2 + self.components + self.items;
        (used < self.words.len()).then_some(()).ok_or(ModelError::WordBuffer)
    }

    /// A name's cell: the one that holds it, or the next free one.
    fn name(&mut self, name: &str) -> Result<u8, ModelError> {
        let cell = name_cell(self.cells, name)?;
        let mut used = self.names.chunks_exact(NAME_BYTES).take(self.cells);
        let place = used.position(|held| held == cell).unwrap_or(self.cells);
        // A model has fewer parts than there are cells.
        let index = u8::try_from(place).map_err(|_| ModelError::NameCells)?;
        if place == self.cells {
            let free = self.names.chunks_exact_mut(NAME_BYTES).nth(place).ok_or(ModelError::NameBuffer)?;
            free.iter_mut().zip(cell).for_each(|(byte, named)| *byte = named);
            self.cells += 1;
        }
        Ok(index)
    }

    /// Puts a word at its place; the words from there on move up by one. There is room.
    fn insert(&mut self, place: usize, word: u32) {
        let end = 2 + self.components + self.items;
        let moved = self.words.iter_mut().take(end + 1).skip(place);
        moved.fold(word, |carried, held| core::mem::replace(held, carried));
    }

    /// Writes the two counts.
    fn count(&mut self) {
        if let Some([c, m]) = self.words.first_chunk_mut::<2>() {
            (*c, *m) = (self.components as u32, self.items as u32);
        }
    }
}

#[cfg(test)]
mod tests {
    use super::ModelBuilder;
    use crate::{model_words, name_bytes, Category, Component, ModelError};
    use std::format;

    #[test]
    fn the_bench_model() {
        let (mut words, mut names) = ([9; 130], [9; 256 * 24]);
        let mut build = ModelBuilder::new(&mut words, &mut names, "Device").unwrap();
        build.component(Component::DEVICE, "Axes").unwrap();
        build.item(Component::DEVICE, Category::Event, "AVAILABILITY").unwrap();
        build.item(Component(1), Category::Sample, "POSITION").unwrap();
        let model = build.finish().unwrap();
        assert_eq!(model.words(), [2, 2, 0, 1, 65_538, 259]);
        let cells = crate::names(["Device", "Axes", "AVAILABILITY", "POSITION"]).unwrap();
        assert_eq!(model.names(), cells.as_flattened());
    }

    #[test]
    fn a_name_takes_one_cell() {
        let (mut words, mut names) = ([0; model_words(3, 3)], [0; name_bytes(4)]);
        let mut build = ModelBuilder::new(&mut words, &mut names, "Device").unwrap();
        let (x, y) = (
            build.component(Component(0), "Linear").unwrap(),
            build.component(Component(0), "Linear").unwrap(),
        );
        for component in [x, y] {
            build.item(component, Category::Sample, "POSITION").unwrap();
        }
        build.item(x, Category::Condition, "Linear_").unwrap();
        let model = build.finish().unwrap();
        assert_eq!(model.words(), [3, 3, 0, 1, 1, 256 + 2, 512 + 2, 131_072 + 256 + 3]);
        assert_eq!(model.names().len(), 4 * 24);
    }

    #[test]
    fn the_largest_model() {
        let (mut words, mut names) = ([0; model_words(64, 64)], [0; name_bytes(128)]);
        let mut build = ModelBuilder::new(&mut words, &mut names, "Device").unwrap();
        for number in 0..64 {
            assert_eq!(build.item(Component(0), Category::Event, &format!("I{number}")), Ok(number));
        }
        for number in 1..64 {
            assert_eq!(build.component(Component(number - 1), &format!("C{number}")), Ok(Component(number)));
        }
        assert_eq!(build.component(Component(0), "More"), Err(ModelError::Components));
        assert_eq!(build.item(Component(0), Category::Event, "MORE"), Err(ModelError::Items));
        let model = build.finish().unwrap();
        assert_eq!((model.components(), model.items(), model.names().len()), (64, 64, 128 * 24));
        assert_eq!((model.item_type(63), model.component_type(Component(63))), (Some("I63"), Some("C63")));
        assert_eq!(model.parent(Component(63)), Some(Component(62)));
    }

    /// What is refused leaves what was built as it was.
    #[test]
    fn refused_parts_add_nothing() {
        let (mut words, mut names) = ([0; model_words(1, 2)], [0; name_bytes(3)]);
        let mut build = ModelBuilder::new(&mut words, &mut names, "Device").unwrap();
        assert_eq!(build.component(Component(1), "Axes"), Err(ModelError::Parent(1)));
        assert_eq!(build.item(Component(1), Category::Event, "E"), Err(ModelError::ItemComponent(0)));
        assert_eq!(build.item(Component(0), Category::Event, ""), Err(ModelError::EmptyName(1)));
        assert_eq!(build.item(Component(0), Category::Event, "A-B"), Err(ModelError::NameByte(1)));
        assert_eq!(build.item(Component(0), Category::Event, &"A".repeat(25)), Err(ModelError::LongName(1)));
        assert_eq!(build.item(Component(0), Category::AssetChange, "CHANGED"), Ok(0));
        assert_eq!(
            build.item(Component(0), Category::AssetChange, "CHANGED"),
            Err(ModelError::SecondAssetChange(1))
        );
        assert_eq!(build.item(Component(0), Category::Event, "LAST"), Ok(1));
        assert_eq!(build.item(Component(0), Category::Event, "E"), Err(ModelError::WordBuffer));
        assert_eq!(build.component(Component(0), "Axes"), Err(ModelError::WordBuffer));
        assert_eq!(build.finish().unwrap().words(), [1, 2, 0, 196_609, 65_538]);
    }

    /// Of discrete items there may be several, also beside an asset change item.
    #[test]
    fn discrete_items_are_not_counted() {
        let (mut words, mut names) = ([0; model_words(1, 4)], [0; name_bytes(4)]);
        let mut build = ModelBuilder::new(&mut words, &mut names, "Device").unwrap();
        for (item, category, name) in [
            (0, Category::Discrete, "PART_COUNT"),
            (1, Category::AssetChange, "CHANGED"),
            (2, Category::Discrete, "MESSAGE"),
            (3, Category::Discrete, "MESSAGE"),
        ] {
            assert_eq!(build.item(Component(0), category, name), Ok(item));
        }
        let model = build.finish().unwrap();
        assert_eq!(model.words(), [1, 4, 0, 262_145, 196_610, 262_147, 262_147]);
        assert_eq!((model.category(3), model.asset_change()), (Some(Category::Discrete), Some(1)));
    }

    #[test]
    fn short_buffers() {
        let (mut words, mut names) = ([0; 8], [0; 47]);
        assert_eq!(ModelBuilder::new(&mut [], &mut names, "Device").unwrap_err(), ModelError::WordBuffer);
        assert_eq!(ModelBuilder::new(&mut words[..2], &mut names, "D").unwrap_err(), ModelError::WordBuffer);
        assert_eq!(ModelBuilder::new(&mut words, &mut names[..23], "D").unwrap_err(), ModelError::NameBuffer);
        let mut build = ModelBuilder::new(&mut words, &mut names, "Device").unwrap();
        assert_eq!(build.item(Component(0), Category::Event, "E"), Err(ModelError::NameBuffer));
        assert_eq!(build.item(Component(0), Category::Event, "Device"), Ok(0));
        assert_eq!(build.finish().unwrap().words(), [1, 1, 0, 65_536]);
    }

    #[test]
    fn a_model_needs_an_item() {
        let (mut words, mut names) = ([0; 8], [0; 48]);
        let build = ModelBuilder::new(&mut words, &mut names, "Device").unwrap();
        assert_eq!(build.finish().unwrap_err(), ModelError::Items);
    }
}
