//! Model words and name cells: checked, and read.

use crate::sizes::{MAX_COMPONENTS, MAX_ITEMS, MAX_NAMES, NAME_BYTES};
use crate::{calls, streams_bytes, Observations, Refusal, Row, Value};
use core::fmt;

/// What an item reports.
#[derive(Clone, Copy, PartialEq, Eq, Hash, Debug)]
#[repr(u8)]
#[non_exhaustive]
pub enum Category {
    /// A measured value: takes [`Value::Sample`].
    Sample = 0,
    /// A state, by its code: takes [`Value::Event`].
    Event = 1,
    /// Conditions: takes [`Value::Condition`]. Up to eight native codes are active side by side, each with
    /// its level, and `current` gives a row for each.
    Condition = 2,
    /// The event of a stored asset, its code the cell. [`store_asset`](crate::store_asset) writes it and
    /// `observe` never; a model has at most one such item.
    AssetChange = 3,
    /// Something that happens rather than stands: a part counter's pulse, a message, a bar end. It takes
    /// [`Value::Event`], and each one counts: it is recorded even where it equals the one before, an
    /// Unavailable too, and is never [`Same`](crate::Observed::Same). So each takes a number and a ring
    /// entry, and only what has happened is observed. A state is an [`Event`](Category::Event): repeating it
    /// costs no entry. A model has any number of such items.
    ///
    /// A data item that MTConnect calls `representation="DISCRETE"` is one. Part 1 of version 1.2 has no
    /// such items yet.
    Discrete = 4,
}

impl Category {
    const ALL: [Category; 5] =
        [Category::Sample, Category::Event, Category::Condition, Category::AssetChange, Category::Discrete];

    /// Whether an observation of such an item can have this value: Unavailable, or the category's own kind.
    ///
    /// ```
    /// use mtcore::{Category, Level, Value};
    /// assert!(Category::Sample.holds(Value::Sample(5)));
    /// assert!(!Category::Sample.holds(Value::Event(5)));
    /// assert!(Category::Condition.holds(Value::Condition(Level::Normal, 5)));
    /// assert!(!Category::Condition.holds(Value::Condition(Level::Fault, 1 << 24)));
    /// assert!(Category::Discrete.holds(Value::Event(5)));
    /// ```
    pub const fn holds(self, value: Value) -> bool {
        match (self, value) {
            (_, Value::Unavailable) => true,
            (Category::Sample, Value::Sample(_)) => true,
            (Category::Event | Category::AssetChange | Category::Discrete, Value::Event(_)) => true,
            (Category::Condition, Value::Condition(_, code)) => code < 1 << 24,
            _ => false,
        }
    }
}

/// A component, by its place in the model, counted from 0.
#[derive(Clone, Copy, PartialEq, Eq, PartialOrd, Ord, Hash, Debug)]
pub struct Component(
    /// The place.
    pub u8,
);

impl Component {
    /// The device itself, which stands above all other components.
    pub const DEVICE: Component = Component(0);
}

/// A component's word: parent * 256 + name, the name by its cell.
///
/// ```
/// assert_eq!(mtcore::component_word(mtcore::Component::DEVICE, 1), 1);
/// ```
pub const fn component_word(parent: Component, name: u8) -> u32 {
    parent.0 as u32 * 256 + name as u32
}

/// An item's word: category * 65,536 + component * 256 + name, the name by its cell.
///
/// ```
/// use mtcore::{item_word, Category, Component};
/// assert_eq!(item_word(Category::Event, Component::DEVICE, 2), 65_538);
/// assert_eq!(item_word(Category::Sample, Component(1), 3), 259);
/// ```
pub const fn item_word(category: Category, component: Component, name: u8) -> u32 {
    category as u32 * 65_536 + component.0 as u32 * 256 + name as u32
}

/// Why there is no model of these words and names, or why it does not take one part more. A number is
/// the place, counted from 0, of the name cell, the component or the item at fault.
#[derive(Clone, Copy, PartialEq, Eq, Hash, Debug)]
#[non_exhaustive]
pub enum ModelError {
    /// The model is not of exactly 2 + c + m words.
    Length,
    /// There are no components, or more than 64.
    Components,
    /// There are no items, or more than 64.
    Items,
    /// The names are no whole cells of 24 bytes, none at all, or more than 256.
    NameCells,
    /// A name is empty.
    EmptyName(usize),
    /// A name is longer than 24 bytes.
    LongName(usize),
    /// A name has a byte other than a letter, a digit and `_`, or its cell is not filled up with zeros.
    NameByte(usize),
    /// A component's parent does not stand before it; the device's own is 0.
    Parent(usize),
    /// A component's name is in no cell.
    ComponentName(usize),
    /// An item's category is none that there is.
    Category(usize),
    /// An item's component is not in the model.
    ItemComponent(usize),
    /// An item's name is in no cell.
    ItemName(usize),
    /// A second item of category asset change.
    SecondAssetChange(usize),
    /// The buffer for the model's words has no room for one more.
    WordBuffer,
    /// The buffer for the names has no room for one more cell.
    NameBuffer,
}

impl fmt::Display for ModelError {
    fn fmt(&self, f: &mut fmt::Formatter<'_>) -> fmt::Result {
        match self {
            ModelError::Length => f.write_str("the model's length is not that of its components and items"),
            ModelError::Components => write!(f, "a model has 1 to {MAX_COMPONENTS} components"),
            ModelError::Items => write!(f, "a model has 1 to {MAX_ITEMS} items"),
            ModelError::NameCells => {
                write!(f, "names are 1 to {MAX_NAMES} whole cells of {NAME_BYTES} bytes")
            }
            ModelError::EmptyName(n) => write!(f, "name {n} is empty"),
            ModelError::LongName(n) => write!(f, "name {n} is longer than {NAME_BYTES} bytes"),
            ModelError::NameByte(n) => write!(f, "name {n} has a byte other than letters, digits and _"),
            ModelError::Parent(n) => write!(f, "component {n}'s parent does not stand before it"),
            ModelError::ComponentName(n) => write!(f, "component {n}'s name is in no cell"),
            ModelError::Category(n) => write!(f, "item {n} has no category that there is"),
            ModelError::ItemComponent(n) => write!(f, "item {n}'s component is not in the model"),
            ModelError::ItemName(n) => write!(f, "item {n}'s name is in no cell"),
            ModelError::SecondAssetChange(n) => write!(f, "item {n} is a second asset change item"),
            ModelError::WordBuffer => f.write_str("the buffer for the model's words is too short"),
            ModelError::NameBuffer => f.write_str("the buffer for the names is too short"),
        }
    }
}

impl core::error::Error for ModelError {}

const fn name_byte(byte: u8) -> bool {
    byte.is_ascii_alphanumeric() || byte == b'_'
}

/// A name in its cell; `place` is the cell's, for the error.
#[allow(clippy::indexing_slicing)] // `at` is below the name's length, which is at most the cell's.
pub(crate) const fn name_cell(place: usize, name: &str) -> Result<[u8; NAME_BYTES], ModelError> {
    let bytes = name.as_bytes();
    if bytes.is_empty() {
        return Err(ModelError::EmptyName(place));
    }
    if bytes.len() > NAME_BYTES {
        return Err(ModelError::LongName(place));
    }
    let (mut cell, mut at) = ([0; NAME_BYTES], 0);
    while at < bytes.len() {
        if !name_byte(bytes[at]) {
            return Err(ModelError::NameByte(place));
        }
        cell[at] = bytes[at];
        at += 1;
    }
    Ok(cell)
}

/// Name cells, for a model that is written as a constant. [`ModelBuilder`](crate::ModelBuilder) makes
/// model and names together, at run time.
///
/// ```
/// use mtcore::{component_word, item_word, Category, Component, Model};
///
/// const NAMES: [[u8; 24]; 4] = match mtcore::names(["Device", "Axes", "AVAILABILITY", "POSITION"]) {
///     Ok(names) => names,
///     Err(_) => panic!("a name breaks the rules"), // at compile time
/// };
/// const MODEL: [u32; 6] = [
///     2, 2, // components, items
///     component_word(Component::DEVICE, 0),
///     component_word(Component::DEVICE, 1),
///     item_word(Category::Event, Component::DEVICE, 2),
///     item_word(Category::Sample, Component(1), 3),
/// ];
/// let model = Model::new(&MODEL, NAMES.as_flattened())?;
/// assert_eq!(model.item_type(1), Some("POSITION"));
/// assert!(mtcore::names(["spindle speed"]).is_err());
/// # Ok::<(), mtcore::ModelError>(())
/// ```
#[allow(clippy::indexing_slicing)] // `at` is below the arrays' length.
pub const fn names<const N: usize>(names: [&str; N]) -> Result<[[u8; NAME_BYTES]; N], ModelError> {
    if N == 0 || N > MAX_NAMES {
        return Err(ModelError::NameCells);
    }
    let (mut cells, mut at) = ([[0; NAME_BYTES]; N], 0);
    while at < N {
        cells[at] = match name_cell(at, names[at]) {
            Ok(cell) => cell,
            Err(error) => return Err(error),
        };
        at += 1;
    }
    Ok(cells)
}

/// The name in a cell, without its zeros.
fn name_in(cell: &[u8]) -> &[u8] {
    cell.split(|&byte| byte == 0).next().unwrap_or_default()
}

fn check_name(place: usize, cell: &[u8]) -> Result<(), ModelError> {
    let name = name_in(cell);
    let padding = cell.get(name.len()..).unwrap_or_default();
    if name.is_empty() && padding.iter().all(|&byte| byte == 0) {
        return Err(ModelError::EmptyName(place));
    }
    let good =
        !name.is_empty() && name.iter().all(|&byte| name_byte(byte)) && padding.iter().all(|&byte| byte == 0);
    good.then_some(()).ok_or(ModelError::NameByte(place))
}

/// How many cells the names are, all of them right.
fn check_names(names: &[u8]) -> Result<usize, ModelError> {
    let cells = names.len() / NAME_BYTES;
    if names.len() % NAME_BYTES != 0 || !(1..=MAX_NAMES).contains(&cells) {
        return Err(ModelError::NameCells);
    }
    names.chunks_exact(NAME_BYTES).enumerate().try_for_each(|(place, cell)| check_name(place, cell))?;
    Ok(cells)
}

fn check_component(place: usize, word: u32, cells: usize) -> Result<(), ModelError> {
    let (parent, name) = (word as usize / 256, word as usize % 256);
    // The device is its own parent.
    if parent >= place.max(1) {
        return Err(ModelError::Parent(place));
    }
    (name < cells).then_some(()).ok_or(ModelError::ComponentName(place))
}

fn check_item(place: usize, word: u32, components: usize, cells: usize) -> Result<(), ModelError> {
    category_of(word).ok_or(ModelError::Category(place))?;
    if component_of(word) as usize >= components {
        return Err(ModelError::ItemComponent(place));
    }
    (word as usize % 256 < cells).then_some(()).ok_or(ModelError::ItemName(place))
}

/// Exactly what the core refuses as 1.
fn check(words: &[u32], names: &[u8]) -> Result<(), ModelError> {
    let (components, items) = parts(words)?;
    let cells = check_names(names)?;
    for (place, &word) in components.iter().enumerate() {
        check_component(place, word, cells)?;
    }
    for (place, &word) in items.iter().enumerate() {
        check_item(place, word, components.len(), cells)?;
    }
    let changes =
        items.iter().enumerate().filter(|(_, &word)| category_of(word) == Some(Category::AssetChange));
    changes.map(|(place, _)| place).nth(1).map_or(Ok(()), |place| Err(ModelError::SecondAssetChange(place)))
}

/// The words of components and of items.
fn parts(words: &[u32]) -> Result<(&[u32], &[u32]), ModelError> {
    let (&[c, m], rest) = words.split_first_chunk::<2>().ok_or(ModelError::Length)?;
    let (c, m) = (c as usize, m as usize);
    if !(1..=MAX_COMPONENTS).contains(&c) {
        return Err(ModelError::Components);
    }
    if !(1..=MAX_ITEMS).contains(&m) {
        return Err(ModelError::Items);
    }
    let whole = rest.len() == c + m;
    rest.split_at_checked(c).filter(|_| whole).ok_or(ModelError::Length)
}

fn category_of(word: u32) -> Option<Category> {
    Category::ALL.get(word as usize / 65_536).copied()
}

fn component_of(word: u32) -> u8 {
    (word / 256 % 256) as u8
}

/// Model words with their names, checked: what the core refuses as
/// [`Refusal::Model`](crate::Refusal::Model) is none.
///
/// Words and names are the host's, lent (`&[u32]`) or owned (`Vec<u32>`, `[u32; 6]`). Word 0 is the
/// number of components, 1 to 64, word 1 that of items, 1 to 64; then stand the components' words
/// ([`component_word`]), the device first, and the items' ([`item_word`]); nothing behind them. Names are
/// 1 to 256 cells of 24 bytes; a cell is a name, of at least one letter, digit or `_`, filled up with zeros.
/// An item is named by its place among the items, counted from 0.
#[derive(Clone, Copy, PartialEq, Eq, Debug)]
pub struct Model<W, N> {
    words: W,
    names: N,
}

impl<W: AsRef<[u32]>, N: AsRef<[u8]>> Model<W, N> {
    /// The model of these words and names.
    ///
    /// # Errors
    ///
    /// The first rule that is broken. Where there is none, no call refuses the model.
    ///
    /// ```
    /// use mtcore::{Model, ModelError};
    /// let names = mtcore::names(["Device", "POSITION"])?;
    /// assert!(Model::new([1, 1, 0, 1], names.as_flattened()).is_ok());
    /// assert_eq!(Model::new([1, 1, 0, 2], names.as_flattened()), Err(ModelError::ItemName(0)));
    /// # Ok::<(), ModelError>(())
    /// ```
    pub fn new(words: W, names: N) -> Result<Self, ModelError> {
        check(words.as_ref(), names.as_ref())?;
        Ok(Model { words, names })
    }

    /// The words, as the plain calls take them.
    pub fn words(&self) -> &[u32] {
        self.words.as_ref()
    }

    /// The name cells, as the plain calls take them.
    pub fn names(&self) -> &[u8] {
        self.names.as_ref()
    }

    /// How many components there are.
    pub fn components(&self) -> usize {
        parts(self.words()).map_or(0, |(components, _)| components.len())
    }

    /// How many items there are (m).
    pub fn items(&self) -> usize {
        parts(self.words()).map_or(0, |(_, items)| items.len())
    }

    /// How many of them are conditions. A `current` has at most
    /// [`current_rows`](crate::current_rows)`(items, conditions)` rows.
    pub fn conditions(&self) -> usize {
        let condition = |&&word: &&u32| category_of(word) == Some(Category::Condition);
        parts(self.words()).map_or(0, |(_, items)| items.iter().filter(condition).count())
    }

    fn item(&self, item: u64) -> Option<u32> {
        let (_, items) = parts(self.words()).ok()?;
        items.get(usize::try_from(item).ok()?).copied()
    }

    fn component(&self, component: Component) -> Option<u32> {
        let (components, _) = parts(self.words()).ok()?;
        components.get(usize::from(component.0)).copied()
    }

    fn name(&self, word: u32) -> Option<&str> {
        let cell = self.names().chunks_exact(NAME_BYTES).nth(word as usize % 256)?;
        core::str::from_utf8(name_in(cell)).ok()
    }

    /// An item's category.
    pub fn category(&self, item: u64) -> Option<Category> {
        category_of(self.item(item)?)
    }

    /// The component that an item stands at.
    pub fn component_of(&self, item: u64) -> Option<Component> {
        Some(Component(component_of(self.item(item)?)))
    }

    /// An item's type name.
    pub fn item_type(&self, item: u64) -> Option<&str> {
        self.name(self.item(item)?)
    }

    /// A component's type name.
    pub fn component_type(&self, component: Component) -> Option<&str> {
        self.name(self.component(component)?)
    }

    /// The component above another; none above the device.
    pub fn parent(&self, component: Component) -> Option<Component> {
        let word = self.component(component)?;
        (component != Component::DEVICE).then_some(Component(u8::try_from(word / 256).ok()?))
    }

    /// The item that gets an event for each stored asset, if the model has one.
    pub fn asset_change(&self) -> Option<u64> {
        (0..self.items() as u64).find(|&item| self.category(item) == Some(Category::AssetChange))
    }

    /// A row's item, as an index below [`items`](Model::items), and its value; none where the model has no
    /// such item or the item cannot have such a value.
    ///
    /// Rows of stores that only this crate wrote always pass. The core takes a restored store as it stands:
    /// [`Refusal::Store`](crate::Refusal::Store) is about heads, lengths, the items of the ring entries, the
    /// lengths of the bodies and the form of a condition item's entries that a call reads: entries that
    /// stand side by side have different codes, each at a level that is active. It does not see an item's
    /// latest value, its last one from before the ring, kinds, levels, codes, numbers and times. So a host
    /// that saves and restores stores keeps a checksum of its own beside them, and asks this of a row before
    /// it uses its item, kind or level as an index.
    ///
    /// ```
    /// # use mtcore::{Model, Row, Value};
    /// # let names = mtcore::names(["Device", "POSITION"]).unwrap();
    /// # let model = Model::new([1, 1, 0, 1], names.as_flattened()).unwrap();
    /// let sample = Value::Sample(12_500);
    /// let row = Row { number: 7, time: 1000, packed: sample.word() };
    /// assert_eq!(model.checked(row), Some((0, sample)));
    /// // The model has one item, and it is a sample.
    /// assert_eq!(model.checked(Row { packed: (1 << 40) + sample.word(), ..row }), None);
    /// assert_eq!(model.checked(Row { packed: Value::Event(3).word(), ..row }), None);
    /// ```
    pub fn checked(&self, row: Row) -> Option<(usize, Value)> {
        let (category, value) = (self.category(row.item())?, row.value()?);
        category.holds(value).then_some((usize::try_from(row.item()).ok()?, value))
    }

    /// Writes an observation as an adapter's line, and gives the line: the front of `text`, for which
    /// [`LINE_BYTES`](crate::LINE_BYTES) are enough. An adapter needs no stores for it. See
    /// [`write_line`](crate::write_line).
    ///
    /// # Errors
    ///
    /// As [`write_line`](crate::write_line). (Where an archive of another version counts more bytes than the
    /// text has: [`Refusal::Unknown`] with number 0.)
    ///
    /// ```
    /// # use mtcore::{Model, Refusal, Value, LINE_BYTES};
    /// # let names = mtcore::names(["Device", "POSITION"]).unwrap();
    /// # let model = Model::new([1, 1, 0, 1], names.as_flattened()).unwrap();
    /// let mut text = [0; LINE_BYTES];
    /// let line = model.write_line(0, 1_789_365_600_250, Value::Sample(12_500), &mut text)?;
    /// assert_eq!(line, b"2026-09-14T06:00:00.250Z|0|12.5");
    /// // The model has one item, and it is a sample.
    /// assert_eq!(model.write_line(0, 0, Value::Event(3), &mut text), Err(Refusal::Kind));
    /// # Ok::<(), Refusal>(())
    /// ```
    pub fn write_line<'t>(
        &self,
        item: u64,
        time: u64,
        value: Value,
        text: &'t mut [u8],
    ) -> Result<&'t [u8], Refusal> {
        let bytes = calls::write_line(self.words(), self.names(), item, time, value, text)?;
        front(text, bytes)
    }

    /// Writes the streams document of a reply, and gives the document: the front of `text`, for which
    /// [`streams_bytes`](Model::streams_bytes) are enough. `n` is the number of the ring's places, and
    /// `creation_time` the time at which the document is made. No stores are needed for it, so that a host lets
    /// their lock go before. See [`streams`](crate::streams).
    ///
    /// # Errors
    ///
    /// As [`streams`](crate::streams), but for [`Refusal::Model`]. (Where an archive of another version counts
    /// more bytes than the text has: [`Refusal::Unknown`] with number 0.)
    ///
    /// ```
    /// # use mtcore::{Model, Observations, Refusal, Value};
    /// # let names = mtcore::names(["Device", "POSITION"]).unwrap();
    /// # let model = Model::new([1, 1, 0, 1], names.as_flattened()).unwrap();
    /// # let reply = [1, 3, 7, 8, 7, 1_789_365_600_250, Value::Sample(12_500).word()];
    /// // The reply of a request: of a ring of 5 places, that holds 3 to 7, number 7.
    /// let reply = Observations::read(&reply).unwrap();
    /// let mut text = vec![0; model.streams_bytes(reply.len())];
    /// let document = model.streams(&reply, 5, 1, 1_789_365_600_300, &mut text)?;
    /// let row = br#"<Position dataItemId="i0" sequence="7" timestamp="2026-09-14T06:00:00.250Z">12.5</Position>"#;
    /// assert!(document.split(|&byte| byte == b'\n').any(|line| line == row));
    /// # Ok::<(), Refusal>(())
    /// ```
    pub fn streams<'t>(
        &self,
        reply: &Observations<'_>,
        n: u64,
        instance_id: u64,
        creation_time: u64,
        text: &'t mut [u8],
    ) -> Result<&'t [u8], Refusal> {
        let (words, names) = (self.words(), self.names());
        let bytes = calls::streams(words, names, reply.words(), n, instance_id, creation_time, text)?;
        front(text, bytes)
    }

    /// Bytes that are enough for the streams document of any reply of so many rows.
    pub fn streams_bytes(&self, rows: usize) -> usize {
        streams_bytes(self.components(), rows)
    }
}

/// So many bytes of a text.
fn front(text: &[u8], bytes: u64) -> Result<&[u8], Refusal> {
    let front = usize::try_from(bytes).ok().and_then(|bytes| text.get(..bytes));
    front.ok_or(Refusal::Unknown { number: 0 })
}

#[cfg(test)]
mod tests {
    use super::{names, Category, Component, Model, ModelError};
    use crate::{Level, Row, Value};
    use std::string::ToString;

    #[test]
    fn broken_rules_are_named() {
        let cells = names(["Device", "Axes", "POSITION"]).unwrap();
        let cells = cells.as_flattened();
        let fault = |words: &[u32]| Model::new(words, cells).unwrap_err();
        assert_eq!(fault(&[]), ModelError::Length);
        assert_eq!(fault(&[1]), ModelError::Length);
        assert_eq!(fault(&[0, 1, 0]), ModelError::Components);
        assert_eq!(fault(&[65, 1]), ModelError::Components);
        assert_eq!(fault(&[1, 0, 0]), ModelError::Items);
        assert_eq!(fault(&[1, u32::MAX, 0]), ModelError::Items);
        assert_eq!(fault(&[1, 1, 0]), ModelError::Length);
        assert_eq!(fault(&[1, 1, 0, 2, 2]), ModelError::Length);
        assert_eq!(fault(&[1, 1, 256, 2]), ModelError::Parent(0));
        assert_eq!(fault(&[2, 1, 0, 257, 2]), ModelError::Parent(1));
        assert_eq!(fault(&[2, 1, 0, 3, 2]), ModelError::ComponentName(1));
        assert_eq!(fault(&[1, 1, 0, 5 * 65_536 + 2]), ModelError::Category(0));
        assert_eq!(fault(&[1, 1, 0, u32::MAX]), ModelError::Category(0));
        assert_eq!(fault(&[1, 1, 0, 256 + 2]), ModelError::ItemComponent(0));
        assert_eq!(fault(&[1, 1, 0, 3]), ModelError::ItemName(0));
        let change = 3 * 65_536;
        assert_eq!(fault(&[1, 3, 0, change, 0, change]), ModelError::SecondAssetChange(2));
        let discrete = 4 * 65_536;
        assert!(Model::new([1, 4, 0, discrete, change, discrete, discrete], cells).is_ok());
        assert_eq!(fault(&[1, 3, 0, change, discrete, change]), ModelError::SecondAssetChange(2));
        assert_eq!(fault(&[1, 1, 256, 2]).to_string(), "component 0's parent does not stand before it");
    }

    #[test]
    fn broken_names_are_named() {
        let model = [1, 1, 0, 0];
        let fault = |names: &[u8]| Model::new(model, names.to_vec()).unwrap_err();
        let with = |at: usize, byte: u8| {
            let mut cells = [0; 48];
            cells[0] = b'A';
            cells[24] = b'B';
            cells[at] = byte;
            fault(&cells)
        };
        assert_eq!(fault(&[]), ModelError::NameCells);
        assert_eq!(fault(&[b'A'; 23]), ModelError::NameCells);
        assert_eq!(fault(&[b'A'; 25]), ModelError::NameCells);
        assert_eq!(fault(&[b'A'; 257 * 24]), ModelError::NameCells);
        assert_eq!(with(24, 0), ModelError::EmptyName(1));
        assert_eq!(with(25, b'-'), ModelError::NameByte(1));
        assert_eq!(with(26, b'C'), ModelError::NameByte(1));
        assert_eq!(with(0, 200), ModelError::NameByte(0));
        assert!(Model::new(model, [b'A'; 24]).is_ok() && Model::new(model, [b'A'; 256 * 24]).is_ok());
    }

    #[test]
    fn names_break_the_rules_one_by_one() {
        assert_eq!(names([]), Err(ModelError::NameCells));
        assert_eq!(names(["A"; 257]).map(|_| ()), Err(ModelError::NameCells));
        assert_eq!(names(["A", ""]), Err(ModelError::EmptyName(1)));
        assert_eq!(names(["A234567890123456789012345"]), Err(ModelError::LongName(0)));
        assert_eq!(names(["A b"]), Err(ModelError::NameByte(0)));
        assert_eq!(names(["Ä"]), Err(ModelError::NameByte(0)));
        assert_eq!(names(["A\0"]), Err(ModelError::NameByte(0)));
        assert_eq!(names(["az_AZ_09"]).unwrap()[0][..9], *b"az_AZ_09\0");
        assert_eq!(names(["A23456789012345678901234"]).unwrap()[0], *b"A23456789012345678901234");
    }

    #[test]
    fn parts_are_read_back() {
        let cells = names(["Device", "Axes", "Linear", "POSITION", "ASSET_CHANGED"]).unwrap();
        let words = [3, 2, 0, 1, 256 + 2, 2 * 256 + 3, 3 * 65_536 + 4];
        let model = Model::new(words, cells.as_flattened()).unwrap();
        assert_eq!((model.components(), model.items(), model.conditions()), (3, 2, 0));
        assert_eq!(model.category(0), Some(Category::Sample));
        assert_eq!(model.component_of(0), Some(Component(2)));
        assert_eq!(model.component_of(1), Some(Component::DEVICE));
        assert_eq!((model.item_type(0), model.item_type(1)), (Some("POSITION"), Some("ASSET_CHANGED")));
        assert_eq!(model.component_type(Component(2)), Some("Linear"));
        assert_eq!(model.parent(Component(2)), Some(Component(1)));
        assert_eq!(model.parent(Component(1)), Some(Component::DEVICE));
        assert_eq!(model.parent(Component::DEVICE), None);
        assert_eq!(model.asset_change(), Some(1));
        for item in [2, 64, u64::MAX] {
            assert_eq!((model.category(item), model.item_type(item)), (None, None));
        }
        assert_eq!((model.component_type(Component(3)), model.parent(Component(255))), (None, None));
    }

    #[test]
    fn rows_that_a_store_of_this_model_has() {
        let names = names(["A"]).unwrap();
        let words = [1, 5, 0, 0, 1 << 16, 2 << 16, 3 << 16, 4 << 16];
        let model = Model::new(words, names.as_flattened()).unwrap();
        let fault = Value::Condition(Level::Fault, 3);
        let good = [Value::Sample(-5), Value::Event(9), fault, Value::Event(1), Value::Event(7)];
        for item in 0..6 {
            for (kind, value) in good.into_iter().enumerate() {
                let row = Row { number: 1, time: 1, packed: ((item as u64) << 40) + value.word() };
                let fits = item < 5 && good[item % 5].word() >> 32 == value.word() >> 32;
                assert_eq!(model.checked(row), fits.then_some((item, value)), "{item} {kind}");
            }
        }
        let condition = |low: u64| Row { number: 1, time: 1, packed: (2 << 40) + (3 << 32) + low };
        for code in [0, 1, (1 << 24) - 1] {
            let normal = Value::Condition(Level::Normal, code as u32);
            assert_eq!(model.checked(condition(code)), Some((2, normal)));
        }
        assert_eq!(model.checked(condition(3 << 24)), None);
        assert_eq!(model.conditions(), 1);
    }
}
