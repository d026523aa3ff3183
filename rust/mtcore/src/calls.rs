//! The nine calls, over slices that the host passes each time.

use crate::{ffi, Answers, Record, Refusal, Sizes, Value};

/// What an accepted observe did, of a value or of a line.
#[derive(Clone, Copy, PartialEq, Eq, Hash, Debug)]
pub enum Observed {
    /// Recorded under this number.
    Recorded(u64),
    /// Equal to the item's newest value, or a condition that changes nothing: nothing was recorded, the
    /// time neither. Not given for a [discrete](crate::Category::Discrete) item.
    Same,
}

impl Observed {
    /// What an answer's word says, of a single observe, of a line or of a delivery's record: a number, 0 for
    /// Same, or 2^63 + the refusal.
    ///
    /// # Errors
    ///
    /// The refusal that the word holds.
    ///
    /// ```
    /// use mtcore::{Observed, Refusal};
    /// assert_eq!(Observed::from_word(8), Ok(Observed::Recorded(8)));
    /// assert_eq!(Observed::from_word(0), Ok(Observed::Same));
    /// assert_eq!(Observed::from_word((1 << 63) + 5), Err(Refusal::Kind));
    /// ```
    pub fn from_word(word: u64) -> Result<Observed, Refusal> {
        match accepted(word)? {
            0 => Ok(Observed::Same),
            number => Ok(Observed::Recorded(number)),
        }
    }
}

/// Writes both stores afresh, whatever stood in them: every item Unavailable at the host's time, numbered
/// from [`Sizes::origin`] on in item order, and no assets.
///
/// The observation store is of exactly [`observation_words`](crate::observation_words) words, the asset
/// store of exactly [`asset_bytes`](crate::asset_bytes) bytes.
///
/// # Errors
///
/// In this order: [`Refusal::Model`], [`Refusal::Size`].
pub fn start(
    model: &[u32],
    names: &[u8],
    observations: &mut [u64],
    assets: &mut [u8],
    sizes: Sizes,
    host: u64,
) -> Result<(), Refusal> {
    let Sizes { places, cells, origin } = sizes;
    done(ffi::start(model, names, observations, assets, places, cells, origin, host)).map(|_| ())
}

/// Records a value of an item, unless it is Same. Of a sample or an event it is where it equals the item's
/// newest. Of a [discrete](crate::Category::Discrete) item every value is recorded, an equal one too.
///
/// `time` is the source's, in milliseconds since 1970-01-01T00:00:00Z; 0 means that it gave none, and
/// then the host's time is used. Times need not rise: observations are ordered by their numbers.
///
/// # Conditions
///
/// On a condition item up to [`MAX_ACTIVE`](crate::MAX_ACTIVE) native codes are active side by side:
///
/// * Warning or Fault adds its code behind those that are active, or takes the place of the entry of its
///   code, and ends an Unavailable. It is Same where its code is active at that level.
/// * Normal with a code other than 0 clears that one. It is Same where the code isn't active, behind an
///   Unavailable too: the item stays Unavailable then.
/// * Normal with code 0 clears all and ends an Unavailable. It is Same where none is active, but not behind
///   an Unavailable.
/// * Unavailable clears all. It is Same behind an Unavailable.
///
/// # Errors
///
/// In this order: [`Refusal::Model`], [`Refusal::Store`], [`Refusal::Item`], [`Refusal::Kind`],
/// [`Refusal::Store`] (the item is a condition and its entries are damaged), (Same, unless discrete,)
/// [`Refusal::Crowded`], [`Refusal::Spent`], [`Refusal::Store`] (the ring entry about to be overwritten is
/// damaged, or what its item has from before the ring).
///
/// ```
/// # let (model, names) = ([1, 1, 0, 131_072], mtcore::names(["SYSTEM"]).unwrap());
/// # let names = names.as_flattened();
/// # let sizes = mtcore::Sizes { places: 4, cells: 1, origin: 1 };
/// # let mut observations = [0; mtcore::observation_words(4, 1)];
/// # let mut assets = [0; mtcore::asset_bytes(1)];
/// # mtcore::start(&model, &names, &mut observations, &mut assets, sizes, 1).unwrap();
/// use mtcore::{Level, Observed, Refusal, Value};
/// let mut observe = |value| mtcore::observe(&model, &names, &mut observations, 0, 0, 5, value);
/// // Start has recorded number 1, an Unavailable. A servo is too warm, and then does not follow either.
/// assert_eq!(observe(Value::Condition(Level::Warning, 77)), Ok(Observed::Recorded(2)));
/// assert_eq!(observe(Value::Condition(Level::Fault, 502)), Ok(Observed::Recorded(3)));
/// assert_eq!(observe(Value::Condition(Level::Fault, 502)), Ok(Observed::Same));
/// // It has cooled down: the fault stands alone. A code that isn't active can't be cleared.
/// assert_eq!(observe(Value::Condition(Level::Normal, 77)), Ok(Observed::Recorded(4)));
/// assert_eq!(observe(Value::Condition(Level::Normal, 77)), Ok(Observed::Same));
/// // All is well, and stays so.
/// assert_eq!(observe(Value::Condition(Level::Normal, 0)), Ok(Observed::Recorded(5)));
/// assert_eq!(observe(Value::Condition(Level::Normal, 0)), Ok(Observed::Same));
/// // A native code has 24 bits, and eight of them are active at most.
/// assert_eq!(observe(Value::Condition(Level::Fault, 1 << 24)), Err(Refusal::Kind));
/// for code in 0..8 {
///     assert!(observe(Value::Condition(Level::Warning, code)).is_ok());
/// }
/// assert_eq!(observe(Value::Condition(Level::Warning, 8)), Err(Refusal::Crowded));
/// assert_eq!(observe(Value::Condition(Level::Fault, 7)), Ok(Observed::Recorded(14)));
/// ```
///
/// A part counter's pulse has the same code each time, and each one is a part:
///
/// ```
/// use mtcore::{Category, Component, ModelBuilder, Observed, Sizes, Value};
/// let (mut words, mut names) = ([0; mtcore::model_words(1, 1)], [0; mtcore::name_bytes(2)]);
/// let mut build = ModelBuilder::new(&mut words, &mut names, "Device")?;
/// let pulse = build.item(Component::DEVICE, Category::Discrete, "PART_COUNT")?;
/// let model = build.finish()?;
/// # let (model, names) = (model.words(), model.names());
/// # let sizes = Sizes { places: 100, cells: 1, origin: 1 };
/// # let mut observations = [0; mtcore::observation_words(100, 1)];
/// # let mut assets = [0; mtcore::asset_bytes(1)];
/// # mtcore::start(model, names, &mut observations, &mut assets, sizes, 1)?;
/// // Start has recorded number 1.
/// for (number, time) in [(2, 60_000), (3, 120_000), (4, 180_000)] {
///     let part = mtcore::observe(model, names, &mut observations, pulse, time, time, Value::Event(1))?;
///     assert_eq!(part, Observed::Recorded(number));
/// }
/// # Ok::<(), Box<dyn std::error::Error>>(())
/// ```
pub fn observe(
    model: &[u32],
    names: &[u8],
    observations: &mut [u64],
    item: u64,
    time: u64,
    host: u64,
    value: Value,
) -> Result<Observed, Refusal> {
    Observed::from_word(ffi::observe(model, names, observations, item, time, host, value.word()))
}

/// Records a delivery of observations: each in its turn, as [`observe`] does it with the same `host`, on the
/// store that the one before it left. Model, names and the store's head are tested once for all, so that a
/// delivery of what a scan found costs less than its single observes.
///
/// `answers` has at least as many words as there are records; words behind them stay as they were. No
/// records at all are right too. A record that is refused adds nothing and does not stop the others: `Ok`
/// says that every record has its answer, and [`Answers`] says what it is.
///
/// # Errors
///
/// In this order: [`Refusal::Model`], [`Refusal::Store`] (the head), [`Refusal::Batch`] (more than
/// [`MAX_BATCH`](crate::MAX_BATCH) records), [`Refusal::Space`]. Nothing is recorded or written then.
///
/// An answer is one of [`observe`]'s: in this order [`Refusal::Item`], [`Refusal::Kind`],
/// [`Refusal::Store`] (a condition item's entries), (Same, unless discrete,) [`Refusal::Crowded`],
/// [`Refusal::Spent`], [`Refusal::Store`] (the ring entry about to be overwritten).
///
/// (Where an archive of another version counts more answers than there are words: [`Refusal::Unknown`]
/// with number 0.)
///
/// ```
/// # let (model, names) = ([1, 2, 0, 131_072, 1], mtcore::names(["SYSTEM", "POSITION"]).unwrap());
/// # let names = names.as_flattened();
/// # let sizes = mtcore::Sizes { places: 4, cells: 1, origin: 1 };
/// # let mut observations = [0; mtcore::observation_words(4, 2)];
/// # let mut assets = [0; mtcore::asset_bytes(1)];
/// # mtcore::start(&model, &names, &mut observations, &mut assets, sizes, 1).unwrap();
/// use mtcore::{Level, Observed, Record, Refusal, Value};
/// // Item 0 is a condition, item 1 a sample.
/// let records = [
///     Record::new(1, 1010, Value::Sample(12_500)),
///     Record::new(0, 1010, Value::Sample(1)),
///     Record::new(0, 0, Value::Condition(Level::Fault, 7)), // no time of its own: 1020
///     Record::new(1, 1015, Value::Sample(12_500)),
/// ];
/// let mut words = [0; 4];
/// let answers = mtcore::observe_batch(&model, &names, &mut observations, &records, 1020, &mut words)?;
/// let expected =
///     [Ok(Observed::Recorded(3)), Err(Refusal::Kind), Ok(Observed::Recorded(4)), Ok(Observed::Same)];
/// assert!(answers.iter().eq(expected));
/// # Ok::<(), Refusal>(())
/// ```
pub fn observe_batch<'a>(
    model: &[u32],
    names: &[u8],
    observations: &mut [u64],
    records: &[Record],
    host: u64,
    answers: &'a mut [u64],
) -> Result<Answers<'a>, Refusal> {
    let count = done(ffi::observe_batch(model, names, observations, records, host, answers))?;
    let words = usize::try_from(count).ok().and_then(|count| answers.get(..count));
    words.map(Answers::read).ok_or(Refusal::Unknown { number: 0 })
}

/// Records what an adapter's line says, as [`observe`] does it of the line's item, time and value.
///
/// # Lines
///
/// The line is `stamp|item|value`, without its line feed, and without the carriage return before it: one
/// observation, of an item by its number. Case matters, and there are no blanks.
///
/// * stamp: `YYYY-MM-DDThh:mm:ss.fffZ`, in UTC, a real date and time of 1970 to 2099 with seconds 0 to 59. An
///   empty one is time 0: then the host's time is used.
/// * item: its number in digits.
/// * value: `UNAVAILABLE`; for a sample a decimal with at most three digits behind its point; for an event and
///   for a discrete item a code; for a condition `NORMAL:`, `WARNING:` or `FAULT:` and its native code.
///
/// A number has 1 to 10 digits, leading zeros among them, and 1 to 3 behind a point. `-` stands before a
/// decimal only. A line of more than [`MAX_LINE`](crate::MAX_LINE) bytes has another form.
///
/// # Errors
///
/// In this order: [`Refusal::Model`], [`Refusal::Store`] (the head), [`Refusal::Line`] (another form, whatever
/// is wrong with the line besides), [`Refusal::Stamp`] (a date or time that there isn't); then those of
/// [`observe`]: [`Refusal::Item`], [`Refusal::Kind`] (also a value of another category's form, and a number too
/// large for its kind), [`Refusal::Store`] (a condition item's entries), (Same, unless discrete,)
/// [`Refusal::Crowded`], [`Refusal::Spent`], [`Refusal::Store`] (the ring entry about to be overwritten).
///
/// A line that is refused adds nothing: the host logs it and reads the next.
///
/// ```
/// # let (model, names) = ([1, 3, 0, 131_072, 1, 65_538], mtcore::names(["SYSTEM", "POSITION", "MODE"]).unwrap());
/// # let names = names.as_flattened();
/// # let sizes = mtcore::Sizes { places: 4, cells: 1, origin: 1 };
/// # let mut observations = [0; mtcore::observation_words(4, 3)];
/// # let mut assets = [0; mtcore::asset_bytes(1)];
/// # mtcore::start(&model, &names, &mut observations, &mut assets, sizes, 1).unwrap();
/// use mtcore::{Observed, Refusal};
/// let host = 1_789_365_601_000; // 2026-09-14T06:00:01Z
/// let mut read = |line: &str| mtcore::read_line(&model, &names, &mut observations, line.as_bytes(), host);
/// // Item 0 is a condition, item 1 a sample, item 2 an event. Start has recorded numbers 1 to 3.
/// assert_eq!(read("2026-09-14T06:00:00.250Z|1|12.5"), Ok(Observed::Recorded(4)));
/// assert_eq!(read("2026-09-14T06:00:00.500Z|01|0012.500"), Ok(Observed::Same));
/// assert_eq!(read("|2|3"), Ok(Observed::Recorded(5))); // at the host's time
/// assert_eq!(read("|0|WARNING:41"), Ok(Observed::Recorded(6)));
/// // What is no line, a date that there isn't, an item too many, and a sample's value for an event.
/// assert_eq!(read("|1|12.5\r"), Err(Refusal::Line));
/// assert_eq!(read("2026-02-30T06:00:00.250Z|1|12.5"), Err(Refusal::Stamp));
/// assert_eq!(read("|3|12.5"), Err(Refusal::Item));
/// assert_eq!(read("|2|12.5"), Err(Refusal::Kind));
/// ```
pub fn read_line(
    model: &[u32],
    names: &[u8],
    observations: &mut [u64],
    line: &[u8],
    host: u64,
) -> Result<Observed, Refusal> {
    Observed::from_word(ffi::read_line(model, names, observations, line, host))
}

/// Writes an observation as a line to the front of `text` and tells its bytes; those behind it stay as they
/// were. [`read_line`] reads it back to this item, time and value. It takes no store: whether the item has the
/// value, or ever had it, is not asked.
///
/// The stamp is empty for time 0. There is no needless zero and no needless point, and no line feed at the
/// end. [`LINE_BYTES`](crate::LINE_BYTES) are always enough for the text.
/// [`Model::write_line`](crate::Model::write_line) gives the line itself, and [`Line`](crate::Line) prints it
/// where there is no model to hold the value against.
///
/// # Errors
///
/// In this order: [`Refusal::Model`], [`Refusal::Item`], [`Refusal::Kind`] (an asset change item whatever the
/// value), [`Refusal::Stamp`] (a time above [`MAX_STAMP`](crate::MAX_STAMP)), [`Refusal::Space`]. Nothing is
/// written then.
///
/// ```
/// # let (model, names) = ([1, 3, 0, 131_072, 1, 65_538], mtcore::names(["SYSTEM", "POSITION", "MODE"]).unwrap());
/// # let names = names.as_flattened();
/// use mtcore::{Level, Refusal, Value, LINE_BYTES};
/// let mut text = [0; LINE_BYTES];
/// // Item 0 is a condition, item 1 a sample, item 2 an event.
/// let bytes = mtcore::write_line(&model, &names, 1, 1_789_365_600_250, Value::Sample(-500), &mut text)?;
/// assert_eq!(&text[..bytes as usize], b"2026-09-14T06:00:00.250Z|1|-0.5");
/// let fault = Value::Condition(Level::Fault, 504);
/// assert_eq!(mtcore::write_line(&model, &names, 0, 0, fault, &mut text), Ok(12));
/// assert_eq!(&text[..12], b"|0|FAULT:504");
/// assert_eq!(mtcore::write_line(&model, &names, 2, 0, fault, &mut text), Err(Refusal::Kind));
/// # Ok::<(), Refusal>(())
/// ```
pub fn write_line(
    model: &[u32],
    names: &[u8],
    item: u64,
    time: u64,
    value: Value,
    text: &mut [u8],
) -> Result<u64, Refusal> {
    done(ffi::write_line(model, names, item, time, value.word(), text))
}

/// Stores an asset as the newest and answers its cell.
///
/// The asset with its id is removed, or, if there is none and every cell is in use, the one that was
/// stored longest ago; the cells behind it move down by one. The model's asset change item, if it has
/// one, gets an event at the host's time, its code the cell, recorded even if it equals the one before.
///
/// The id is of 1 to 32 bytes of 33 to 126 without `;`, `/` and `?`, the body of 1 to 510 bytes of any kind.
///
/// # Errors
///
/// In this order: [`Refusal::Model`], [`Refusal::Store`], [`Refusal::Asset`] and, if an event is to be
/// recorded, [`Refusal::Spent`], [`Refusal::Store`] as [`observe`].
///
/// ```
/// # let (model, names) = ([1, 1, 0, 131_072], mtcore::names(["SYSTEM"]).unwrap());
/// # let names = names.as_flattened();
/// # let sizes = mtcore::Sizes { places: 4, cells: 1, origin: 1 };
/// # let mut observations = [0; mtcore::observation_words(4, 1)];
/// # let mut assets = [0; mtcore::asset_bytes(1)];
/// # mtcore::start(&model, &names, &mut observations, &mut assets, sizes, 1).unwrap();
/// let cell = mtcore::store_asset(&model, &names, &mut observations, &mut assets, b"T1", b"drill", 9)?;
/// assert_eq!(cell, 0);
/// assert_eq!(mtcore::body(&assets, b"T1"), Some(&b"drill"[..]));
/// # Ok::<(), mtcore::Refusal>(())
/// ```
pub fn store_asset(
    model: &[u32],
    names: &[u8],
    observations: &mut [u64],
    assets: &mut [u8],
    id: &[u8],
    body: &[u8],
    host: u64,
) -> Result<u64, Refusal> {
    accepted(ffi::store_asset(model, names, observations, assets, id, body, host))
}

/// Answers a request text into the reply buffer and tells how many rows there are. Words behind the
/// reply's own stay as they were. [`Reply::read`](crate::Reply::read) takes the reply apart.
///
/// # Texts
///
/// The text is the request's path and query: 1 to 256 bytes, each 33 to 126, the first `/`. The host
/// decodes percent escapes before the call (`%22` is three bytes here) and strips a prefix of its own.
/// Case matters everywhere. Parts stand in any order, none twice.
///
/// * `/sample?from=..&count=..&path=..`, each part optional. Considered are at most `count` numbers from
///   `from` on, up to last; the rows are those of them whose item the path selects, by rising number, and
///   next is the number behind the last one considered. So count limits the numbers considered and not
///   the rows: with a path, no rows and a next that is not yet last + 1 are normal, and the client goes on
///   from next. No `from` and `from=0` mean first; another `from` below first is [`Refusal::Late`]. `from`
///   of last + 1 is accepted, with no rows, and above that it is [`Refusal::Early`]. A count that isn't
///   given is 100, also in a smaller ring.
/// * `/current?path=..&at=..`, each part optional. The state of each selected item, in item order whatever
///   the numbers are: of a condition item with active codes a row for each, up to eight, in the order in
///   which the codes were added; of every other item one row, its newest observation. With `at` it is the
///   state at that number, also where what stood then has left the ring. An item that had nothing by then
///   is left out, which happens only among the numbers that start gave out. next is last + 1, also with
///   `at`. An `at` below first, 0 too, is [`Refusal::Late`], and one above last [`Refusal::Early`].
/// * `/assets`: every asset, the newest first.
/// * `/asset/ID;ID..`: the assets named, in the text's order; an id named twice is two rows. An id that
///   is not stored refuses the whole request.
///
/// A path is `//T` or `//T//DataItem[@type="Y"]`. `//T` selects the items of every component of type T
/// and of all components below it; where such components have no items the request is accepted with no
/// rows. The second form keeps those of item type Y, and is refused as [`Refusal::InvalidXpath`] where
/// none is left. No path selects all items.
///
/// `/sample?` and `/current?`, with nothing behind the `?`, an unknown part and an empty number are
/// [`Refusal::InvalidRequest`]. `probe` and `interval` are the host's: [`Refusal::Unsupported`].
///
/// # Errors
///
/// In this order: [`Refusal::Model`], [`Refusal::Store`], [`Refusal::InvalidUri`],
/// [`Refusal::InvalidRequest`] (the word), [`Refusal::Unsupported`] (probe), [`Refusal::InvalidRequest`],
/// [`Refusal::Unsupported`] (interval), [`Refusal::TooMany`], [`Refusal::InvalidXpath`],
/// [`Refusal::Late`] or [`Refusal::Early`], [`Refusal::Store`] (damaged entries among the numbers
/// considered, or up to `at`; for a current, entries of a selected condition item), [`Refusal::Space`]; for
/// assets [`Refusal::InvalidRequest`], [`Refusal::AssetNotFound`], [`Refusal::Store`], [`Refusal::Space`].
///
/// [`Refusal::Space`] looks at the rows that this reply has and not at the count: with a path a large
/// count may fit. A host that reserves less than the largest reply ([`sample_words`](crate::sample_words))
/// puts a smaller count of its own into the text before the call, so that the client just polls more
/// often, or answers the refused sample with TOO_MANY, so that the client asks for fewer.
///
/// # Examples
///
/// A ring of three that has held four numbers; 1 has been written over.
///
/// ```
/// # use mtcore::{Category, Component, ModelBuilder, Observations, Refusal, Reply, Sizes, Value};
/// # let (mut words, mut names) = ([0; 8], [0; 120]);
/// # let mut build = ModelBuilder::new(&mut words, &mut names, "Device").unwrap();
/// # let axes = build.component(Component::DEVICE, "Axes").unwrap();
/// # build.component(Component::DEVICE, "Door").unwrap();
/// # build.item(Component::DEVICE, Category::Event, "AVAILABILITY").unwrap();
/// # build.item(axes, Category::Sample, "POSITION").unwrap();
/// # let model = build.finish().unwrap();
/// # let (model, names) = (model.words(), model.names());
/// # let mut observations = [0; mtcore::observation_words(3, 2)];
/// # let mut assets = [0; mtcore::asset_bytes(2)];
/// # let sizes = Sizes { places: 3, cells: 2, origin: 1 };
/// # mtcore::start(model, names, &mut observations, &mut assets, sizes, 1000).unwrap();
/// # for (time, value) in [(1010, 5000), (1030, -1)] {
/// #     mtcore::observe(model, names, &mut observations, 1, time, time, Value::Sample(value)).unwrap();
/// # }
/// # for id in [b"T1", b"T2"] {
/// #     mtcore::store_asset(model, names, &mut observations, &mut assets, id, b"drill", 1040).unwrap();
/// # }
/// // Item 0, AVAILABILITY of the device, was observed as number 1; item 1, POSITION of its axes, as
/// // 2, 3 and 4. A door has no items. T1 was stored before T2.
/// # let ask = |text: &str| {
/// #     let mut reply = [0; 64];
/// #     mtcore::request(model, names, &observations, &assets, text.as_bytes(), &mut reply)?;
/// #     Ok(match Reply::read(&reply).unwrap() {
/// #         Reply::Observations(o) => (o.rows().map(|row| row.number).collect::<Vec<_>>(), o.next),
/// #         Reply::Assets(a) => (a.rows().map(|row| row.cell).collect(), 0),
/// #     })
/// # };
/// # let rows = |numbers: &[u64], next| Ok((numbers.to_vec(), next));
/// # let cells = |cells: &[u64]| Ok((cells.to_vec(), 0));
/// // numbers of the rows, and next
/// assert_eq!(ask("/sample"), rows(&[2, 3, 4], 5));
/// assert_eq!(ask("/sample?from=0&count=2"), rows(&[2, 3], 4));
/// assert_eq!(ask("/sample?from=5"), rows(&[], 5));
/// assert_eq!(ask("/sample?from=6"), Err(Refusal::Early));
/// assert_eq!(ask("/sample?from=1"), Err(Refusal::Late));
/// assert_eq!(ask("/sample?count=4"), Err(Refusal::TooMany));
/// assert_eq!(ask("/sample?"), Err(Refusal::InvalidRequest));
/// // The second form keeps the device's own item, which number 2 is not: go on from 3.
/// assert_eq!(ask("/sample?from=2&count=1&path=//Device//DataItem[@type=\"AVAILABILITY\"]"), rows(&[], 3));
/// assert_eq!(ask("/current"), rows(&[1, 4], 5));
/// assert_eq!(ask("/current?at=3"), rows(&[1, 3], 5));
/// assert_eq!(ask("/current?at=1"), Err(Refusal::Late));
/// assert_eq!(ask("/current?at=5"), Err(Refusal::Early));
/// assert_eq!(ask("/current?path=//Axes"), rows(&[4], 5));
/// assert_eq!(ask("/current?path=//axes"), Err(Refusal::InvalidXpath));
/// assert_eq!(ask("/current?path=//Door"), rows(&[], 5));
/// assert_eq!(ask("/current?path=//Door//DataItem[@type=\"POSITION\"]"), Err(Refusal::InvalidXpath));
/// // cells of the rows
/// assert_eq!(ask("/assets"), cells(&[1, 0]));
/// assert_eq!(ask("/asset/T1;T2;T1"), cells(&[0, 1, 0]));
/// assert_eq!(ask("/asset/T1;T3"), Err(Refusal::AssetNotFound));
/// ```
pub fn request(
    model: &[u32],
    names: &[u8],
    observations: &[u64],
    assets: &[u8],
    text: &[u8],
    reply: &mut [u64],
) -> Result<u64, Refusal> {
    done(ffi::request(model, names, observations, assets, text, reply))
}

/// Writes the MTConnectStreams document, of version 1.2, of a reply of observations to the front of `text` and
/// tells its bytes; those behind it stay as they were. It takes no store: whether the words are the reply of a
/// request is not asked, and words behind it are not read.
///
/// [`Model::streams`](crate::Model::streams) takes the reply as it is read and gives the document itself, and
/// [`Agent::streams`](crate::Agent::streams) knows its ring. [`streams_bytes`](crate::streams_bytes) are always
/// enough for the text.
///
/// # The document
///
/// It is what a client gets for its `sample` or `current`, as the body of a response of type `text/xml`; its
/// bytes are ASCII, each line ends with a line feed, and there is no zero at the end.
///
/// * The header has `creation_time`, sender `box`, `instance_id` and `n`, the ring's places, as bufferSize, all as
///   they were given, and the reply's next, first and last.
/// * The components that have rows follow in model order, in each of them Samples, Events (asset changes and
///   discrete items are among them) and Condition where they have rows, in these the rows in the reply's order.
///   Without rows `<Streams/>` is empty.
/// * A row of item 7 has `dataItemId="i7"`, its number as sequence, and its time, 0 too, as timestamp.
/// * A sample's or event's element is the item's type in Pascal case without `_`, with `T` before it where no
///   letter begins it: `PATH_FEEDRATE` is `PathFeedrate`. Its text is what [`write_line`] has for the value.
/// * A condition's element is `Normal`, `Warning`, `Fault` or `Unavailable`; it has the item's type and, but for
///   Unavailable, its nativeCode.
///
/// # Errors
///
/// In this order, each asked of the whole reply before the next: [`Refusal::Model`], [`Refusal::Store`] (fewer
/// words than the reply has, or a row whose value its item can't have), [`Refusal::Stamp`] (`creation_time` or a
/// row's time above [`MAX_STAMP`](crate::MAX_STAMP)), [`Refusal::Space`]. Nothing is written then.
///
/// # Examples
///
/// A ring of three that has held four numbers, of a device with an axis.
///
/// ```
/// # use mtcore::{Refusal, Sizes, Value};
/// # let names = mtcore::names(["Device", "Axes", "AVAILABILITY", "POSITION"]).unwrap();
/// # let (model, names) = ([2, 2, 0, 1, 65_538, 259], names.as_flattened());
/// # let mut observations = [0; mtcore::observation_words(3, 2)];
/// # let mut assets = [0; mtcore::asset_bytes(1)];
/// # let sizes = Sizes { places: 3, cells: 1, origin: 1 };
/// # mtcore::start(&model, names, &mut observations, &mut assets, sizes, 1000).unwrap();
/// # for (time, value) in [(1010, 5000), (1030, -1)] {
/// #     mtcore::observe(&model, names, &mut observations, 1, time, time, Value::Sample(value)).unwrap();
/// # }
/// let (mut reply, mut text) = ([0; mtcore::reply_words(3)], [0; mtcore::streams_bytes(2, 3)]);
/// mtcore::request(&model, names, &observations, &assets, b"/sample", &mut reply)?;
/// let bytes = mtcore::streams(&model, names, &reply, 3, 1, 2000, &mut text)?;
/// let document = String::from_utf8_lossy(&text[..bytes as usize]);
/// let expected = r#"<?xml version="1.0" encoding="UTF-8"?>
/// <MTConnectStreams xmlns="urn:mtconnect.org:MTConnectStreams:1.2">
/// <Header creationTime="1970-01-01T00:00:02.000Z" sender="box" instanceId="1" bufferSize="3" ..
/// <Streams>
/// <DeviceStream name="Device" uuid="Device">
/// <ComponentStream component="Axes" name="Axes" componentId="c1">
/// <Samples>
/// <Position dataItemId="i1" sequence="2" timestamp="1970-01-01T00:00:01.000Z">UNAVAILABLE</Position>
/// <Position dataItemId="i1" sequence="3" timestamp="1970-01-01T00:00:01.010Z">5</Position>
/// <Position dataItemId="i1" sequence="4" timestamp="1970-01-01T00:00:01.030Z">-0.001</Position>
/// </Samples>
/// </ComponentStream>
/// </DeviceStream>
/// </Streams>
/// </MTConnectStreams>
/// "#;
/// let sequences = r#"version="1.2" nextSequence="5" firstSequence="2" lastSequence="4"/>"#;
/// assert_eq!(document, expected.replace("..", sequences));
/// // A word is missing, the document's time is after 2099, and there is no room for it.
/// let refused = |reply: &[u64], time| mtcore::streams(&model, names, reply, 3, 1, time, &mut []);
/// assert_eq!(refused(&reply[..12], u64::MAX), Err(Refusal::Store));
/// assert_eq!(refused(&reply, u64::MAX), Err(Refusal::Stamp));
/// assert_eq!(refused(&reply, 2000), Err(Refusal::Space));
/// # Ok::<(), Refusal>(())
/// ```
pub fn streams(
    model: &[u32],
    names: &[u8],
    reply: &[u64],
    n: u64,
    instance_id: u64,
    creation_time: u64,
    text: &mut [u8],
) -> Result<u64, Refusal> {
    done(ffi::streams(model, names, reply, n, instance_id, creation_time, text))
}

/// An asset's body, as a part of its store. None on any fault: a store whose head, length or body's
/// length is wrong, an id that breaks its rules, an id that is not stored.
///
/// ```
/// assert_eq!(mtcore::body(&[0; 3], b"T1"), None);
/// ```
pub fn body<'a>(assets: &'a [u8], id: &[u8]) -> Option<&'a [u8]> {
    let part = ffi::body(assets, id);
    let (start, length) = (usize::try_from(part.start).ok()?, usize::try_from(part.length).ok()?);
    if length == 0 {
        return None;
    }
    assets.get(start..start.checked_add(length)?)
}

/// A returned answer pair as a result.
fn done(answer: ffi::Answer) -> Result<u64, Refusal> {
    match Refusal::from_number(answer.number) {
        None => Ok(answer.count),
        Some(refusal) => Err(refusal),
    }
}

/// A returned answer word as a result.
fn accepted(word: u64) -> Result<u64, Refusal> {
    const REFUSED: u64 = 1 << 63;
    // A recorded number is at most 2^63 - 1.
    match word.checked_sub(REFUSED) {
        None => Ok(word),
        Some(number) => Err(Refusal::from_number(number).unwrap_or(Refusal::Unknown { number })),
    }
}

#[cfg(test)]
mod tests {
    use super::{accepted, done, Observed};
    use crate::ffi::Answer;
    use crate::Refusal;

    #[test]
    fn words_as_results() {
        assert_eq!(accepted(0), Ok(0));
        assert_eq!(accepted((1 << 63) - 1), Ok((1 << 63) - 1));
        for number in 0..100 {
            let refusal = accepted((1 << 63) + number).unwrap_err();
            assert_eq!(refusal.number(), number);
            assert_eq!(Observed::from_word((1 << 63) + number), Err(refusal));
        }
        assert_eq!(accepted((1 << 63) + 16), Err(Refusal::Batch));
        assert_eq!(accepted((1 << 63) + 19), Err(Refusal::Crowded));
        assert_eq!(accepted((1 << 63) + 20), Err(Refusal::Line));
        assert_eq!(accepted((1 << 63) + 21), Err(Refusal::Stamp));
        assert_eq!(accepted((1 << 63) + 12), Err(Refusal::Unknown { number: 12 }));
        assert_eq!(accepted(u64::MAX).unwrap_err().number(), (1 << 63) - 1);
        assert_eq!(Observed::from_word((1 << 63) - 1), Ok(Observed::Recorded((1 << 63) - 1)));
    }

    #[test]
    fn pairs_as_results() {
        assert_eq!(done(Answer { number: 0, count: 7 }), Ok(7));
        for number in 1..100 {
            assert_eq!(done(Answer { number, count: 0 }).unwrap_err().number(), number);
        }
        assert_eq!(done(Answer { number: 17, count: 0 }), Err(Refusal::Late));
        assert_eq!(done(Answer { number: 18, count: 0 }), Err(Refusal::Early));
        assert_eq!(done(Answer { number: 21, count: 0 }), Err(Refusal::Stamp));
        assert_eq!(done(Answer { number: 12, count: 0 }), Err(Refusal::Unknown { number: 12 }));
    }
}
