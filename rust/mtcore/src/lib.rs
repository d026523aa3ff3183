//! The proved core of an MTConnect agent (Part 1, version 1.2), for Rust hosts.
//!
//! The core keeps a machine's newest observations in a ring and its tool records (assets) in cells, reads
//! and writes adapters' lines, answers `sample`, `current` and asset requests, and writes the streams document
//! of a `sample` or `current`. HTTP, `probe`, streaming and the other documents are the host's. It allocates
//! nothing and holds nothing: all it works on are slices that the host owns, and this crate is `no_std` and has
//! no dependency but the core's archive.
//!
//! # Depending on it
//!
//! Build the core's archive in the repository, once for each version; this proves the core first:
//!
//! ```text
//! (cd crates/mtcore && rt lib)      writes crates/mtcore/out/libmtcore.a
//! ```
//!
//! Take the crate by its path:
//!
//! ```toml
//! [dependencies]
//! mtcore = { path = "../feluniavor/rust/mtcore" }
//! ```
//!
//! Its build script links the archive from the repository's `crates/mtcore/out`. Where it stands
//! elsewhere, the environment variable `MTCORE_ARCHIVE` names its folder, by its whole path:
//!
//! ```text
//! MTCORE_ARCHIVE=$PWD/lib cargo build
//! ```
//!
//! Archive and crate are taken from the same version. The archive is for x86-64 Linux. It wants `memcpy`,
//! `memmove` and `memset` at link time: Rust's standard library or any C library has them, and a host
//! without either brings its own three. Rust 1.81 or later.
//!
//! # A host
//!
//! ```
//! use mtcore::{Agent, Category, Component, Level, ModelBuilder, Record, Reply, Row, Sizes, Value};
//!
//! const PLACES: usize = 1000; // observations that the ring holds
//! const CELLS: usize = 16; // tool records
//! const ITEMS: usize = 4;
//!
//! type Mill<'a> = Agent<&'a [u32], &'a [u8], Vec<u64>, Vec<u8>>;
//!
//! fn main() -> Result<(), Box<dyn std::error::Error>> {
//!     // What the machine has. Items are named by the numbers that the builder gives.
//!     let (mut words, mut names) = ([0; mtcore::model_words(2, ITEMS)], [0; mtcore::name_bytes(6)]);
//!     let mut build = ModelBuilder::new(&mut words, &mut names, "Device")?;
//!     let axes = build.component(Component::DEVICE, "Axes")?;
//!     let available = build.item(Component::DEVICE, Category::Event, "AVAILABILITY")?;
//!     let position = build.item(axes, Category::Sample, "POSITION")?;
//!     let servo = build.item(axes, Category::Condition, "ACTUATOR")?;
//!     build.item(Component::DEVICE, Category::AssetChange, "ASSET_CHANGED")?;
//!     let model = build.finish()?;
//!
//!     // The two stores, of exactly their sizes, and a start.
//!     let now = 1_789_282_800_000; // 2026-09-13T07:00:00Z
//!     let observations = vec![0; mtcore::observation_words(PLACES, ITEMS)];
//!     let assets = vec![0; mtcore::asset_bytes(CELLS)];
//!     let sizes = Sizes { places: PLACES as u64, cells: CELLS as u64, origin: 1 };
//!     let mut mill = Agent::start(model, observations, assets, sizes, now)?;
//!
//!     // What the adapters tell. A refusal here is a fault of theirs: log it and go on.
//!     mill.observe(available, now + 100, now + 101, Value::Event(1))?;
//!     let scan = [
//!         Record::new(position, now + 200, Value::Sample(12_500)), // 12.5 mm
//!         Record::new(servo, 0, Value::Condition(Level::Warning, 77)), // no time of its own: the host's
//!         Record::new(servo, 0, Value::Condition(Level::Fault, 502)), // beside the warning
//!     ];
//!     let mut words = [0; 3];
//!     for answer in mill.observe_batch(&scan, now + 201, &mut words)?.iter() {
//!         answer?;
//!     }
//!     mill.store_asset(b"T17", b"drill, 8 mm, 412 parts left", now + 400)?;
//!     mill.read_line(b"2026-09-13T07:00:00.450Z|1|12.501", now + 450)?; // as an adapter sends it
//!
//!     // What clients ask. The reply is the largest buffer: this one is for counts up to 100.
//!     let mut reply = vec![0; mill.reply_words(100)];
//!     assert_eq!(
//!         answer(&mill, "/sample?from=5&count=3&path=//Axes", &mut reply),
//!         ["next 8", "6 POSITION 12.500", "7 ACTUATOR WARNING 77"]
//!     );
//!     assert_eq!(answer(&mill, "/sample?from=10", &mut reply), ["next 11", "10 POSITION 12.501"]);
//!     // Normal with the code clears the warning; the fault stands on, and is all that current shows.
//!     mill.observe(servo, 0, now + 500, Value::Condition(Level::Normal, 77))?;
//!     let servos = "/current?path=//Axes//DataItem[@type=\"ACTUATOR\"]";
//!     assert_eq!(answer(&mill, servos, &mut reply), ["next 12", "8 ACTUATOR FAULT 502"]);
//!     assert_eq!(answer(&mill, "/assets", &mut reply), ["T17: drill, 8 mm, 412 parts left"]);
//!     let early = ["OUT_OF_RANGE", "early: the number is above last"];
//!     assert_eq!(answer(&mill, "/sample?from=2000", &mut reply), early);
//!
//!     // What an MTConnect client gets: the same rows as a document, of this box's instanceId and time.
//!     let Reply::Observations(rows) = mill.request(servos.as_bytes(), &mut reply)? else { unreachable!() };
//!     let mut text = vec![0; mill.model().streams_bytes(rows.len())];
//!     let document = String::from_utf8_lossy(mill.streams(&rows, 1, now + 600, &mut text)?);
//!     assert!(document.contains(r#"<Fault dataItemId="i2" sequence="8" timestamp="2026-09-13T07:00:00.201Z""#));
//!     assert!(document.contains(r#" type="ACTUATOR" nativeCode="502"/>"#));
//!     Ok(())
//! }
//!
//! /// The lines of an answer on a page of the host's own.
//! fn answer(mill: &Mill, text: &str, reply: &mut [u64]) -> Vec<String> {
//!     match mill.request(text.as_bytes(), reply) {
//!         Ok(Reply::Observations(observations)) => {
//!             let rows = observations.rows().map(|row| line(mill, row));
//!             [format!("next {}", observations.next)].into_iter().chain(rows).collect()
//!         }
//!         Ok(Reply::Assets(assets)) => {
//!             let text = |bytes: Option<&[u8]>| String::from_utf8_lossy(bytes.unwrap_or(b"?")).into_owned();
//!             let tool = |cell| format!("{}: {}", text(mill.cell_id(cell)), text(mill.cell_body(cell)));
//!             assets.rows().map(|row| tool(row.cell)).collect()
//!         }
//!         Err(refusal) => {
//!             // What an MTConnectError document says: late and early have one errorCode.
//!             vec![refusal.error_code().unwrap_or("INTERNAL_ERROR").to_string(), refusal.to_string()]
//!         }
//!     }
//! }
//!
//! fn line(mill: &Mill, row: Row) -> String {
//!     // A row of a damaged store may name anything; this one is the model's.
//!     let Some((_, value)) = mill.model().checked(row) else {
//!         return format!("{} ?", row.number);
//!     };
//!     let value = match value {
//!         Value::Unavailable => "UNAVAILABLE".to_string(),
//!         Value::Sample(thousandths) => format!("{:.3}", f64::from(thousandths) / 1000.0),
//!         Value::Event(code) => format!("code {code}"), // texts are in a table of the host's
//!         Value::Condition(Level::Normal, code) => format!("NORMAL {code}"),
//!         Value::Condition(Level::Warning, code) => format!("WARNING {code}"),
//!         Value::Condition(Level::Fault, code) => format!("FAULT {code}"),
//!     };
//!     format!("{} {} {value}", row.number, mill.model().item_type(row.item()).unwrap_or("?"))
//! }
//! ```
//!
//! # The parts
//!
//! * [`Model`] lists components and data items with their type names. [`ModelBuilder`] puts one together;
//!   [`component_word`], [`item_word`] and [`names`] are for one that is written as a constant.
//! * [`Agent`] holds a model and its two stores, so that they cannot be mixed up. The plain functions
//!   [`start`], [`observe`], [`observe_batch`], [`read_line`], [`write_line`], [`store_asset`], [`request`],
//!   [`streams`] and [`body`] take them as slices each time.
//! * [`observe_batch`] records what a scan found together in one call: [`Record`]s go in, [`Answers`] come
//!   out.
//! * [`read_line`] records what an adapter's line says, [`Model::write_line`] makes such a line, and [`Line`]
//!   prints one without a model.
//! * [`request`] says what each request text means, with examples.
//! * [`Agent::streams`] makes the MTConnectStreams document of a reply of observations, and [`streams`] says
//!   what stands in it.
//! * [`observe`] says how conditions are raised and cleared, several on one item.
//! * [`Reply`], [`Observations`] and [`Assets`] take a reply apart; [`cell_id`] and [`cell_body`] lead from
//!   an asset reply's cell to its tool.
//! * [`Value`] says what can be recorded, [`Category`] of which item and when it counts, [`Refusal`] why a
//!   call did not do what it was asked.
//!
//! # What to reserve
//!
//! | buffer | size | for |
//! |---|---|---|
//! | model words | [`model_words`] | `u32`, 2 + c + m |
//! | names | [`name_bytes`] | bytes, 24 for each different name |
//! | observation store | [`observation_words`] | `u64`, 4 + 2 N + 48 m, exactly |
//! | asset store | [`asset_bytes`] | bytes, 2 + 544 A, exactly |
//! | reply to `sample` | [`sample_words`] | `u64`, 4 + 3 min(count, N) |
//! | reply to `current` | [`current_words`] | `u64`, 4 + 24 m; with few conditions less, see [`current_rows`] |
//! | reply to `/assets`, `/asset/..` | [`assets_words`] | `u64`, 4 + 2 max(A, 125) |
//! | any reply of k rows | [`reply_words`], [`asset_reply_words`] | `u64` |
//! | a delivery's answers | one for each record, at most [`MAX_BATCH`] | `u64` |
//! | a line that is written | [`LINE_BYTES`] | bytes, 44 |
//! | a line that is read | [`MAX_LINE`] and two more | bytes, 54: a longer line is refused, so no more of it need be kept |
//! | a streams document of k rows | [`streams_bytes`] | bytes, 495 + 189 c + 154 k |
//!
//! # A client that polls
//!
//! It asks `/current`, takes its rows as the machine's state, and then samples from its next number and
//! on from each reply's next, whatever other clients do: so it gets each observation that its path
//! selects exactly once. Once its next number has been written over, each poll from it gets
//! [`Refusal::Late`], whatever its path and count, and the client begins again with `/current`. What was
//! written over in between is lost; a start is never moved up silently.
//!
//! [`Refusal::Early`] is never the answer to a poll from a next number while the agent runs on. It says
//! that the agent was started anew with lower numbers, which its instanceId shows, or that the client is
//! at fault.
//!
//! # What can't go wrong
//!
//! No slice, whatever its length or contents, makes a call fail or touch other memory, and a refused call
//! changes nothing. Nothing in this crate panics. Stores hold no pointers: they may be saved, copied and
//! restored bytewise ([`Agent::resume`]), together with [`LAYOUT`] and a checksum of the host's own, since
//! damage inside them is not all seen ([`Model::checked`]).
//!
//! The repository's docs/HOST.md has more for whoever writes a box: how long a call takes, what to do
//! about each refusal, a day in a box's life. It and the C header say the same as these pages.

#![no_std]
#![deny(missing_docs)]
#![deny(clippy::incompatible_msrv)]
#![cfg_attr(
    not(test),
    deny(
        clippy::indexing_slicing,
        clippy::unwrap_used,
        clippy::expect_used,
        clippy::panic,
        clippy::unreachable
    )
)]

#[cfg(test)]
extern crate std;

mod agent;
mod batch;
mod builder;
mod calls;
mod cells;
pub mod ffi;
mod line;
mod model;
mod refusal;
mod reply;
mod sizes;
mod value;

pub use agent::{Agent, LentAgent};
pub use batch::{Answers, Record};
pub use builder::ModelBuilder;
pub use calls::{
    body, observe, observe_batch, read_line, request, start, store_asset, streams, write_line, Observed,
};
pub use cells::{cell_body, cell_id};
pub use line::Line;
pub use model::{component_word, item_word, names, Category, Component, Model, ModelError};
pub use refusal::Refusal;
pub use reply::{AssetRow, Assets, Observations, Reply, Row};
pub use sizes::{
    asset_bytes, asset_reply_words, assets_words, current_rows, current_words, model_words, name_bytes,
    observation_words, reply_words, sample_words, streams_bytes, Sizes, DEFAULT_COUNT, LINE_BYTES,
    MAX_ACTIVE, MAX_BATCH, MAX_BODY, MAX_CELLS, MAX_COMPONENTS, MAX_ID, MAX_ITEMS, MAX_LINE, MAX_NAMED,
    MAX_NAMES, MAX_PLACES, MAX_STAMP, MAX_TEXT, NAME_BYTES,
};
pub use value::{Level, Value};

/// The form of stores and model, which is `MTCORE_LAYOUT` of the C header. It moves where the form does:
/// saved stores outlive a version, so a host saves this number beside them, and starts anew where it
/// differs.
pub const LAYOUT: u32 = 2;
