//! Document 01 and the later requests a second time, in plain Rust, sharing nothing with the proved
//! core.
//!
//! Two layers answer the same calls:
//!
//! * [`stores`]: the calls over the flat stores as the C interface takes them. It takes any
//!   contents, and its answers are those of document 01 for a damaged store too.
//! * [`machine`]: the machine that forgets nothing. It holds every observation recorded and every
//!   asset stored, and searches them.
//!
//! Both read a request text, a path, a model and an adapter line through the same modules ([`text`],
//! [`path`], [`model`], [`line`] with [`calendar`] and [`writer`]), and write a document through the same one
//! ([`document`], of what [`streams`] says); everything about ring, latest values, checkpoints and asset cells
//! they do apart, and each takes a reply apart and puts its rows in order by itself.
//!
//! Both carry a set of planted [`faults`], empty in earnest ([`faults::Clean`]), with which the
//! tests are tested.

pub mod answer;
pub mod calendar;
pub mod calls;
pub mod document;
pub mod faults;
pub mod line;
pub mod machine;
mod misjudged;
pub mod model;
pub mod path;
pub mod stores;
pub mod streams;
pub mod text;
pub mod value;
pub mod writer;

pub use answer::{Done, Observed, Refusal, Stored};
pub use calls::{Core, Record};
pub use faults::{Clean, Fault, FaultSet, Faults};
pub use machine::Machine;
pub use stores::Stores;
pub use value::{Level, Value};

/// The largest sequence number, and the largest number a request text may carry.
pub const LARGEST: u64 = (1 << 63) - 1;
/// The largest number of ring places.
pub const MOST_PLACES: u64 = 131_072;
/// The largest number of asset cells.
pub const MOST_CELLS: u64 = 128;
/// The largest number of records in a delivery.
pub const MOST_RECORDS: usize = 256;
/// Numbers considered by a sample request that gives no count.
pub const DEFAULT_COUNT: u64 = 100;
