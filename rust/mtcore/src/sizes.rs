//! Limits, and the sizes of buffers.
//!
//! A size that has no room in a `usize` is `usize::MAX`, which no buffer has: nothing here panics.

/// The largest number of components of a model.
pub const MAX_COMPONENTS: usize = 64;
/// The largest number of items of a model.
pub const MAX_ITEMS: usize = 64;
/// The largest number of name cells.
pub const MAX_NAMES: usize = 256;
/// Bytes of a name cell.
pub const NAME_BYTES: usize = 24;
/// The largest number of ring places (N).
pub const MAX_PLACES: usize = 131_072;
/// The largest number of asset cells (A).
pub const MAX_CELLS: usize = 128;
/// The longest asset id, in bytes.
pub const MAX_ID: usize = 32;
/// The longest asset body, in bytes.
pub const MAX_BODY: usize = 510;
/// The longest request text, in bytes.
pub const MAX_TEXT: usize = 256;
/// The number of ids that an `/asset/ID;ID..` text has room for.
pub const MAX_NAMED: usize = 125;
/// A sample's count where its text has none.
pub const DEFAULT_COUNT: usize = 100;
/// The largest number of records of a delivery.
pub const MAX_BATCH: usize = 256;
/// The largest number of native codes that are active on a condition item.
pub const MAX_ACTIVE: usize = 8;
/// Bytes of the longest line that [`write_line`](crate::write_line) makes: a stamp of 24, two bars, an item
/// of two digits, and the longest value, `WARNING:16777215`.
pub const LINE_BYTES: usize = 44;
/// Bytes of the longest line that [`read_line`](crate::read_line) reads, with leading zeros: an item of ten
/// digits, and `WARNING:` with ten. Every longer line is refused as [`Refusal::Line`](crate::Refusal::Line).
pub const MAX_LINE: usize = 54;
/// The latest time that a line or a document can have: the last millisecond of 2099.
pub const MAX_STAMP: u64 = 4_102_444_799_999;

/// Bytes of an id cell of the asset store.
pub(crate) const ID_CELL: usize = MAX_ID;
/// Bytes of a body cell of the asset store: two of length, then the body.
pub(crate) const BODY_CELL: usize = 2 + MAX_BODY;

/// The sizes of the stores, as [`start`](crate::start) takes them.
#[derive(Clone, Copy, PartialEq, Eq, Debug)]
pub struct Sizes {
    /// Ring places (N), 1 to 131,072: so many of the newest observations are held.
    pub places: u64,
    /// Asset cells (A), 1 to 128: so many tool records are held.
    pub cells: u64,
    /// The first sequence number (B), 1 to 2^63 - m. A box that starts with fresh stores takes 1 and sends
    /// a new instanceId, or goes on behind the last number that it has kept.
    pub origin: u64,
}

/// Words of a model with so many components and items: 2 + c + m.
///
/// ```
/// assert_eq!(mtcore::model_words(2, 4), 8);
/// ```
pub const fn model_words(components: usize, items: usize) -> usize {
    components.saturating_add(items).saturating_add(2)
}

/// Bytes of so many name cells.
///
/// ```
/// assert_eq!(mtcore::name_bytes(6), 144);
/// ```
pub const fn name_bytes(names: usize) -> usize {
    names.saturating_mul(NAME_BYTES)
}

/// Words of an observation store with so many ring places and items: 4 + 2 N + 48 m. An item has room for
/// eight entries of three words for what stands now, and for eight for what stood when it left the ring,
/// whatever its category.
///
/// ```
/// assert_eq!(mtcore::observation_words(3, 2), 106);
/// assert_eq!(8 * mtcore::observation_words(mtcore::MAX_PLACES, mtcore::MAX_ITEMS), 2_121_760);
/// ```
pub const fn observation_words(places: usize, items: usize) -> usize {
    let entries = items.saturating_mul(2 * 3 * MAX_ACTIVE);
    places.saturating_mul(2).saturating_add(entries).saturating_add(4)
}

/// Bytes of an asset store with so many cells: 2 + 544 A.
///
/// ```
/// assert_eq!(mtcore::asset_bytes(128), 69_634);
/// ```
pub const fn asset_bytes(cells: usize) -> usize {
    cells.saturating_mul(ID_CELL + BODY_CELL).saturating_add(2)
}

/// Words of a reply of k rows of observations: 4 + 3 k.
///
/// ```
/// assert_eq!(mtcore::reply_words(100), 304);
/// ```
pub const fn reply_words(rows: usize) -> usize {
    rows.saturating_mul(3).saturating_add(4)
}

/// Words of a reply of k rows of assets: 4 + 2 k.
///
/// ```
/// assert_eq!(mtcore::asset_reply_words(3), 10);
/// ```
pub const fn asset_reply_words(rows: usize) -> usize {
    rows.saturating_mul(2).saturating_add(4)
}

/// Words that are enough for any reply to a `sample` of this count (`None`: the text has none) from a
/// ring of so many places. A `from` or a path makes the reply shorter, never longer.
///
/// ```
/// use mtcore::sample_words;
/// assert_eq!(sample_words(1000, Some(20)), 64);
/// assert_eq!(sample_words(1000, None), 304);
/// assert_eq!(sample_words(3, None), 13);
/// // The largest reply there is: about three megabytes.
/// assert_eq!(8 * sample_words(131_072, Some(131_072)), 3_145_760);
/// ```
pub const fn sample_words(places: usize, count: Option<usize>) -> usize {
    let count = match count {
        Some(count) => count,
        None => DEFAULT_COUNT,
    };
    reply_words(if count < places { count } else { places })
}

/// Rows that a reply to a `current`, with `at` or without, has at most: one for each item, and up to eight
/// for each of those that are conditions.
///
/// ```
/// use mtcore::{current_rows, reply_words};
/// assert_eq!(current_rows(64, 0), 64);
/// assert_eq!(current_rows(64, 64), 512);
/// // Five conditions among 64 items: the room for a sample of 100 is enough.
/// assert!(reply_words(current_rows(64, 5)) <= reply_words(100));
/// ```
pub const fn current_rows(items: usize, conditions: usize) -> usize {
    items.saturating_add(conditions.saturating_mul(MAX_ACTIVE - 1))
}

/// Words that are enough for any reply to a `current`, with `at` or without, of so many items, were all of
/// them conditions: 8 m rows. [`current_rows`] says how many are enough where few of them are.
///
/// ```
/// assert_eq!(mtcore::current_words(64), 1540);
/// ```
pub const fn current_words(items: usize) -> usize {
    reply_words(current_rows(items, items))
}

/// Words that are enough for any reply about assets from so many cells: `/assets` gives a row for each
/// cell in use, `/asset/..` one for each id named, and a text has room for 125.
///
/// ```
/// assert_eq!(mtcore::assets_words(16), 254);
/// assert_eq!(mtcore::assets_words(128), 260);
/// ```
pub const fn assets_words(cells: usize) -> usize {
    asset_reply_words(if cells > MAX_NAMED { cells } else { MAX_NAMED })
}

/// Bytes around the components of a streams document: a device's name of 24, twice, a stamp of 24, five
/// numbers of 20 digits, and the text between them.
const STREAMS_AROUND: usize = 495;
/// Bytes of a component of it: a type of 24, twice, an index of two digits, its tags and those of its groups.
const STREAMS_COMPONENT: usize = 189;
/// Bytes of a row of it: an element's name of 25, twice, an item of two digits, a number of 20, a stamp of 24, a
/// value of 12 and the text between them. A condition has up to 151.
const STREAMS_ROW: usize = 154;

/// Bytes that are enough for the streams document of any reply of so many rows, of a model of so many
/// components, see [`streams`](crate::streams): 495 + 189 c + 154 k.
/// [`Model::streams_bytes`](crate::Model::streams_bytes) knows the components.
///
/// ```
/// use mtcore::{current_rows, streams_bytes, MAX_COMPONENTS, MAX_ITEMS, MAX_PLACES};
/// assert_eq!(streams_bytes(8, 100), 17_407);
/// // The largest of a current, and of all.
/// assert_eq!(streams_bytes(MAX_COMPONENTS, current_rows(MAX_ITEMS, MAX_ITEMS)), 91_439);
/// assert_eq!(streams_bytes(MAX_COMPONENTS, MAX_PLACES), 20_197_679);
/// ```
pub const fn streams_bytes(components: usize, rows: usize) -> usize {
    let components = components.saturating_mul(STREAMS_COMPONENT);
    rows.saturating_mul(STREAMS_ROW).saturating_add(components).saturating_add(STREAMS_AROUND)
}

#[cfg(test)]
mod tests {
    use super::*;

    #[test]
    fn a_text_names_so_many_assets() {
        // `/asset/`, then ids of one byte joined by `;`.
        assert_eq!((MAX_TEXT - "/asset/".len()).div_ceil(2), MAX_NAMED);
    }

    #[test]
    fn sizes_without_room_saturate() {
        assert_eq!(model_words(usize::MAX, 1), usize::MAX);
        assert_eq!(name_bytes(usize::MAX / 2), usize::MAX);
        assert_eq!(observation_words(usize::MAX, usize::MAX), usize::MAX);
        assert_eq!(asset_bytes(usize::MAX / 500), usize::MAX);
        assert_eq!(reply_words(usize::MAX / 2), usize::MAX);
        assert_eq!(sample_words(usize::MAX, Some(usize::MAX)), usize::MAX);
        assert_eq!(current_rows(2, usize::MAX / 2), usize::MAX);
        assert_eq!(current_words(usize::MAX / 8), usize::MAX);
        assert_eq!(assets_words(usize::MAX), usize::MAX);
        assert_eq!(streams_bytes(1, usize::MAX / 100), usize::MAX);
        assert_eq!(streams_bytes(usize::MAX / 100, 1), usize::MAX);
    }
}
