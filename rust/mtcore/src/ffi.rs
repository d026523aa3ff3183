//! The C interface of `libmtcore.a`, and safe calls over slices that pass its words on unread.
//!
//! A host that wants results and values calls the functions of the crate's root, or an
//! [`Agent`](crate::Agent); they say what a call takes, gives and refuses.

use crate::Record;
use core::ptr;

/// 0 and k, or the refusal's number and 0.
#[derive(Clone, Copy, PartialEq, Eq, Debug)]
#[repr(C)]
pub struct Answer {
    /// 0, or the refusal's number.
    pub number: u64,
    /// The number of a request's rows, of a delivery's records or of the bytes of a line or a document; 0 for a
    /// start and for a refusal.
    pub count: u64,
}

/// A part of the asset store; length 0: refused.
#[derive(Clone, Copy, PartialEq, Eq, Debug)]
#[repr(C)]
pub struct Part {
    /// The byte of the store that the part begins at.
    pub start: u64,
    /// Its bytes.
    pub length: u64,
}

/// The functions as `mtcore.h` declares them. A slice is a pointer and its length in elements; an empty
/// one may be NULL. No two slices of a call may overlap unless the call only reads both.
pub mod raw {
    use super::{Answer, Part};
    use crate::Record;

    extern "C" {
        /// Writes both stores afresh: a ring of `n` places, `a` asset cells, numbers from `b` on.
        pub fn mtcore_start(
            model: *const u32,
            model_len: usize,
            names: *const u8,
            names_len: usize,
            observations: *mut u64,
            observations_len: usize,
            assets: *mut u8,
            assets_len: usize,
            n: u64,
            a: u64,
            b: u64,
            host: u64,
        ) -> Answer;

        /// Records a value, given as kind * 2^32 + low: its number, 0 for Same, or 2^63 + the refusal.
        pub fn mtcore_observe(
            model: *const u32,
            model_len: usize,
            names: *const u8,
            names_len: usize,
            observations: *mut u64,
            observations_len: usize,
            item: u64,
            time: u64,
            host: u64,
            value: u64,
        ) -> u64;

        /// Observes each record in its turn, and writes the word of each into the answers.
        pub fn mtcore_observe_batch(
            model: *const u32,
            model_len: usize,
            names: *const u8,
            names_len: usize,
            observations: *mut u64,
            observations_len: usize,
            records: *const Record,
            records_len: usize,
            host: u64,
            answers: *mut u64,
            answers_len: usize,
        ) -> Answer;

        /// Observes what an adapter line says: the answer word of observe, or 2^63 + the refusal.
        pub fn mtcore_read_line(
            model: *const u32,
            model_len: usize,
            names: *const u8,
            names_len: usize,
            observations: *mut u64,
            observations_len: usize,
            line: *const u8,
            line_len: usize,
            host: u64,
        ) -> u64;

        /// Writes the adapter line of a value, given as kind * 2^32 + low: 0 and its bytes.
        pub fn mtcore_write_line(
            model: *const u32,
            model_len: usize,
            names: *const u8,
            names_len: usize,
            item: u64,
            time: u64,
            value: u64,
            text: *mut u8,
            text_len: usize,
        ) -> Answer;

        /// Stores an asset: its cell, or 2^63 + the refusal.
        pub fn mtcore_store_asset(
            model: *const u32,
            model_len: usize,
            names: *const u8,
            names_len: usize,
            observations: *mut u64,
            observations_len: usize,
            assets: *mut u8,
            assets_len: usize,
            id: *const u8,
            id_len: usize,
            body: *const u8,
            body_len: usize,
            host: u64,
        ) -> u64;

        /// Answers a request text into the reply buffer.
        pub fn mtcore_request(
            model: *const u32,
            model_len: usize,
            names: *const u8,
            names_len: usize,
            observations: *const u64,
            observations_len: usize,
            assets: *const u8,
            assets_len: usize,
            text: *const u8,
            text_len: usize,
            reply: *mut u64,
            reply_len: usize,
        ) -> Answer;

        /// Writes the streams document of a reply of observations: 0 and its bytes.
        pub fn mtcore_streams(
            model: *const u32,
            model_len: usize,
            names: *const u8,
            names_len: usize,
            reply: *const u64,
            reply_len: usize,
            n: u64,
            instance_id: u64,
            creation_time: u64,
            text: *mut u8,
            text_len: usize,
        ) -> Answer;

        /// Finds an asset's body in its store.
        pub fn mtcore_body(assets: *const u8, assets_len: usize, id: *const u8, id_len: usize) -> Part;
    }
}

/// NULL for an empty slice, as a C host would pass it.
fn pointer<T>(slice: &[T]) -> *const T {
    if slice.is_empty() {
        return ptr::null();
    }
    slice.as_ptr()
}

fn pointer_mut<T>(slice: &mut [T]) -> *mut T {
    if slice.is_empty() {
        return ptr::null_mut();
    }
    slice.as_mut_ptr()
}

// Every unsafe block below rests on the same: each pointer comes with the length of the slice it
// was taken from, the slices are borrowed for the whole call, and the core reads and writes
// inside them only. The borrows keep what is written apart from all else.

/// `mtcore_start` over slices.
#[allow(clippy::too_many_arguments)]
pub fn start(
    model: &[u32],
    names: &[u8],
    observations: &mut [u64],
    assets: &mut [u8],
    n: u64,
    a: u64,
    b: u64,
    host: u64,
) -> Answer {
    // SAFETY: see above.
    unsafe {
        raw::mtcore_start(
            pointer(model),
            model.len(),
            pointer(names),
            names.len(),
            pointer_mut(observations),
            observations.len(),
            pointer_mut(assets),
            assets.len(),
            n,
            a,
            b,
            host,
        )
    }
}

/// `mtcore_observe` over slices. `value` is kind * 2^32 + low, as in a packed value.
pub fn observe(
    model: &[u32],
    names: &[u8],
    observations: &mut [u64],
    item: u64,
    time: u64,
    host: u64,
    value: u64,
) -> u64 {
    // SAFETY: see above.
    unsafe {
        raw::mtcore_observe(
            pointer(model),
            model.len(),
            pointer(names),
            names.len(),
            pointer_mut(observations),
            observations.len(),
            item,
            time,
            host,
            value,
        )
    }
}

/// `mtcore_observe_batch` over slices.
pub fn observe_batch(
    model: &[u32],
    names: &[u8],
    observations: &mut [u64],
    records: &[Record],
    host: u64,
    answers: &mut [u64],
) -> Answer {
    // SAFETY: see above.
    unsafe {
        raw::mtcore_observe_batch(
            pointer(model),
            model.len(),
            pointer(names),
            names.len(),
            pointer_mut(observations),
            observations.len(),
            pointer(records),
            records.len(),
            host,
            pointer_mut(answers),
            answers.len(),
        )
    }
}

/// `mtcore_read_line` over slices.
pub fn read_line(model: &[u32], names: &[u8], observations: &mut [u64], line: &[u8], host: u64) -> u64 {
    // SAFETY: see above.
    unsafe {
        raw::mtcore_read_line(
            pointer(model),
            model.len(),
            pointer(names),
            names.len(),
            pointer_mut(observations),
            observations.len(),
            pointer(line),
            line.len(),
            host,
        )
    }
}

/// `mtcore_write_line` over slices. `value` is kind * 2^32 + low, as in a packed value.
pub fn write_line(model: &[u32], names: &[u8], item: u64, time: u64, value: u64, text: &mut [u8]) -> Answer {
    // SAFETY: see above.
    unsafe {
        raw::mtcore_write_line(
            pointer(model),
            model.len(),
            pointer(names),
            names.len(),
            item,
            time,
            value,
            pointer_mut(text),
            text.len(),
        )
    }
}

/// `mtcore_store_asset` over slices.
pub fn store_asset(
    model: &[u32],
    names: &[u8],
    observations: &mut [u64],
    assets: &mut [u8],
    id: &[u8],
    body: &[u8],
    host: u64,
) -> u64 {
    // SAFETY: see above.
    unsafe {
        raw::mtcore_store_asset(
            pointer(model),
            model.len(),
            pointer(names),
            names.len(),
            pointer_mut(observations),
            observations.len(),
            pointer_mut(assets),
            assets.len(),
            pointer(id),
            id.len(),
            pointer(body),
            body.len(),
            host,
        )
    }
}

/// `mtcore_request` over slices.
pub fn request(
    model: &[u32],
    names: &[u8],
    observations: &[u64],
    assets: &[u8],
    text: &[u8],
    reply: &mut [u64],
) -> Answer {
    // SAFETY: see above.
    unsafe {
        raw::mtcore_request(
            pointer(model),
            model.len(),
            pointer(names),
            names.len(),
            pointer(observations),
            observations.len(),
            pointer(assets),
            assets.len(),
            pointer(text),
            text.len(),
            pointer_mut(reply),
            reply.len(),
        )
    }
}

/// `mtcore_streams` over slices.
pub fn streams(
    model: &[u32],
    names: &[u8],
    reply: &[u64],
    n: u64,
    instance_id: u64,
    creation_time: u64,
    text: &mut [u8],
) -> Answer {
    // SAFETY: see above.
    unsafe {
        raw::mtcore_streams(
            pointer(model),
            model.len(),
            pointer(names),
            names.len(),
            pointer(reply),
            reply.len(),
            n,
            instance_id,
            creation_time,
            pointer_mut(text),
            text.len(),
        )
    }
}

/// `mtcore_body` over slices.
pub fn body(assets: &[u8], id: &[u8]) -> Part {
    // SAFETY: see above.
    unsafe { raw::mtcore_body(pointer(assets), assets.len(), pointer(id), id.len()) }
}
