//! A core whose every slice ends, or begins, at a page that may not be touched: a read or write
//! outside a slice stops the program at once. Linux only.

use reference::{Core, Record};
use std::cell::Cell;
use std::ffi::c_void;
use std::slice;

const PAGE: usize = 4096;
/// Room of one area, between its two fences: more than the largest store of the lists.
const ROOM: usize = 32 * PAGE;

// The C library is there, as the standard library rests on it.
extern "C" {
    fn mmap(
        address: *mut c_void,
        length: usize,
        protection: i32,
        flags: i32,
        file: i32,
        offset: i64,
    ) -> *mut c_void;
    fn mprotect(address: *mut c_void, length: usize, protection: i32) -> i32;
}

const NO_ACCESS: i32 = 0;
const READ_WRITE: i32 = 3;
const PRIVATE_ANONYMOUS: i32 = 0x22;

/// Memory between two pages that may not be touched. Never given back: there are a few of them
/// in a test.
struct Area(*mut u8);

impl Area {
    fn new() -> Area {
        // SAFETY: a fresh mapping, placed by the system; the pages inside it are opened up.
        unsafe {
            let length = ROOM + 2 * PAGE;
            let base = mmap(std::ptr::null_mut(), length, NO_ACCESS, PRIVATE_ANONYMOUS, -1, 0);
            assert!(base as isize != -1, "no memory for a fenced area");
            let room = base.cast::<u8>().add(PAGE);
            assert_eq!(mprotect(room.cast(), ROOM, READ_WRITE), 0);
            Area(room)
        }
    }

    /// A copy of the contents, against the fence behind or before it. The area is the slice's alone
    /// until the next call of `lend`: each argument of a call has an area of its own.
    #[allow(clippy::mut_from_ref)]
    fn lend<T: Copy>(&self, contents: &[T], behind: bool) -> &mut [T] {
        let bytes = size_of_val(contents);
        assert!(bytes <= ROOM);
        let at = if behind { ROOM - bytes } else { 0 };
        // SAFETY: inside the room; ROOM and the sizes of T are such that the start is aligned.
        unsafe {
            let start = self.0.add(at).cast::<T>();
            start.copy_from_nonoverlapping(contents.as_ptr(), contents.len());
            slice::from_raw_parts_mut(start, contents.len())
        }
    }
}

/// A core behind fences.
pub struct Fenced<C: Core> {
    core: C,
    areas: [Area; 6],
    /// Which side the fence stands on; it changes from call to call.
    behind: Cell<bool>,
}

impl<C: Core> Fenced<C> {
    pub fn new(core: C) -> Fenced<C> {
        Fenced { core, areas: std::array::from_fn(|_| Area::new()), behind: Cell::new(true) }
    }

    fn side(&self) -> bool {
        self.behind.replace(!self.behind.get())
    }
}

impl<C: Core> Core for Fenced<C> {
    fn start(
        &self,
        model: &[u32],
        names: &[u8],
        observations: &mut [u64],
        assets: &mut [u8],
        n: u64,
        a: u64,
        b: u64,
        host: u64,
    ) -> (u64, u64) {
        let (side, areas) = (self.side(), &self.areas);
        let (words, bytes) = (areas[0].lend(model, side), areas[1].lend(names, side));
        let (ring, cells) = (areas[2].lend(observations, side), areas[3].lend(assets, side));
        let answer = self.core.start(words, bytes, ring, cells, n, a, b, host);
        assert!(words == model && bytes == names, "model or names were written to");
        observations.copy_from_slice(ring);
        assets.copy_from_slice(cells);
        answer
    }

    fn observe(
        &self,
        model: &[u32],
        names: &[u8],
        observations: &mut [u64],
        item: u64,
        time: u64,
        host: u64,
        value: u64,
    ) -> u64 {
        let (side, areas) = (self.side(), &self.areas);
        let (words, bytes) = (areas[0].lend(model, side), areas[1].lend(names, side));
        let ring = areas[2].lend(observations, side);
        let answer = self.core.observe(words, bytes, ring, item, time, host, value);
        assert!(words == model && bytes == names, "model or names were written to");
        observations.copy_from_slice(ring);
        answer
    }

    fn observe_batch(
        &self,
        model: &[u32],
        names: &[u8],
        observations: &mut [u64],
        records: &[Record],
        host: u64,
        answers: &mut [u64],
    ) -> (u64, u64) {
        let (side, areas) = (self.side(), &self.areas);
        let (words, bytes) = (areas[0].lend(model, side), areas[1].lend(names, side));
        let ring = areas[2].lend(observations, side);
        let (list, room) = (areas[4].lend(records, side), areas[5].lend(answers, side));
        let answer = self.core.observe_batch(words, bytes, ring, list, host, room);
        assert!(
            words == model && bytes == names && list == records,
            "model, names or records were written to"
        );
        observations.copy_from_slice(ring);
        answers.copy_from_slice(room);
        answer
    }

    fn read_line(
        &self,
        model: &[u32],
        names: &[u8],
        observations: &mut [u64],
        line: &[u8],
        host: u64,
    ) -> u64 {
        let (side, areas) = (self.side(), &self.areas);
        let (words, bytes) = (areas[0].lend(model, side), areas[1].lend(names, side));
        let (ring, text) = (areas[2].lend(observations, side), areas[4].lend(line, side));
        let answer = self.core.read_line(words, bytes, ring, text, host);
        assert!(words == model && bytes == names && text == line, "model, names or line were written to");
        observations.copy_from_slice(ring);
        answer
    }

    fn write_line(
        &self,
        model: &[u32],
        names: &[u8],
        item: u64,
        time: u64,
        value: u64,
        text: &mut [u8],
    ) -> (u64, u64) {
        let (side, areas) = (self.side(), &self.areas);
        let (words, bytes) = (areas[0].lend(model, side), areas[1].lend(names, side));
        let room = areas[5].lend(text, side);
        let answer = self.core.write_line(words, bytes, item, time, value, room);
        assert!(words == model && bytes == names, "model or names were written to");
        text.copy_from_slice(room);
        answer
    }

    fn streams(
        &self,
        model: &[u32],
        names: &[u8],
        reply: &[u64],
        n: u64,
        instance_id: u64,
        creation_time: u64,
        text: &mut [u8],
    ) -> (u64, u64) {
        let (side, areas) = (self.side(), &self.areas);
        let (words, bytes) = (areas[0].lend(model, side), areas[1].lend(names, side));
        let (given, room) = (areas[4].lend(reply, side), areas[5].lend(text, side));
        let answer = self.core.streams(words, bytes, given, n, instance_id, creation_time, room);
        assert!(words == model && bytes == names && given == reply, "model, names or reply were written to");
        text.copy_from_slice(room);
        answer
    }

    fn store_asset(
        &self,
        model: &[u32],
        names: &[u8],
        observations: &mut [u64],
        assets: &mut [u8],
        id: &[u8],
        body: &[u8],
        host: u64,
    ) -> u64 {
        let (side, areas) = (self.side(), &self.areas);
        let (words, bytes) = (areas[0].lend(model, side), areas[1].lend(names, side));
        let (ring, cells) = (areas[2].lend(observations, side), areas[3].lend(assets, side));
        let (key, contents) = (areas[4].lend(id, side), areas[5].lend(body, side));
        let answer = self.core.store_asset(words, bytes, ring, cells, key, contents, host);
        assert!(words == model && bytes == names, "model or names were written to");
        assert!(key == id && contents == body, "id or body were written to");
        observations.copy_from_slice(ring);
        assets.copy_from_slice(cells);
        answer
    }

    fn request(
        &self,
        model: &[u32],
        names: &[u8],
        observations: &[u64],
        assets: &[u8],
        text: &[u8],
        reply: &mut [u64],
    ) -> (u64, u64) {
        let (side, areas) = (self.side(), &self.areas);
        let (words, bytes) = (areas[0].lend(model, side), areas[1].lend(names, side));
        let (ring, cells) = (areas[2].lend(observations, side), areas[3].lend(assets, side));
        let (line, answers) = (areas[4].lend(text, side), areas[5].lend(reply, side));
        let answer = self.core.request(words, bytes, ring, cells, line, answers);
        assert!(words == model && bytes == names && line == text, "model, names or text were written to");
        assert!(ring == observations && cells == assets, "a request wrote to a store");
        reply.copy_from_slice(answers);
        answer
    }

    fn body(&self, assets: &[u8], id: &[u8]) -> (u64, u64) {
        let (side, areas) = (self.side(), &self.areas);
        let (cells, key) = (areas[3].lend(assets, side), areas[4].lend(id, side));
        let answer = self.core.body(cells, key);
        assert!(cells == assets && key == id, "a body wrote to its store or id");
        answer
    }
}
