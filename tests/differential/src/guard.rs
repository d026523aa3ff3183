//! Buffers with guard cells on both sides, so that a write outside a slice is noticed.

use reference::Record;

/// What can stand in a guarded buffer.
pub trait Cell: Copy + PartialEq + Default {
    const GUARD: Self;
}

impl Cell for u8 {
    const GUARD: u8 = 0xa5;
}

impl Cell for u32 {
    const GUARD: u32 = 0xa5c3_5a3c;
}

impl Cell for u64 {
    const GUARD: u64 = 0xa5c3_5a3c_96f0_0f69;
}

impl Cell for Record {
    const GUARD: Record = Record { item: u64::GUARD, time: u64::GUARD, value: u64::GUARD };
}

/// Guard cells on each side. Enough words that a slip by a whole row is still seen.
const WIDTH: usize = 8;

#[derive(Clone, Debug)]
pub struct Guarded<T: Cell> {
    cells: Vec<T>,
}

impl<T: Cell> Guarded<T> {
    pub fn new(contents: &[T]) -> Guarded<T> {
        let mut buffer = Guarded { cells: Vec::new() };
        buffer.set(contents);
        buffer
    }

    /// Replaces the contents; the length may change.
    pub fn set(&mut self, contents: &[T]) {
        self.cells.clear();
        self.cells.resize(WIDTH, T::GUARD);
        self.cells.extend_from_slice(contents);
        self.cells.resize(contents.len() + 2 * WIDTH, T::GUARD);
    }

    pub fn inner(&self) -> &[T] {
        &self.cells[WIDTH..self.cells.len() - WIDTH]
    }

    pub fn inner_mut(&mut self) -> &mut [T] {
        let end = self.cells.len() - WIDTH;
        &mut self.cells[WIDTH..end]
    }

    pub fn intact(&self) -> bool {
        let end = self.cells.len() - WIDTH;
        let guard = |cell: &T| *cell == T::GUARD;
        self.cells[..WIDTH].iter().all(guard) && self.cells[end..].iter().all(guard)
    }

    /// Guards intact and the contents as given.
    pub fn holds(&self, contents: &[T]) -> bool {
        self.intact() && self.inner() == contents
    }
}
