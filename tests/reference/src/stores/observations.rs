//! The observation store: head, ring, latest values and checkpoints in one array of words.

use super::conditions::{Entries, Standing, ENTRIES};
use crate::answer::Refusal;
use crate::faults::{Fault, FaultSet};
use crate::model::Model;
use crate::value::item_of;
use crate::{LARGEST, MOST_PLACES};
use std::ops::Range;

/// Words of the head: N, m, B, last.
pub const HEAD: usize = 4;

/// A recorded observation as replies carry it.
#[derive(Clone, Copy, PartialEq, Eq, Debug)]
pub struct Row {
    pub number: u64,
    pub time: u64,
    pub packed: u64,
}

/// The two tables of entries: what items stand at, and what stood on them below the ring's oldest number.
#[derive(Clone, Copy, PartialEq, Eq)]
pub enum Table {
    Latest,
    Checkpoint,
}

/// An observation to be recorded.
pub struct Newest<'s> {
    pub item: usize,
    pub time: u64,
    pub packed: u64,
    /// What stands on the item so far, where it is a condition item.
    pub standing: Option<&'s mut Standing>,
}

/// Entries of the ring that lie side by side.
struct Run<'a> {
    times: &'a [u64],
    packed: &'a [u64],
}

/// The checked head of an observation store, with the model it was checked against. It stands for the
/// head as it was read: a later write of `last` is not seen.
#[derive(Clone, Copy)]
pub struct Head<'m> {
    model: Model<'m>,
    n: usize,
    m: usize,
    b: u64,
    pub last: u64,
}

impl<'m> Head<'m> {
    /// The head, if it and the store's length keep their rules for the model's items.
    pub fn check<F: FaultSet>(words: &[u64], model: &Model<'m>, faults: F) -> Option<Head<'m>> {
        let m = model.items();
        let &[n, items, b, last] = words.first_chunk::<HEAD>()?;
        if !(1..=MOST_PLACES).contains(&n) || (items != m as u64 && !faults.has(Fault::ItemsUncompared)) {
            return None;
        }
        let head = Head { model: *model, n: n as usize, m, b, last };
        let newest_of_start = if faults.has(Fault::HeadSumWraps) {
            u128::from(b.wrapping_add(m as u64 - 1))
        } else {
            u128::from(b) + m as u128 - 1
        };
        let numbered = b >= 1 && newest_of_start <= u128::from(last) && last <= LARGEST;
        let length = super::observation_words(head.n, m);
        let fits = words.len() == length || (words.len() > length && faults.has(Fault::LongerStores));
        (numbered && fits).then_some(head)
    }

    pub fn n(&self) -> u64 {
        self.n as u64
    }

    /// The first number of all.
    pub fn origin(&self) -> u64 {
        self.b
    }

    /// The lowest number the ring still holds.
    pub fn first<F: FaultSet>(&self, faults: F) -> u64 {
        let held = self.n() + u64::from(faults.has(Fault::FirstTooLow));
        let first = (self.last + 1).saturating_sub(held).max(self.b);
        if faults.has(Fault::FirstTooHigh) && first > self.b {
            return (first + 1).min(self.last);
        }
        first
    }

    fn place<F: FaultSet>(&self, number: u64, faults: F) -> usize {
        let from = if faults.has(Fault::RingPlaceFromOne) { 1 } else { self.b };
        // Wraps only where a fault let a wrong head through.
        let mut steps = number.wrapping_sub(from);
        if faults.has(Fault::RingPlaceAfterWrap) && steps >= self.n() {
            steps = steps.wrapping_add(1);
        }
        (steps % self.n()) as usize
    }

    fn ring_time(&self, place: usize) -> usize {
        HEAD + place
    }

    fn ring_packed(&self, place: usize) -> usize {
        HEAD + self.n + place
    }

    /// Where number, time and packed value of an item's first entry stand. The other seven follow each.
    fn entry_at(&self, table: Table, item: usize) -> [usize; 3] {
        let column = ENTRIES * self.m;
        let columns = if table == Table::Latest { 0 } else { 3 };
        let base = HEAD + 2 * self.n + columns * column + ENTRIES * item;
        [base, base + column, base + 2 * column]
    }

    /// All the entries of an item.
    pub fn entries_of<'a>(&self, words: &'a [u64], table: Table, item: usize) -> Entries<'a> {
        let [numbers, times, packed] = self
            .entry_at(table, item)
            .map(|at| words[at..].first_chunk::<ENTRIES>().expect("the store's length was checked"));
        Entries { numbers, times, packed }
    }

    /// How many entries of an item are used, if they keep their written form.
    pub fn used<F: FaultSet>(
        &self,
        words: &[u64],
        table: Table,
        item: usize,
        faults: F,
    ) -> Result<usize, Refusal> {
        let used = self.entries_of(words, table, item).written(item, faults).ok_or(Refusal::Store)?;
        let none = used == 0 && table == Table::Latest && !faults.has(Fault::EmptyLatestPasses);
        if none {
            return Err(Refusal::Store);
        }
        Ok(used)
    }

    /// What stands on a condition item, if its entries keep their form or a planted fault doesn't ask.
    pub fn standing<F: FaultSet>(
        &self,
        words: &[u64],
        table: Table,
        item: usize,
        untested: Fault,
        faults: F,
    ) -> Result<Standing, Refusal> {
        if !faults.has(untested) {
            self.used(words, table, item, faults)?;
        }
        Ok(Standing::of(self.entries_of(words, table, item), item, faults))
    }

    /// Tests the entries of an item of another category: a planted fault.
    pub fn test_other<F: FaultSet>(
        &self,
        words: &[u64],
        table: Table,
        item: usize,
        faults: F,
    ) -> Result<(), Refusal> {
        if faults.has(Fault::OtherFormTested) {
            self.used(words, table, item, faults)?;
        }
        Ok(())
    }

    pub fn is_condition(&self, item: usize) -> bool {
        self.model.is_condition(item)
    }

    /// The first latest entry.
    pub fn latest(&self, words: &[u64], item: usize) -> Row {
        read(words, self.entry_at(Table::Latest, item))
    }

    /// The first entry of the checkpoint, unless nothing of the item has left the ring.
    pub fn checkpoint(&self, words: &[u64], item: usize) -> Option<Row> {
        Some(read(words, self.entry_at(Table::Checkpoint, item))).filter(|row| row.number != 0)
    }

    pub fn item_valid<F: FaultSet>(&self, packed: u64, faults: F) -> bool {
        let item = if faults.has(Fault::ItemCutShort) { item_of(packed) & 255 } else { item_of(packed) };
        item < self.m as u64
    }

    /// Whether the packed value is what the item stands at, of categories other than conditions.
    pub fn is_latest<F: FaultSet>(&self, words: &[u64], item: usize, packed: u64, faults: F) -> bool {
        if faults.has(Fault::NeverSame) {
            return false;
        }
        let latest = self.latest(words, item).packed;
        if faults.has(Fault::SameWithoutKind) {
            return latest as u32 == packed as u32;
        }
        latest == packed || self.is_held(words, packed, faults)
    }

    /// Whether a planted fault takes an equal value that is still held for Same.
    pub fn is_held<F: FaultSet>(&self, words: &[u64], packed: u64, faults: F) -> bool {
        let held = self.first(faults)..self.last + 1;
        faults.has(Fault::SameAfterAnyEqual)
            && self.entries(words, held, faults).any(|row| row.packed == packed)
    }

    pub fn set_latest(&self, words: &mut [u64], item: usize, row: Row) {
        write(words, self.entry_at(Table::Latest, item), row);
    }

    pub fn set_standing(&self, words: &mut [u64], table: Table, item: usize, standing: &Standing) {
        let Entries { numbers, times, packed } = standing.entries();
        for (at, column) in self.entry_at(table, item).into_iter().zip([numbers, times, packed]) {
            words[at..at + ENTRIES].copy_from_slice(column);
        }
    }

    pub fn not_spent<F: FaultSet>(&self, faults: F) -> Result<(), Refusal> {
        let end = if faults.has(Fault::SpentTooEarly) { LARGEST - 1 } else { LARGEST };
        if self.last >= end {
            return Err(Refusal::Spent);
        }
        Ok(())
    }

    /// The number that a further observation pushes out of the ring.
    fn pushed_out(&self) -> Option<u64> {
        let recorded = (self.last + 1).wrapping_sub(self.b);
        (recorded >= self.n()).then(|| self.last + 1 - self.n().min(self.last + 1))
    }

    /// The last check ahead of an observation of the item: a number is left, and what leaves the ring is
    /// sound. That goes into its checkpoint, and its place is free.
    pub fn make_room<F: FaultSet>(
        &self,
        words: &mut [u64],
        item: usize,
        faults: F,
    ) -> Result<usize, Refusal> {
        self.not_spent(faults)?;
        let place = self.place(self.last + 1, faults);
        let pushed_out = self.pushed_out();
        let packed = words[self.ring_packed(place)];
        let read = pushed_out.is_some() || faults.has(Fault::UnusedPlaceTested);
        let sound = self.item_valid(packed, faults);
        if read && !sound && !faults.has(Fault::OverwrittenUntested) {
            return Err(Refusal::Store);
        }
        if let Some(number) = pushed_out {
            let row = Row { number, time: words[self.ring_time(place)], packed };
            self.leave_ring(words, row, item, faults)?;
        }
        Ok(place)
    }

    /// Takes an entry that leaves the ring into its item's checkpoint, where it can.
    fn leave_ring<F: FaultSet>(
        &self,
        words: &mut [u64],
        mut row: Row,
        new_item: usize,
        faults: F,
    ) -> Result<(), Refusal> {
        let own = item_of(row.packed) as usize;
        let item = if faults.has(Fault::CheckpointOfNewItem) { new_item } else { own };
        // The item is not there only where a fault let an unsound entry through.
        if item >= self.m || faults.has(Fault::CheckpointNotUpdated) {
            return Ok(());
        }
        if faults.has(Fault::CheckpointWrittenOnce) && self.checkpoint(words, item).is_some() {
            return Ok(());
        }
        if faults.has(Fault::CheckpointWithNewNumber) {
            row.number = self.last + 1;
        }
        if !self.is_condition(item) {
            self.test_other(words, Table::Checkpoint, item, faults)?;
            write(words, self.entry_at(Table::Checkpoint, item), row);
            return Ok(());
        }
        let untested = Fault::OverwritingFormUntested;
        let mut standing = self.standing(words, Table::Checkpoint, item, untested, faults)?;
        standing.leave_ring(row, faults);
        if standing.is_overfull() && !faults.has(Fault::NinthLostOverwriting) {
            return Err(Refusal::Store);
        }
        self.set_standing(words, Table::Checkpoint, item, &standing);
        Ok(())
    }

    /// Makes the entry about to be overwritten a sound one: a planted fault.
    pub fn mend<F: FaultSet>(&self, words: &mut [u64], faults: F) {
        words[self.ring_packed(self.place(self.last + 1, faults))] = 0;
    }

    /// Records an observation under the next number, at a place that is free.
    pub fn record<F: FaultSet>(&self, words: &mut [u64], place: usize, newest: Newest, faults: F) -> u64 {
        let Newest { item, mut time, packed, standing } = newest;
        if faults.has(Fault::TimesMadeToRise) {
            time = time.max(self.latest(words, item).time);
        }
        let row = Row { number: self.last + 1, time, packed };
        words[self.ring_time(place)] = time;
        words[self.ring_packed(place)] = packed;
        match standing {
            Some(standing) => {
                standing.step(row, faults);
                self.set_standing(words, Table::Latest, item, standing);
            }
            None => self.set_latest(words, item, row),
        }
        words[3] = row.number;
        row.number
    }

    /// The ring's entries of the numbers, oldest first.
    pub fn entries<'a, F: FaultSet>(
        &self,
        words: &'a [u64],
        numbers: Range<u64>,
        faults: F,
    ) -> impl Iterator<Item = Row> + 'a {
        let [upper, lower] = self.runs(words, &numbers, faults);
        let words = |run: Run<'a>| run.times.iter().zip(run.packed);
        words(upper).chain(words(lower)).zip(numbers.start..).map(|((&time, &packed), number)| Row {
            number,
            time,
            packed,
        })
    }

    /// The same as they lie: the run up to the ring's end, then the run from its beginning.
    fn runs<'a, F: FaultSet>(&self, words: &'a [u64], numbers: &Range<u64>, faults: F) -> [Run<'a>; 2] {
        let count = (numbers.end.saturating_sub(numbers.start) as usize).min(self.n);
        let start = self.place(numbers.start, faults);
        let upper = count.min(self.n - start);
        let (times, packed) = words[HEAD..HEAD + 2 * self.n].split_at(self.n);
        let run = |places: Range<usize>| Run { times: &times[places.clone()], packed: &packed[places] };
        [run(start..start + upper), run(0..count - upper)]
    }

    /// What the items stood at, from the held numbers up to `at`. Condition items are looked at where they
    /// are selected.
    pub fn state_at<F: FaultSet>(
        &self,
        words: &[u64],
        at: u64,
        selected: u64,
        faults: F,
    ) -> Result<State, Refusal> {
        let end = if faults.has(Fault::AtExclusive) { at } else { at + 1 };
        let held = self.first(faults)..end;
        let mut state = self.state_before(words, held.clone(), selected, faults)?;
        let [upper, lower] = self.runs(words, &held, faults);
        let amid = held.start + upper.packed.len() as u64;
        let sound = state.take(self, held.start, upper, faults) & state.take(self, amid, lower, faults);
        let overfull = state.standing.iter().any(Standing::is_overfull);
        let unsound = !sound && !faults.has(Fault::RingUntested);
        if unsound || (overfull && !faults.has(Fault::NinthLostAt)) {
            return Err(Refusal::Store);
        }
        if faults.has(Fault::AtFromLatest) {
            items(state.conditions).for_each(|item| {
                state.standing[item] =
                    Standing::of(self.entries_of(words, Table::Latest, item), item, faults);
            });
        }
        Ok(state)
    }

    /// The checkpoints of the selected condition items, all of which have to keep their form.
    fn state_before<F: FaultSet>(
        &self,
        words: &[u64],
        held: Range<u64>,
        selected: u64,
        faults: F,
    ) -> Result<State, Refusal> {
        let mut state = State::NONE;
        for item in items(self.tested(selected, faults)) {
            let unasked = self.cleared_unasked(words, held.clone(), item, faults);
            if !unasked && !faults.has(Fault::AtFormUntested) {
                self.used(words, Table::Checkpoint, item, faults)?;
            }
        }
        let stepped = if faults.has(Fault::NineUnselectedRefused) { u64::MAX } else { selected };
        state.conditions = self.conditions(stepped);
        for item in items(state.conditions) {
            let entries = self.entries_of(words, Table::Checkpoint, item);
            let none = faults.has(Fault::AtFromRingOnly);
            state.standing.resize(item, Standing::NONE);
            state.standing.push(if none { Standing::NONE } else { Standing::of(entries, item, faults) });
        }
        Ok(state)
    }

    /// The condition items of a selection.
    fn conditions(&self, selected: u64) -> u64 {
        items(selected)
            .take_while(|&item| item < self.m)
            .filter(|&item| self.is_condition(item))
            .fold(0, with)
    }

    /// The items whose entries a snapshot of the selected ones tests. Planted faults test others too.
    pub fn tested<F: FaultSet>(&self, selected: u64, faults: F) -> u64 {
        if faults.has(Fault::OtherFormTested) {
            return selected;
        }
        self.conditions(if faults.has(Fault::UnselectedFormTested) { u64::MAX } else { selected })
    }

    /// Whether a planted fault does not ask for the form of an item, since the ring clears it.
    fn cleared_unasked<F: FaultSet>(&self, words: &[u64], held: Range<u64>, item: usize, faults: F) -> bool {
        let clears = |row: Row| item_of(row.packed) == item as u64 && row.packed as u32 == 0;
        faults.has(Fault::ClearedFormUntested) && self.entries(words, held, faults).any(clears)
    }

    /// The entry of a held number.
    pub fn entry<F: FaultSet>(&self, words: &[u64], number: u64, faults: F) -> Row {
        let place = self.place(number, faults);
        Row { number, time: words[self.ring_time(place)], packed: words[self.ring_packed(place)] }
    }

    /// The end of a sample that counts rows: a planted fault.
    pub fn end_by_rows<F: FaultSet>(
        &self,
        words: &[u64],
        f: u64,
        count: u64,
        selected: u64,
        faults: F,
    ) -> u64 {
        let mut left = count;
        for row in self.entries(words, f..self.last + 1, faults) {
            if left == 0 {
                return row.number;
            }
            left -= selected >> (item_of(row.packed) & 63) & 1;
        }
        self.last + 1
    }
}

/// What the items stood at, at a held number.
pub struct State {
    /// Each item's newest number in the ring up to then, 0 where there is none.
    pub newest: [u64; 64],
    /// The condition items among the selected ones, and by item what stood on each.
    pub conditions: u64,
    pub standing: Vec<Standing>,
}

impl State {
    pub const NONE: State = State { newest: [0; 64], conditions: 0, standing: Vec::new() };

    /// Takes in entries from a number on. Whether all their items are there.
    fn take<F: FaultSet>(&mut self, head: &Head, from: u64, run: Run, faults: F) -> bool {
        let State { newest, conditions, standing } = self;
        let mut sound = true;
        for ((&time, &packed), number) in run.times.iter().zip(run.packed).zip(from..) {
            sound &= head.item_valid(packed, faults);
            let item = (item_of(packed) & 63) as usize;
            newest[item] = number;
            if *conditions >> item & 1 == 1 {
                standing[item].step(Row { number, time, packed }, faults);
            }
        }
        sound
    }
}

/// Writes a whole fresh store: one Unavailable for each item, numbered from b.
pub fn start<F: FaultSet>(words: &mut [u64], model: &Model, n: usize, b: u64, host: u64, faults: F) {
    let m = model.items();
    if !faults.has(Fault::StartKeepsOldWords) {
        words.fill(0);
    }
    let last = b + m as u64 - 1;
    words[..HEAD].copy_from_slice(&[n as u64, m as u64, b, last]);
    let head = Head { model: *model, n, m, b, last };
    for item in 0..m {
        let row = Row { number: b + item as u64, time: host, packed: (item as u64) << 40 };
        let place = head.place(row.number, faults);
        words[head.ring_time(place)] = row.time;
        words[head.ring_packed(place)] = row.packed;
        head.set_latest(words, item, row);
        if item + n < m && !faults.has(Fault::StartWithoutCheckpoint) {
            write(words, head.entry_at(Table::Checkpoint, item), row);
        }
    }
}

/// The items of a selection, in order.
pub fn items(selected: u64) -> impl Iterator<Item = usize> {
    (0..64).filter(move |item| selected >> item & 1 == 1)
}

/// The selection with a further item.
fn with(selected: u64, item: usize) -> u64 {
    selected | 1 << item
}

fn read(words: &[u64], [number, time, packed]: [usize; 3]) -> Row {
    Row { number: words[number], time: words[time], packed: words[packed] }
}

fn write(words: &mut [u64], at: [usize; 3], row: Row) {
    words[at[0]] = row.number;
    words[at[1]] = row.time;
    words[at[2]] = row.packed;
}
