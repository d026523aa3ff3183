//! Damaged entries of condition items, case by case: what breaks their written form, who tests it and
//! when, and what stands as it is.

use differential::by_hand::ByHand;
use differential::call::{Answer, Call, Start};
use differential::entries::{Table, ENTRIES};
use differential::fixture::{core, names, numbers, packed, record, start};
use differential::pair::Pair;
use reference::{Clean, Level, Value};

const END: u64 = 1 << 63;
const STORE: u64 = END + 2;
const KIND: u64 = END + 5;
const SPENT: u64 = END + 6;
const CROWDED: u64 = END + 19;

const SYSTEM: u64 = 0;
const POSITION: u64 = 1;
const LOGIC: u64 = 5;
const TYPES: [&str; 7] =
    ["SYSTEM", "POSITION", "EXECUTION", "ASSET_CHANGED", "MESSAGE", "LOGIC_PROGRAM", "Device"];
/// An item of each category, and a second condition item last.
const MODEL: [u32; 9] = [1, 6, 6, 2 * 65_536, 1, 65_536 + 2, 3 * 65_536 + 3, 4 * 65_536 + 4, 2 * 65_536 + 5];

const N: usize = 4;
const M: usize = 6;
const RING_PACKED: usize = 4 + N;
const LATEST: Table = Table { base: 4 + 2 * N, m: M };
const CHECKPOINT: Table = Table { base: 4 + 2 * N + 24 * M, m: M };

const GONE: Value = Value::Unavailable;

fn normal(code: u32) -> Value {
    Value::Condition(Level::Normal, code)
}

fn warning(code: u32) -> Value {
    Value::Condition(Level::Warning, code)
}

fn fault(code: u32) -> Value {
    Value::Condition(Level::Fault, code)
}

/// The packed word of SYSTEM's value.
fn own(value: Value) -> u64 {
    value.packed(SYSTEM, Clean)
}

type Entry = [u64; 3];

/// A used entry under the largest number, since numbers are not tested.
fn used(packed: u64) -> Entry {
    [u64::MAX, 77, packed]
}

/// Numbers 1 to 6 by start; 7 and 8 SYSTEM, 9 POSITION, 10 LOGIC: these four are held, 7 at place 2.
fn sound() -> Start {
    let core = core();
    let mut begin = start(&MODEL, &names(&TYPES), [N as u64, 1, 1], 1000);
    let (mut pair, answer) = Pair::start(&core, &begin).unwrap();
    assert_eq!(answer, Answer::Pair(0, 0));
    let values =
        [(SYSTEM, warning(1)), (SYSTEM, fault(2)), (POSITION, Value::Sample(3)), (LOGIC, warning(1))];
    for (number, (item, value)) in (7..).zip(values) {
        let value = (value.kind() << 32) + value.low(Clean);
        let call = Call::Observe { item, time: 1000 + number, host: 1, value };
        assert_eq!(pair.call(&call), Ok(Answer::Word(number)));
    }
    begin.observations = pair.expected_observations.clone();
    begin.assets = pair.expected_assets.clone();
    begin
}

fn changed(change: impl FnOnce(&mut [u64])) -> ByHand {
    let mut start = sound();
    change(&mut start.observations);
    ByHand::new(start)
}

/// A store with these entries of SYSTEM.
fn with(table: Table, rows: &[Entry]) -> ByHand {
    changed(|words| table.fill(words, SYSTEM as usize, rows))
}

/// The place of a held number's packed value.
fn ring(number: u64) -> usize {
    RING_PACKED + (number as usize - 1) % N
}

fn path(item: u64) -> String {
    format!("path=//Device//DataItem[@type=\"{}\"]", TYPES[item as usize])
}

fn ask(damaged: &ByHand, text: &str) -> Result<Vec<u64>, u64> {
    damaged.ask_into(text, 200)
}

/// Numbers and packed values of SYSTEM's rows, now or at a number.
fn rows(damaged: &ByHand, at: Option<u64>) -> Result<Vec<(u64, u64)>, u64> {
    let at = at.map_or(String::new(), |at| format!("&at={at}"));
    let reply = ask(damaged, &format!("/current?{}{at}", path(SYSTEM)))?;
    Ok(numbers(&reply).iter().copied().zip(packed(&reply)).collect())
}

/// Eight codes from the one given on.
fn eight_from(code: u32) -> Vec<Entry> {
    (code..code + 8).map(|code| used(own(if code % 2 == 0 { warning(code) } else { fault(code) }))).collect()
}

/// Packed words that are not active on SYSTEM: another item, another kind, another level.
fn not_active() -> Vec<u64> {
    let word = own(warning(3));
    let items = (40..64).map(|bit| word ^ (1 << bit));
    let kinds = (0..256).filter(|&kind| kind != 3).map(|kind| (kind << 32) + (1 << 24) + 3);
    let levels = (0..256).filter(|level| ![1, 2].contains(level)).map(|level| (3 << 32) + (level << 24) + 3);
    items.chain(kinds).chain(levels).collect()
}

/// Entries that break the form in either table.
fn broken() -> Vec<Vec<Entry>> {
    let [one, two] = [used(own(warning(1))), used(own(fault(2)))];
    let none = [0; 3];
    // Used ones come first.
    let mut cases =
        vec![vec![none, one], vec![one, none, two], vec![none, none, none, none, none, none, none, one]];
    let mut gap = eight_from(1);
    gap[6] = none;
    cases.push(gap);
    // Unused ones are three zeros. Behind them a number alone is a used entry.
    for front in [vec![], vec![one], vec![one, two], eight_from(1)[..7].to_vec()] {
        for at in front.len()..ENTRIES {
            for word in 0..3 {
                let mut rows = front.clone();
                rows.resize(at + 1, none);
                rows[at][word] = 1;
                // Number 1 and packed 0 right behind no other is one used entry.
                if word > 0 || at > 0 {
                    cases.push(rows);
                }
            }
        }
    }
    cases.extend(broken_several());
    cases
}

/// Two used entries and more of which one isn't active, or with a code twice.
fn broken_several() -> Vec<Vec<Entry>> {
    let one = used(own(warning(1)));
    let mut cases = Vec::new();
    for packed in not_active() {
        cases.push(vec![one, used(packed)]);
        cases.push(vec![used(packed), one]);
        let mut rows = eight_from(10);
        rows[7] = used(packed);
        cases.push(rows);
    }
    for (first, second) in [(0, 1), (0, 7), (3, 4), (6, 7)] {
        for value in [warning(10 + first as u32), fault(10 + first as u32)] {
            let mut rows = eight_from(10);
            rows[second] = used(own(value));
            cases.push(rows.clone());
            cases.push(vec![rows[first], rows[second]]);
        }
    }
    cases
}

/// A code that may stand, one that does not, what clears one and all.
fn offers() -> [Value; 6] {
    [warning(1), fault(40), normal(1), normal(40), normal(0), GONE]
}

#[test]
fn observe_tests_its_items_latest_entries() {
    for rows in broken().iter().chain([&vec![]]) {
        let damaged = with(LATEST, rows);
        for value in offers() {
            assert_eq!(damaged.observe(SYSTEM, value), STORE, "{value:?} over {rows:x?}");
        }
        // The kind comes before it; other items are not concerned.
        assert_eq!(damaged.observe(SYSTEM, Value::Sample(1)), KIND);
        assert_eq!(damaged.observe(LOGIC, warning(2)), 11);
        assert_eq!(damaged.observe(POSITION, Value::Sample(4)), 11);
    }
}

#[test]
fn a_delivery_tests_them_record_by_record() {
    let damaged = with(LATEST, &[used(own(warning(1))), used(own(fault(1)))]);
    let records = [
        record(SYSTEM, 7, warning(1)),
        record(LOGIC, 7, warning(1)),
        record(LOGIC, 7, fault(1)),
        record(SYSTEM, 7, GONE),
        record(SYSTEM, 7, Value::Event(1)),
        record(POSITION, 7, Value::Sample(4)),
    ];
    let (pair, words, left) = damaged.batch(&records, 6);
    assert_eq!((pair, words), ((0, 6), vec![STORE, 0, 11, STORE, KIND, 12]));
    let entries: Vec<usize> = (0..2).flat_map(|at| LATEST.entry(SYSTEM as usize, at)).collect();
    assert!(entries.iter().all(|&at| left[at] == damaged.start.observations[at]));
}

/// Before the space, and of the selected items alone. Neither `at` nor a sample looks at them.
#[test]
fn current_tests_the_selected_items_latest_entries() {
    for rows in broken().iter().chain([&vec![]]) {
        let damaged = with(LATEST, rows);
        assert_eq!(ask(&damaged, "/current"), Err(2), "{rows:x?}");
        assert_eq!(self::rows(&damaged, None), Err(2), "{rows:x?}");
        assert_eq!(damaged.ask_into("/current", 0), Err(2), "{rows:x?}");
        for item in 1..=5 {
            assert!(ask(&damaged, &format!("/current?{}", path(item))).is_ok(), "{rows:x?}");
        }
        assert_eq!(self::rows(&damaged, Some(8)), Ok(vec![(7, own(warning(1))), (8, own(fault(2)))]));
        assert!(ask(&damaged, "/sample").is_ok());
    }
}

/// What leaves the ring is SYSTEM's: whoever's the new observation is, it is refused.
#[test]
fn overwriting_tests_the_checkpoint() {
    for rows in broken() {
        let damaged = with(CHECKPOINT, &rows);
        assert_eq!(damaged.observe(SYSTEM, warning(3)), STORE, "{rows:x?}");
        assert_eq!(damaged.observe(LOGIC, GONE), STORE, "{rows:x?}");
        assert_eq!(damaged.observe(POSITION, Value::Sample(4)), STORE, "{rows:x?}");
        assert_eq!(damaged.store(b"T").0, STORE, "{rows:x?}");
        // Item, kind and Same come before it.
        assert_eq!(damaged.observe(9, GONE), END + 4);
        assert_eq!(damaged.observe(POSITION, GONE), STORE);
        assert_eq!(damaged.observe(POSITION, Value::Sample(3)), 0);
        assert_eq!(damaged.observe(SYSTEM, Value::Sample(3)), KIND);
        assert_eq!(damaged.observe(SYSTEM, warning(1)), 0);
        // It is another item's checkpoint where another item's entry leaves the ring.
        let other = changed(|words| {
            CHECKPOINT.fill(words, SYSTEM as usize, &rows);
            words[ring(7)] = 1 << 40;
        });
        assert_eq!(other.observe(SYSTEM, warning(3)), 11, "{rows:x?}");
    }
}

/// Before the space, of the selected items alone, whatever the ring then does. Current does not look.
#[test]
fn at_tests_the_checkpoints() {
    for rows in broken() {
        let damaged = with(CHECKPOINT, &rows);
        for at in 7..=10 {
            assert_eq!(ask(&damaged, &format!("/current?at={at}")), Err(2), "{rows:x?}");
            assert_eq!(self::rows(&damaged, Some(at)), Err(2), "{rows:x?}");
            assert_eq!(damaged.ask_into(&format!("/current?at={at}"), 0), Err(2), "{rows:x?}");
            for item in 1..=5 {
                assert!(ask(&damaged, &format!("/current?at={at}&{}", path(item))).is_ok());
            }
        }
        assert_eq!(ask(&damaged, "/current?at=6"), Err(17));
        assert_eq!(ask(&damaged, "/current?at=11"), Err(18));
        assert_eq!(ask(&damaged, "/current?at=7&path=//Device//DataItem[@type=\"x\"]"), Err(11));
        assert_eq!(numbers(&ask(&damaged, "/current").unwrap()), [7, 8, 9, 3, 4, 5, 10]);
        assert!(ask(&damaged, "/sample").is_ok());
    }
}

/// A ring that clears all does not make the checkpoint good.
#[test]
fn at_tests_the_checkpoint_that_the_ring_clears() {
    for value in [GONE, normal(0)] {
        let damaged = changed(|words| {
            CHECKPOINT.fill(words, SYSTEM as usize, &[used(own(warning(1))), used(own(fault(1)))]);
            words[ring(7)] = own(value);
        });
        assert_eq!(rows(&damaged, Some(7)), Err(2));
        assert_eq!(rows(&damaged, Some(10)), Err(2));
        assert_eq!(damaged.observe(POSITION, Value::Sample(4)), STORE);
    }
}

/// Without a used entry a checkpoint is sound: nothing of the item has left the ring.
#[test]
fn an_empty_checkpoint() {
    let damaged = with(CHECKPOINT, &[]);
    assert_eq!(rows(&damaged, Some(7)), Ok(vec![(7, own(warning(1)))]));
    assert_eq!(damaged.observe(POSITION, Value::Sample(4)), 11);
    // Left out where the ring has nothing either.
    let damaged = changed(|words| {
        CHECKPOINT.fill(words, SYSTEM as usize, &[]);
        words[ring(7)] = 1 << 40;
    });
    assert_eq!(rows(&damaged, Some(7)), Ok(vec![]));
    assert_eq!(rows(&damaged, Some(8)), Ok(vec![(8, own(fault(2)))]));
}

/// Items of other categories have no form: of their entries only the first is read or written.
#[test]
fn entries_of_other_items_are_not_tested() {
    for item in 1..=4u64 {
        for rows in broken() {
            let damaged = changed(|words| {
                for table in [LATEST, CHECKPOINT] {
                    let first = table.entry(item as usize, 0).map(|at| words[at]);
                    table.fill(words, item as usize, &rows);
                    table.put(words, item as usize, 0, first);
                }
                // Its own entry leaves the ring.
                words[ring(7)] = item << 40;
            });
            other_entries_stand(&damaged, item);
        }
    }
}

fn other_entries_stand(damaged: &ByHand, item: u64) {
    let number = if item == POSITION { 9 } else { item + 1 };
    let reply = ask(damaged, &format!("/current?{}", path(item))).unwrap();
    assert_eq!(numbers(&reply), [number]);
    assert_eq!(numbers(&ask(damaged, "/current").unwrap()).len(), 7);
    assert_eq!(numbers(&ask(damaged, &format!("/current?at=7&{}", path(item))).unwrap()), [7]);
    let left = if item == 3 { stored(damaged) } else { observed(damaged, item) };
    for table in [LATEST, CHECKPOINT] {
        let entry = |words: &[u64], at| table.entry(item as usize, at).map(|at| words[at]);
        let expected = if table.base == LATEST.base { 11 } else { 7 };
        assert_eq!(entry(&left, 0)[0], expected);
        for at in 1..ENTRIES {
            assert_eq!(entry(&left, at), entry(&damaged.start.observations, at));
        }
    }
}

/// The words that an observe leaves.
fn observed(damaged: &ByHand, item: u64) -> Vec<u64> {
    let value = if item == POSITION { Value::Sample(4) } else { Value::Event(4) };
    let (_, words, left) = damaged.batch(&[record(item, 7, value)], 1);
    assert_eq!(words, [11]);
    left
}

/// The same of a store-asset with its event.
fn stored(damaged: &ByHand) -> Vec<u64> {
    let (cell, left) = damaged.store(b"T");
    assert_eq!(cell, 0);
    left.observations
}

/// The first entry of other items stands as it is, with number 0 too.
#[test]
fn first_entries_of_other_items() {
    let damaged = changed(|words| {
        for table in [LATEST, CHECKPOINT] {
            table.fill(words, 2, &[[0, 77, u64::MAX], used(5)]);
        }
    });
    let execution = path(2);
    assert_eq!(
        ask(&damaged, &format!("/current?{execution}")).unwrap()[..7],
        [1, 7, 10, 11, 0, 77, u64::MAX]
    );
    assert_eq!(ask(&damaged, &format!("/current?at=8&{execution}")).unwrap()[..4], [0, 7, 10, 11]);
    assert_eq!(damaged.observe(2, GONE), 11);
}

/// One used entry stands as it is. Own Unavailable is told by the whole word, active by item, kind and level.
#[test]
fn a_single_entry_stands() {
    let odd = not_active().into_iter().filter(|&packed| packed != own(GONE)).chain([1, u64::MAX, 1 << 40]);
    for packed in odd {
        for entry in [[1, 0, packed], [u64::MAX, 77, packed]] {
            let damaged = with(LATEST, &[entry]);
            assert_eq!(rows(&damaged, None), Ok(vec![(entry[0], packed)]));
            // Nothing is active, and the item is not Unavailable.
            let expected = [(warning(3), 11), (fault(3), 11), (normal(3), 0), (normal(0), 0), (GONE, 11)];
            for (value, answer) in expected {
                assert_eq!(damaged.observe(SYSTEM, value), answer, "{value:?} over {packed:#x}");
            }
            let (_, answers, left) = damaged.batch(&[record(SYSTEM, 8, warning(3))], 1);
            assert_eq!(answers, [11]);
            assert_eq!(LATEST.entry(SYSTEM as usize, 0).map(|at| left[at]), [11, 8, own(warning(3))]);
            assert_eq!(LATEST.entry(SYSTEM as usize, 1).map(|at| left[at]), [0; 3]);
        }
    }
    let damaged = with(LATEST, &[used(own(GONE))]);
    let expected = [(warning(3), 11), (normal(3), 0), (normal(0), 11), (GONE, 0)];
    assert!(expected.iter().all(|&(value, answer)| damaged.observe(SYSTEM, value) == answer));
    let damaged = with(LATEST, &[used(own(fault(3)))]);
    let expected =
        [(warning(3), 11), (fault(3), 0), (normal(3), 11), (normal(0), 11), (GONE, 11), (normal(4), 0)];
    assert!(expected.iter().all(|&(value, answer)| damaged.observe(SYSTEM, value) == answer));
}

/// The same of a checkpoint: what is not active makes way for the ring's first code.
#[test]
fn a_single_checkpoint_entry_stands() {
    for packed in not_active() {
        let damaged = with(CHECKPOINT, &[used(packed)]);
        assert_eq!(rows(&damaged, Some(7)), Ok(vec![(7, own(warning(1)))]), "{packed:#x}");
        assert_eq!(damaged.observe(POSITION, Value::Sample(4)), 11);
        let damaged = changed(|words| {
            CHECKPOINT.fill(words, SYSTEM as usize, &[used(packed)]);
            words[ring(7)] = 1 << 40;
        });
        assert_eq!(rows(&damaged, Some(7)), Ok(vec![(u64::MAX, packed)]));
    }
    let damaged = with(CHECKPOINT, &[used(own(fault(9)))]);
    assert_eq!(rows(&damaged, Some(7)), Ok(vec![(u64::MAX, own(fault(9))), (7, own(warning(1)))]));
}

/// Numbers and times are never tested, and several entries stand in the order they have.
#[test]
fn several_entries_stand() {
    let rows = [[9, 5, own(warning(2))], [1, u64::MAX, own(fault(1))], [u64::MAX, 0, own(warning(0))]];
    let expected: Vec<(u64, u64)> = rows.iter().map(|row| (row[0], row[2])).collect();
    let damaged = with(LATEST, &rows);
    assert_eq!(self::rows(&damaged, None), Ok(expected.clone()));
    assert_eq!(damaged.observe(SYSTEM, fault(1)), 0);
    assert_eq!(damaged.observe(SYSTEM, normal(7)), 0);
    assert_eq!(damaged.observe(SYSTEM, normal(1)), 11);
    let damaged = changed(|words| {
        CHECKPOINT.fill(words, SYSTEM as usize, &rows);
        words[ring(7)] = 1 << 40;
    });
    assert_eq!(self::rows(&damaged, Some(7)), Ok(expected.clone()));
    // Number 8 is a Fault of code 2: in its place.
    let replaced = [(8, own(fault(2))), expected[1], expected[2]];
    assert_eq!(self::rows(&damaged, Some(8)), Ok(replaced.to_vec()));
}

/// Ring entries of a condition item that no list records: other kinds and levels clear all.
#[test]
fn odd_ring_entries_step() {
    let odd = not_active().into_iter().filter(|packed| packed >> 40 == SYSTEM);
    for packed in odd.filter(|&packed| packed != own(normal(3))) {
        let damaged = changed(|words| {
            CHECKPOINT.fill(words, SYSTEM as usize, &eight_from(10));
            words[ring(7)] = packed;
        });
        assert_eq!(rows(&damaged, Some(7)), Ok(vec![(7, packed)]), "{packed:#x}");
        assert_eq!(rows(&damaged, Some(8)), Ok(vec![(8, own(fault(2)))]), "{packed:#x}");
        let (_, answers, left) = damaged.batch(&[record(POSITION, 8, Value::Sample(4))], 1);
        assert_eq!(answers, [11]);
        assert_eq!(CHECKPOINT.entry(SYSTEM as usize, 0).map(|at| left[at]), [7, 1007, packed]);
        assert!((1..ENTRIES).all(|at| CHECKPOINT.entry(SYSTEM as usize, at).map(|at| left[at]) == [0; 3]));
    }
}

/// A Normal in the ring of a code that doesn't stand changes nothing, and with none standing is alone.
#[test]
fn an_unknown_normal_in_the_ring() {
    let two = [used(own(warning(10))), used(own(warning(11)))];
    let damaged = changed(|words| {
        CHECKPOINT.fill(words, SYSTEM as usize, &two);
        words[ring(7)] = own(normal(3));
    });
    let both = two.map(|[number, _, packed]| (number, packed)).to_vec();
    assert_eq!(rows(&damaged, Some(7)), Ok(both.clone()));
    assert_eq!(rows(&damaged, Some(8)), Ok([both, vec![(8, own(fault(2)))]].concat()));
    let (_, _, left) = damaged.batch(&[record(POSITION, 8, Value::Sample(4))], 1);
    assert_eq!(left[CHECKPOINT.base..CHECKPOINT.base + 3], [u64::MAX, u64::MAX, 0]);
    let damaged = changed(|words| words[ring(7)] = own(normal(3)));
    assert_eq!(rows(&damaged, Some(7)), Ok(vec![(7, own(normal(3)))]));
}

/// A checkpoint with eight codes and a ninth in the ring: refused at the ninth and ever after, also where
/// the ring then clears all.
#[test]
fn nine_codes_of_checkpoint_and_ring() {
    for (value, next) in [(warning(9), GONE), (fault(0), normal(0)), (warning(100), normal(1))] {
        let damaged = changed(|words| {
            CHECKPOINT.fill(words, SYSTEM as usize, &eight_from(1));
            words[ring(7)] = own(value);
            words[ring(8)] = own(next);
        });
        for at in 7..=10 {
            assert_eq!(rows(&damaged, Some(at)), Err(2), "{value:?} at {at}");
            assert_eq!(damaged.ask_into(&format!("/current?at={at}"), 0), Err(2));
            assert!(ask(&damaged, &format!("/current?at={at}&{}", path(LOGIC))).is_ok());
        }
        assert_eq!(damaged.observe(POSITION, Value::Sample(4)), STORE);
        assert_eq!(damaged.store(b"T").0, STORE);
        assert_eq!(damaged.observe(POSITION, Value::Sample(3)), 0);
    }
}

/// Eight codes and no ninth: replaced, or one cleared ahead of it.
#[test]
fn eight_codes_of_checkpoint_and_ring() {
    let damaged = changed(|words| CHECKPOINT.fill(words, SYSTEM as usize, &eight_from(1)));
    let codes =
        |at| rows(&damaged, Some(at)).unwrap().iter().map(|row| row.1 % (1 << 24)).collect::<Vec<_>>();
    assert_eq!([codes(7), codes(8)], [[1, 2, 3, 4, 5, 6, 7, 8]; 2]);
    assert_eq!(rows(&damaged, Some(8)).unwrap()[..2], [(7, own(warning(1))), (8, own(fault(2)))]);
    assert_eq!(damaged.observe(POSITION, Value::Sample(4)), 11);
    let damaged = changed(|words| {
        CHECKPOINT.fill(words, SYSTEM as usize, &eight_from(1));
        words[ring(7)] = own(normal(4));
        words[ring(8)] = own(warning(9));
    });
    let codes =
        |at| rows(&damaged, Some(at)).unwrap().iter().map(|row| row.1 % (1 << 24)).collect::<Vec<_>>();
    assert_eq!(codes(7), [1, 2, 3, 5, 6, 7, 8]);
    assert_eq!(codes(8), [1, 2, 3, 5, 6, 7, 8, 9]);
    assert_eq!(damaged.observe(POSITION, Value::Sample(4)), 11);
}

/// Of the latest entries: eight sound ones leave no room, a code twice among them is damage.
#[test]
fn crowded_or_damaged() {
    let damaged = with(LATEST, &eight_from(1));
    assert_eq!(damaged.observe(SYSTEM, warning(9)), CROWDED);
    assert_eq!(damaged.observe(SYSTEM, normal(9)), 0);
    let mut twice = eight_from(1);
    twice[7] = used(own(fault(1)));
    let damaged = with(LATEST, &twice);
    for value in [warning(9), warning(1), fault(1), normal(9), normal(1)] {
        assert_eq!(damaged.observe(SYSTEM, value), STORE, "{value:?}");
    }
}

/// Kind, the latest entries' form, Same, crowded, spent, then what is overwritten: each is answered although
/// all behind it are there too.
#[test]
fn refusals_in_their_order() {
    let damaged = |latest: &[Entry], spent: bool| {
        changed(|words| {
            LATEST.fill(words, SYSTEM as usize, latest);
            CHECKPOINT.fill(words, SYSTEM as usize, &[used(own(warning(1))), used(own(fault(1)))]);
            words[RING_PACKED..RING_PACKED + N].fill(own(fault(5)));
            words[3] = if spent { END - 1 } else { 10 };
        })
    };
    let offers = [Value::Event(1), warning(2), warning(9), fault(2), GONE];
    let broken = [used(own(warning(2))), used(own(fault(2)))];
    for spent in [true, false] {
        let last = if spent { SPENT } else { STORE };
        for (latest, expected) in [
            (&broken[..], [KIND, STORE, STORE, STORE, STORE]),
            (&eight_from(1), [KIND, 0, CROWDED, last, last]),
            (&[used(own(GONE))], [KIND, last, last, last, 0]),
        ] {
            let damaged = damaged(latest, spent);
            assert_eq!(offers.map(|value| damaged.observe(SYSTEM, value)), expected);
            let (pair, words, left) = damaged.batch(&offers.map(|value| record(SYSTEM, 7, value)), 5);
            assert_eq!((pair, words), ((0, 5), expected.to_vec()));
            assert_eq!(left, damaged.start.observations);
            assert_eq!(damaged.store(b"T").0, last);
        }
    }
}

/// The item of what is overwritten comes before a checkpoint's form, and is refused alike.
#[test]
fn bad_items_and_broken_checkpoints() {
    let damaged = changed(|words| {
        for item in [SYSTEM, LOGIC] {
            CHECKPOINT.fill(words, item as usize, &[[0; 3], used(5)]);
        }
        words[ring(7)] = 6 << 40;
    });
    assert_eq!(damaged.observe(POSITION, Value::Sample(4)), STORE);
    assert_eq!(ask(&damaged, "/current?at=7"), Err(2));
    assert_eq!(ask(&damaged, &format!("/current?at=7&{}", path(POSITION))), Err(2));
    // Behind the bad item only the ring is tested by a sample.
    assert_eq!(ask(&damaged, "/sample"), Err(2));
    assert!(ask(&damaged, "/sample?from=8").is_ok());
}
