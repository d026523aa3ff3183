//! Damaged stores, case by case, with the answers laid down by name. A call tests what it reads of
//! a store and nothing else, whatever the store was made by.

use differential::by_hand::ByHand;
use differential::call::{Answer, Call, Start};
use differential::fixture::{core, names, record, start, UNTOUCHED};
use differential::pair::Pair;
use reference::{Clean, Record, Value};

const END: u64 = 1 << 63;
const STORE: u64 = END + 2;
const SPENT: u64 = END + 6;

/// Item 0 an event, item 1 a sample; item 2 takes asset changes.
const MODEL: [u32; 6] = [1, 3, 0, 65_536 + 1, 2, 3 * 65_536 + 3];
/// The same without asset changes.
const NO_ASSET_ITEM: [u32; 6] = [1, 3, 0, 65_536 + 1, 2, 3];

/// Item 0 a discrete event, item 1 a sample, item 2 an event.
const DISCRETE: [u32; 6] = [1, 3, 0, 4 * 65_536 + 1, 2, 65_536 + 3];

/// Places of the store's words, with N = 4 and m = 3. A table has three columns: numbers, times, packed
/// values, each with eight words for an item.
const N: usize = 4;
const M: usize = 3;
const RING_PACKED: usize = 4 + N;
const LATEST: usize = 4 + 2 * N;
const COLUMN: usize = 8 * M;
const CHECKPOINT: usize = LATEST + 3 * COLUMN;

/// The places of an item's first entry in a table.
fn entry(table: usize, item: usize) -> [usize; 3] {
    [0, 1, 2].map(|column| table + column * COLUMN + 8 * item)
}

/// Writes an item's first entry.
fn put_entry(start: &mut Start, table: usize, item: usize, words: [u64; 3]) {
    for (at, word) in entry(table, item).into_iter().zip(words) {
        start.observations[at] = word;
    }
}

/// Places of the store's bytes, with A = 2.
const ID: usize = 2;
const BODY: usize = 2 + 32 * 2;

/// A full ring: numbers 1 to 3 by start, 4 to 6 samples of item 1. Held are 3 to 6; 3 stands at
/// place 2, 4 at 3, 5 at 0, 6 at 1. Assets T and U.
fn sound(model: &[u32]) -> Start {
    let core = core();
    let names = names(&["Device", "EXECUTION", "POSITION", "ASSET_CHANGED"]);
    let mut begin = start(model, &names, [N as u64, 2, 1], 1000);
    let (mut pair, answer) = Pair::start(&core, &begin).unwrap();
    assert_eq!(answer, Answer::Pair(0, 0));
    for number in 4..=6 {
        let value = (1 << 32) + number;
        let call = Call::Observe { item: 1, time: 1000 + number, host: 1, value };
        assert_eq!(pair.call(&call), Ok(Answer::Word(number)));
    }
    begin.observations = pair.expected_observations.clone();
    begin.assets = pair.expected_assets.clone();
    put_asset(&mut begin.assets, 0, b"T", 5);
    put_asset(&mut begin.assets, 1, b"U", 6);
    begin.assets[1] = 2;
    begin
}

fn put_asset(bytes: &mut [u8], cell: usize, id: &[u8], length: u16) {
    bytes[ID + 32 * cell..][..32].fill(0);
    bytes[ID + 32 * cell..][..id.len()].copy_from_slice(id);
    bytes[BODY + 512 * cell..][..2].copy_from_slice(&length.to_be_bytes());
    bytes[BODY + 512 * cell + 2..][..510].fill(b'a' + cell as u8);
}

fn changed(change: impl FnOnce(&mut Start)) -> ByHand {
    changed_of(&MODEL, change)
}

fn changed_of(model: &[u32], change: impl FnOnce(&mut Start)) -> ByHand {
    let mut start = sound(model);
    change(&mut start);
    ByHand::new(start)
}

#[test]
fn heads_of_the_observation_store() {
    let last = 6;
    let m = M as u64;
    let cases: [(usize, u64, u64); 19] = [
        // N.
        (0, 0, STORE),
        (0, 3, STORE),
        (0, 5, STORE),
        (0, 131_073, STORE),
        (0, 4 + (1 << 32), STORE),
        (0, 4 + END, STORE),
        (0, u64::MAX, STORE),
        // m.
        (1, 2, STORE),
        (1, 4, STORE),
        (1, 3 + (1 << 32), STORE),
        // B: at least 1, and B + m - 1 at most last, without wrapping.
        (2, 0, STORE),
        (2, last - m + 1, last + 1),
        (2, last - m + 2, STORE),
        (2, u64::MAX, STORE),
        (2, u64::MAX - 1, STORE),
        // last.
        (3, m, m + 1),
        (3, m - 1, STORE),
        (3, END - 1, SPENT),
        (3, END, STORE),
    ];
    for (word, value, expected) in cases {
        let damaged = changed(|start| start.observations[word] = value);
        assert_eq!(damaged.observe(0, Value::Event(1)), expected, "word {word} is {value}");
        if expected == STORE {
            assert_eq!(damaged.ask("/current"), Err(2), "word {word} is {value}");
            assert_eq!(damaged.ask(""), Err(2), "word {word} is {value}");
            assert_eq!(damaged.store(b"").0, STORE, "word {word} is {value}");
        }
    }
}

#[test]
fn lengths_of_the_stores() {
    for change in [-1isize, 1] {
        let longer = |length: usize| (length as isize + change) as usize;
        let damaged = changed(|start| start.observations.resize(longer(start.observations.len()), 0));
        assert_eq!(damaged.observe(9, Value::Event(1)), STORE);
        assert_eq!(damaged.ask("/assets"), Err(2));
        assert_eq!(damaged.body(b"T").1, 5);
        let damaged = changed(|start| start.assets.resize(longer(start.assets.len()), 0));
        assert_eq!(damaged.observe(9, Value::Event(1)), END + 4);
        assert_eq!(damaged.ask("/sample"), Err(2));
        assert_eq!(damaged.store(b"T").0, STORE);
        assert_eq!(damaged.body(b"T").1, 0);
    }
}

#[test]
fn the_model_comes_before_the_heads() {
    let damaged = changed(|start| {
        start.model[5] = 5 * 65_536;
        start.observations[0] = 0;
    });
    assert_eq!(damaged.observe(9, Value::Event(1)), END + 1);
    assert_eq!(damaged.ask(""), Err(1));
    assert_eq!(damaged.store(b"").0, END + 1);
    // Body takes no model.
    assert_eq!(damaged.body(b"T").1, 5);
}

/// The entry about to be overwritten is tested, all 24 bits of its item, and no other.
#[test]
fn the_entry_about_to_be_overwritten() {
    let oldest = RING_PACKED + 2;
    for item in [3, 64, 256, 1 << 16, (1 << 24) - 1] {
        let damaged = changed(|start| start.observations[oldest] = item << 40);
        assert_eq!(damaged.observe(0, Value::Event(1)), STORE);
        assert_eq!(damaged.store(b"T").0, STORE);
        // Same, an item, a kind: all before it.
        assert_eq!(damaged.observe(1, Value::Sample(6)), 0);
        assert_eq!(damaged.observe(3, Value::Event(1)), END + 4);
        assert_eq!(damaged.observe(0, Value::Sample(1)), END + 5);
        for place in [0, 1, 3] {
            let damaged = changed(|start| start.observations[RING_PACKED + place] = item << 40);
            assert_eq!(damaged.observe(0, Value::Event(1)), 7);
        }
    }
    // Kind and low bits are not tested.
    let damaged = changed(|start| start.observations[oldest] = (1 << 40) + (255 << 32) + 5);
    assert_eq!(damaged.observe(0, Value::Event(1)), 7);
    // Spent comes before it. With last at its end, the oldest stands at place (2^63 - 1) mod 4.
    let damaged = changed(|start| {
        start.observations[3] = END - 1;
        start.observations[RING_PACKED..RING_PACKED + N].fill(u64::MAX);
    });
    assert_eq!(damaged.observe(0, Value::Event(1)), SPENT);
}

/// Before the ring is full, the place to be written is not read.
#[test]
fn an_unused_place_is_not_read() {
    let damaged = changed(|start| {
        start.observations[3] = 3;
        start.observations[RING_PACKED + 3] = u64::MAX;
    });
    assert_eq!(damaged.observe(0, Value::Event(1)), 4);
}

/// Model and head come before the number of records and the room; an empty list is no way round
/// them.
#[test]
fn a_delivery_over_wrong_heads() {
    let sizes = [(0, 0), (0, 5), (3, 3), (3, 2), (256, 256), (257, 300), (257, 0)];
    let head = changed(|start| start.observations[3] = END);
    let longer = changed(|start| start.observations.push(0));
    let empty = changed(|start| start.observations.clear());
    let both = changed(|start| {
        start.model[5] = 5 * 65_536;
        start.observations[0] = 0;
    });
    for (records, room) in sizes {
        for damaged in [&head, &longer, &empty] {
            assert_eq!(damaged.refused_batch(records, room), 2, "{records} records, {room} words");
        }
        assert_eq!(both.refused_batch(records, room), 1, "{records} records, {room} words");
    }
    // The asset store is no part of it.
    let assets = changed(|start| start.assets.clear());
    assert_eq!(assets.refused_batch(257, 0), 16);
    assert_eq!(assets.refused_batch(3, 2), 15);
    assert_eq!(assets.batch(&[], 1).0, (0, 0));
}

/// A record that meets a bad entry is refused; the entry stays for the next one. What comes before
/// it in the order of refusals is still answered.
#[test]
fn a_delivery_meets_a_bad_entry() {
    // The first overwrites number 3 at place 2; place 3 is bad.
    for item in [3, 64, 256, 1 << 16, (1 << 24) - 1] {
        let damaged = changed(|start| start.observations[RING_PACKED + 3] = item << 40);
        let records = [
            record(0, 7, Value::Event(1)),
            record(0, 7, Value::Event(2)),
            record(0, 7, Value::Event(1)),
            record(3, 7, Value::Event(1)),
            record(0, 7, Value::Sample(1)),
            record(1, 0, Value::Sample(9)),
        ];
        let (pair, answers, left) = damaged.batch(&records, 7);
        assert_eq!(pair, (0, 6));
        assert_eq!(answers, [7, STORE, 0, END + 4, END + 5, STORE, UNTOUCHED]);
        assert_eq!((left[3], left[RING_PACKED + 3]), (7, item << 40));
        // With the first one bad none is recorded, and the delivery is accepted all the same.
        let damaged = changed(|start| start.observations[RING_PACKED + 2] = item << 40);
        let (pair, answers, left) = damaged.batch(&records, 6);
        assert_eq!(pair, (0, 6));
        assert_eq!(answers, [STORE, STORE, STORE, END + 4, END + 5, STORE]);
        assert_eq!(left, damaged.start.observations);
    }
}

/// Where an equal event is Same, a discrete one meets the bad entry.
#[test]
fn equal_records_and_a_bad_entry() {
    let damaged = changed_of(&DISCRETE, |start| start.observations[RING_PACKED + 3] = 3 << 40);
    let [pulse, event] = [0, 2].map(|item| record(item, 7, Value::Event(1)));
    assert_eq!(damaged.batch(&[pulse, pulse, pulse, event], 4).1, [7, STORE, STORE, STORE]);
    assert_eq!(damaged.batch(&[event, event, pulse], 3).1, [7, 0, STORE]);
}

/// An entry that the delivery itself wrote is sound when its turn comes.
#[test]
fn a_delivery_turns_the_ring() {
    let damaged = changed(|_| {});
    let records: Vec<Record> = (10..20).map(|value| record(1, value, Value::Sample(value as i32))).collect();
    let (pair, answers, left) = damaged.batch(&records, 10);
    assert_eq!((pair, answers), ((0, 10), (7..17).collect()));
    assert_eq!(left[entry(CHECKPOINT, 1)[0]], 12);
    assert_eq!(left[entry(LATEST, 1)[0]], 16);
}

/// The last number is given out amid the delivery; a bad entry behind it is no longer met.
#[test]
fn a_delivery_spends_the_numbers() {
    let damaged = changed(|start| {
        start.observations[3] = END - 2;
        // 2^63 - 1 goes to place 2, and the number after it would go to place 3.
        start.observations[RING_PACKED + 3] = u64::MAX;
    });
    let records = [
        record(3, 7, Value::Event(1)),
        record(0, 7, Value::Event(1)),
        record(0, 7, Value::Event(2)),
        record(0, 7, Value::Event(1)),
        record(0, 7, Value::Sample(1)),
        record(1, 7, Value::Sample(1)),
    ];
    let (pair, answers, left) = damaged.batch(&records, 6);
    assert_eq!(pair, (0, 6));
    assert_eq!(answers, [END + 4, END - 1, SPENT, 0, END + 5, SPENT]);
    assert_eq!(left[3], END - 1);
}

/// Without an asset-change item the ring is neither tested nor written, the head still tested.
#[test]
fn store_asset_without_its_item() {
    let damaged = changed_of(&NO_ASSET_ITEM, |start| {
        start.observations[RING_PACKED..RING_PACKED + N].fill(u64::MAX);
        start.observations[3] = END - 1;
    });
    let (cell, left) = damaged.store(b"V");
    assert_eq!(cell, 1);
    assert_eq!(left.observations, damaged.start.observations);
    let damaged = changed_of(&NO_ASSET_ITEM, |start| start.observations[3] = END);
    assert_eq!(damaged.store(b"V").0, STORE);
}

/// Each number considered is tested, selected or not; no other; before the space.
#[test]
fn a_sample_tests_the_numbers_considered() {
    // Number 4 stands at place 3.
    let damaged = changed(|start| start.observations[RING_PACKED + 3] = 3 << 40);
    assert_eq!(damaged.ask("/sample"), Err(2));
    assert_eq!(damaged.ask("/sample?from=4&count=1"), Err(2));
    assert_eq!(damaged.ask("/sample?path=//Device//DataItem[@type=\"EXECUTION\"]"), Err(2));
    assert_eq!(damaged.ask_into("/sample", 0), Err(2));
    assert_eq!(damaged.ask("/sample?from=2"), Err(17));
    assert!(damaged.ask("/sample?from=3&count=1").is_ok());
    assert!(damaged.ask("/sample?from=5").is_ok());
    assert_eq!(damaged.ask_into("/sample?from=5", 9), Err(15));
    assert!(damaged.ask("/sample?from=7").is_ok());
    assert!(damaged.ask("/current").is_ok());
}

#[test]
fn at_tests_what_it_passes() {
    let damaged = changed(|start| start.observations[RING_PACKED + 3] = 3 << 40);
    assert!(damaged.ask("/current?at=3").is_ok());
    for at in 4..=6 {
        assert_eq!(damaged.ask(&format!("/current?at={at}")), Err(2));
        assert_eq!(damaged.ask_into(&format!("/current?at={at}"), 0), Err(2));
    }
    assert_eq!(damaged.ask("/current?at=7"), Err(18));
}

/// Kind, level and low bits of stored words are delivered as they stand.
#[test]
fn odd_words_are_delivered() {
    let odd = (1 << 40) + (255 << 32) + 0xdead_beef;
    let damaged = changed(|start| start.observations[RING_PACKED] = odd);
    assert_eq!(damaged.ask("/sample?from=5&count=1").unwrap()[..7], [1, 3, 6, 6, 5, 1005, odd]);
}

/// Latest words are copied untested, and Same compares them whole.
#[test]
fn latest_words_stand() {
    let damaged = changed(|start| put_entry(start, LATEST, 0, [0, 77, u64::MAX]));
    let reply = damaged.ask("/current?path=//Device//DataItem[@type=\"EXECUTION\"]").unwrap();
    assert_eq!(reply[..7], [1, 3, 6, 7, 0, 77, u64::MAX]);
    let event = Value::Event(9);
    let damaged = changed(|start| start.observations[entry(LATEST, 0)[2]] = event.packed(0, Clean));
    assert_eq!(damaged.observe(0, event), 0);
    // The right value under another item's number is not the same word.
    let damaged = changed(|start| start.observations[entry(LATEST, 0)[2]] = event.packed(1, Clean));
    assert_eq!(damaged.observe(0, event), 7);
}

/// A discrete item's latest entry is not read: whatever stands there, each value is recorded. An
/// event's is compared.
#[test]
fn a_discrete_items_latest_entry_is_not_read() {
    let event = Value::Event(9);
    let same = |item| event.packed(item, Clean);
    for word in [same(0), same(2), 0, 2 << 40, 1 << 40, 3 << 40, 0xdead_beef, u64::MAX] {
        for number in [0, 1, 7, u64::MAX] {
            let damaged = changed_of(&DISCRETE, |start| {
                [0, 2].into_iter().for_each(|item| put_entry(start, LATEST, item, [number, number, word]));
            });
            assert_eq!(damaged.observe(0, event), 7, "{word:#x}");
            assert_eq!(damaged.observe(0, Value::Unavailable), 7, "{word:#x}");
            let [same_event, same_none] = [same(2), 2 << 40].map(|latest| word == latest);
            assert_eq!(damaged.observe(2, event), if same_event { 0 } else { 7 }, "{word:#x}");
            assert_eq!(damaged.observe(2, Value::Unavailable), if same_none { 0 } else { 7 }, "{word:#x}");
            let (_, answers, left) = damaged.batch(&[record(0, 7, event), record(0, 8, event)], 2);
            assert_eq!(answers, [7, 8], "{word:#x}");
            assert_eq!(entry(LATEST, 0).map(|at| left[at]), [8, 8, same(0)]);
        }
    }
}

/// Model, head, item, kind, spent and the entry about to be overwritten, in this order: each is
/// answered although all behind it are there too. An equal event is Same where the number comes in.
#[test]
fn refusals_of_a_discrete_item_in_their_order() {
    let damaged = |spent: bool, head: bool, model: bool| {
        changed_of(&DISCRETE, |start| {
            start.observations[RING_PACKED..RING_PACKED + N].fill(u64::MAX);
            start.observations[3] = if spent { END - 1 } else { 6 };
            start.observations[1] += u64::from(head);
            start.model[5] = if model { 5 * 65_536 } else { DISCRETE[5] };
        })
    };
    let offers = [
        (3, Value::Sample(1)),
        (0, Value::Sample(1)),
        (0, Value::Unavailable),
        (0, Value::Event(1)),
        (2, Value::Unavailable),
        (2, Value::Event(1)),
    ];
    for (damaged, expected) in [
        (damaged(true, true, true), [END + 1; 6]),
        (damaged(true, true, false), [STORE; 6]),
        (damaged(true, false, false), [END + 4, END + 5, SPENT, SPENT, 0, SPENT]),
        (damaged(false, false, false), [END + 4, END + 5, STORE, STORE, 0, STORE]),
    ] {
        assert_eq!(offers.map(|(item, value)| damaged.observe(item, value)), expected);
        let (pair, answers, left) = damaged.batch(&offers.map(|(item, value)| record(item, 7, value)), 6);
        let refused = [END + 1, STORE].into_iter().find(|&all| expected == [all; 6]);
        assert_eq!(pair, refused.map_or((0, 6), |word| (word - END, 0)));
        assert_eq!(answers, if refused.is_some() { [UNTOUCHED; 6] } else { expected });
        assert_eq!(left, damaged.start.observations);
    }
}

/// A checkpoint whose number isn't 0 stands as it is, also above `at`; one whose number is 0 is none.
#[test]
fn checkpoints_stand() {
    let execution = "/current?at=3&path=//Device//DataItem[@type=\"EXECUTION\"]";
    let damaged = changed(|start| put_entry(start, CHECKPOINT, 0, [1_000_000, 77, u64::MAX]));
    assert_eq!(damaged.ask(execution).unwrap()[..7], [1, 3, 6, 7, 1_000_000, 77, u64::MAX]);
    let damaged = changed(|start| start.observations[CHECKPOINT] = 0);
    assert_eq!(damaged.ask(execution).unwrap()[..4], [0, 3, 6, 7]);
    // An entry of the ring wins.
    let damaged = changed(|start| start.observations[entry(CHECKPOINT, 1)[0]] = 1_000_000);
    let position = "/current?at=4&path=//Device//DataItem[@type=\"POSITION\"]";
    assert_eq!(damaged.ask(position).unwrap()[..5], [1, 3, 6, 7, 4]);
}

#[test]
fn heads_of_the_asset_store() {
    for (byte, value) in [(0, 0), (0, 1), (0, 3), (0, 129), (0, 255), (1, 3), (1, 255)] {
        let damaged = changed(|start| start.assets[byte] = value);
        assert_eq!(damaged.store(b"T").0, STORE, "byte {byte} is {value}");
        assert_eq!(damaged.ask("/sample"), Err(2), "byte {byte} is {value}");
        assert_eq!(damaged.body(b"T").1, 0, "byte {byte} is {value}");
        assert_eq!(damaged.observe(0, Value::Event(1)), 7, "byte {byte} is {value}");
    }
}

/// Only the lengths of the cells named are read, after all ids; `/assets` reads those in use.
#[test]
fn stored_lengths() {
    for length in [0u16, 511, 512, 65_535] {
        let damaged = changed(|start| put_asset(&mut start.assets, 1, b"U", length));
        assert_eq!(damaged.ask("/asset/T").unwrap()[..6], [1, 2, 2, 0, 0, 5]);
        assert_eq!(damaged.ask("/asset/U"), Err(2));
        assert_eq!(damaged.ask("/asset/T;U"), Err(2));
        assert_eq!(damaged.ask("/asset/U;none"), Err(13));
        assert_eq!(damaged.ask("/assets"), Err(2));
        assert_eq!(damaged.ask_into("/assets", 0), Err(2));
        assert_eq!(damaged.body(b"U").1, 0);
        assert_eq!(damaged.body(b"T").1, 5);
        // Store-asset reads no length: the damaged cell moves down as it is.
        let (cell, left) = damaged.store(b"T");
        assert_eq!(cell, 1);
        assert_eq!(left.assets[BODY..BODY + 2], length.to_be_bytes());
        // Above u it is not read.
        let damaged = changed(|start| {
            put_asset(&mut start.assets, 1, b"U", length);
            start.assets[1] = 1;
        });
        assert_eq!(damaged.ask("/assets").unwrap()[..6], [1, 1, 2, 0, 0, 5]);
        assert_eq!(damaged.ask("/asset/U"), Err(13));
    }
    let damaged = changed(|start| put_asset(&mut start.assets, 1, b"U", 510));
    assert_eq!(damaged.ask("/asset/U").unwrap()[..6], [1, 2, 2, 0, 1, 510]);
    assert_eq!(damaged.body(b"U"), ((BODY + 512 + 2) as u64, 510));
}

/// Where two cells hold the same id the lower one counts, and storing removes that one only.
#[test]
fn two_cells_with_one_id() {
    let damaged = changed(|start| put_asset(&mut start.assets, 1, b"T", 6));
    assert_eq!(damaged.ask("/asset/T").unwrap()[..6], [1, 2, 2, 0, 0, 5]);
    assert_eq!(damaged.body(b"T"), ((BODY + 2) as u64, 5));
    let (cell, left) = damaged.store(b"T");
    assert_eq!(cell, 1);
    assert_eq!(left.assets[..2], [2, 2]);
    assert_eq!(left.assets[BODY..BODY + 3], [0, 6, b'b']);
    assert_eq!(left.assets[BODY + 512..BODY + 512 + 6], [0, 3, b'n', b'e', b'w', 0]);
}

/// A cell holds an id when the id and then zeros to its end stand there.
#[test]
fn id_cells() {
    let damaged = changed(|start| start.assets[ID + 31] = b'x');
    assert_eq!(damaged.ask("/asset/T"), Err(13));
    assert_eq!(damaged.body(b"T").1, 0);
    let damaged = changed(|_| {});
    assert_eq!(damaged.body(b"T").1, 5);
    // Ids that cannot be stored find nothing, though the padded cell begins with them.
    for id in [&b"T\0"[..], b"", b"\0", b"T\0\0\0"] {
        assert_eq!(damaged.body(id).1, 0);
    }
    let damaged = changed(|start| put_asset(&mut start.assets, 0, b"T x", 5));
    assert_eq!(damaged.body(b"T x").1, 0);
}
