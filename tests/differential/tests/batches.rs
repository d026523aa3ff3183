//! One delivery of many observations: its bounds, its answer buffer, and the word of each record.

use differential::fixture::{begin, core, names, packed, plain_model, record, start, Tested, UNTOUCHED};
use differential::under_test::UnderTest;
use reference::{Level, Record, Value};

const END: u64 = 1 << 63;
const ITEM: u64 = END + 4;
const KIND: u64 = END + 5;
const SPENT: u64 = END + 6;

/// A sample, an event, a condition and an item of asset changes.
fn session(core: &UnderTest, places: u64, origin: u64) -> Tested<'_> {
    begin(core, &start(&plain_model(4, true), &names(&["Device"]), [places, 1, origin], 500))
}

/// So many samples that differ, from a value on.
fn samples(from: usize, count: usize) -> Vec<Record> {
    (from..from + count).map(|value| record(0, 7, Value::Sample(value as i32))).collect()
}

/// The words of a delivery that is accepted, with a word to spare.
fn words(session: &mut Tested, records: &[Record], host: u64) -> Vec<u64> {
    let (pair, mut words) = session.batch(records, host, records.len() + 1);
    assert_eq!(pair, (0, records.len() as u64));
    assert_eq!(words.pop(), Some(UNTOUCHED));
    session.compare_contents().unwrap();
    words
}

/// Too many records come before too few words, and both before the first record.
#[test]
fn records_and_room_at_their_bounds() {
    let core = core();
    let mut session = session(&core, 300, 1);
    let mut value = 1;
    for records in [0usize, 1, 2, 3, 8, 255, 256, 257, 258, 511, 512, 513, 768] {
        let rooms = [0, 1, records.saturating_sub(1), records, records + 1, records + 9, 256, 257];
        for room in rooms {
            let expected = match (records > 256, room < records) {
                (true, _) => (16, 0),
                (_, true) => (15, 0),
                _ => (0, records as u64),
            };
            let last = session.machine.last();
            let (pair, answers) = session.batch(&samples(value, records), 1, room);
            assert_eq!(pair, expected, "{records} records, {room} words");
            let written = pair.1 as usize;
            assert!(answers[..written].iter().copied().eq(last + 1..=last + pair.1));
            assert!(answers[written..].iter().all(|&word| word == UNTOUCHED));
            assert_eq!(session.machine.last(), last + pair.1);
            session.compare_contents().unwrap();
            value += records;
        }
    }
}

/// Every length of the buffer around a small delivery, with all kinds of words in it.
#[test]
fn every_answer_length() {
    let core = core();
    for room in 0..=9 {
        let mut session = session(&core, 5, 1);
        let mut records = samples(1, 5);
        records[1].item = 9;
        records[2].value = 4 << 32;
        records[4] = records[3];
        let (pair, answers) = session.batch(&records, 1, room);
        let mut expected = vec![UNTOUCHED; room];
        if room >= 5 {
            expected[..5].copy_from_slice(&[5, ITEM, KIND, 6, 0]);
        }
        assert_eq!((pair, answers), (if room < 5 { (15, 0) } else { (0, 5) }, expected));
        session.compare_contents().unwrap();
    }
}

#[test]
fn an_empty_list_is_accepted() {
    let core = core();
    let mut session = session(&core, 3, 1);
    for room in [0, 1, 256, 257] {
        assert_eq!(session.batch(&[], 9, room), ((0, 0), vec![UNTOUCHED; room]));
    }
    // Also where no number is left.
    let mut spent = self::session(&core, 3, END - 4);
    assert_eq!(words(&mut spent, &[], 9), []);
}

/// Item, kind and no value at all are refused where they stand, and the rest goes on.
#[test]
fn refused_records_amid_others() {
    let core = core();
    let mut session = session(&core, 3, 1);
    let records = [
        record(4, 7, Value::Sample(1)),
        record(0, 7, Value::Sample(1)),
        record(u64::MAX, 7, Value::Sample(1)),
        record(0, 7, Value::Event(1)),
        record(1, 7, Value::Event(1)),
        Record { item: 1, time: 7, value: 1 },
        Record { item: 4, time: 7, value: u64::MAX },
        Record { item: 2, time: 7, value: (3 << 32) + (3 << 24) },
        Record { item: 2, time: 7, value: (3 << 32) + 1 },
        record(2, 7, Value::Condition(Level::Fault, 1)),
        record(3, 7, Value::Event(1)),
        record(3, 7, Value::Unavailable),
        Record { item: 0, time: 7, value: (1 << 40) + (1 << 32) },
        record(2, 7, Value::Unavailable),
    ];
    // Normal of a code that doesn't stand is Same.
    let expected = [ITEM, 5, ITEM, KIND, 6, KIND, ITEM, KIND, 0, 7, KIND, KIND, KIND, 8];
    assert_eq!(words(&mut session, &records, 9), expected);
    // None of them good, and accepted.
    assert_eq!(words(&mut session, &[records[0], records[3]], 9), [ITEM, KIND]);
}

/// Same is told against what the records before have left.
#[test]
fn same_by_the_record_before() {
    let core = core();
    let mut session = session(&core, 8, 1);
    let [one, two] = [1, 2].map(|value| record(0, 7, Value::Sample(value)));
    let gone = record(0, 7, Value::Unavailable);
    assert_eq!(words(&mut session, &[gone, one, one, two, one, one], 9), [0, 5, 0, 6, 7, 0]);
    assert_eq!(words(&mut session, &[one, two, gone, gone, one], 9), [0, 8, 9, 0, 10]);
    // A refused record is no newest value.
    let wrong = record(0, 7, Value::Event(1));
    assert_eq!(words(&mut session, &[one, wrong, one, two], 9), [0, KIND, 0, 11]);
}

/// Two records of one item where the ring holds one number: the first leaves it at once.
#[test]
fn a_ring_of_one_place() {
    let core = core();
    let mut session = session(&core, 1, 1);
    assert_eq!(words(&mut session, &samples(1, 2), 9), [5, 6]);
    assert_eq!(
        session.ask("/sample").unwrap(),
        [1, 6, 6, 7, 6, 7, Value::Sample(2).packed(0, reference::Clean)]
    );
    let others = [record(1, 7, Value::Event(1)), record(2, 7, Value::Unavailable)];
    assert_eq!(words(&mut session, &others, 9), [7, 0]);
    // Number 7 is the event's; the sample comes from its checkpoint.
    assert_eq!(session.ask("/current?at=7").unwrap()[..6], [4, 7, 7, 8, 6, 7]);
}

/// The most records, through rings that they turn over several times or not at all.
#[test]
fn the_most_records_through_rings() {
    let core = core();
    for places in [1, 2, 100, 255, 256, 257, 300] {
        let mut session = session(&core, places, 3);
        let expected: Vec<u64> = (7..7 + 256).collect();
        assert_eq!(words(&mut session, &samples(1, 256), 9), expected);
        assert_eq!(session.ask("/current").unwrap()[4], 262);
        let first = session.machine.first();
        assert_eq!(session.ask(format!("/current?at={first}")).unwrap()[3], 263);
    }
}

/// The host's time stands for each missing one, and for no other.
#[test]
fn one_host_time() {
    let core = core();
    for host in [0, 1, 99, u64::MAX] {
        let mut session = session(&core, 5, 1);
        let mut records = samples(1, 5);
        for (record, time) in records.iter_mut().zip([1000, 0, 7, 0, u64::MAX]) {
            record.time = time;
        }
        assert_eq!(words(&mut session, &records, host), [5, 6, 7, 8, 9]);
        let reply = session.ask("/sample").unwrap();
        let times: Vec<u64> = reply[9..].chunks(2).map(|pair| pair[0]).collect();
        assert_eq!(times, [1000, host, 7, host, u64::MAX]);
        assert_eq!(packed(&reply).len(), 5);
    }
}

/// The numbers run out amid a delivery: Same and other refusals are still answered behind it.
#[test]
fn numbers_run_out_amid_a_delivery() {
    let core = core();
    for left in 0..3 {
        let mut session = session(&core, 2, END - 4 - left);
        let mut records = samples(1, 4);
        records.extend([record(9, 7, Value::Sample(1)), record(0, 7, Value::Event(1))]);
        // What the item stands at when the numbers are spent.
        records.push(match left {
            0 => record(0, 7, Value::Unavailable),
            _ => records[left as usize - 1],
        });
        let numbers = END - left..END;
        let spent = std::iter::repeat_n(SPENT, 4 - left as usize);
        let expected: Vec<u64> = numbers.chain(spent).chain([ITEM, KIND, 0]).collect();
        assert_eq!(words(&mut session, &records, 9), expected);
    }
}
