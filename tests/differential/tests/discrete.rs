//! Discrete events: each is recorded, equal or not. An ordinary event stands beside them and says Same.

use differential::call::{Answer, Call};
use differential::fixture::{begin, core, names, numbers, packed, record, start, Tested, UNTOUCHED};
use differential::under_test::UnderTest;
use reference::{Clean, Level, Record, Value};

const END: u64 = 1 << 63;
const KIND: u64 = END + 5;
const SPENT: u64 = END + 6;

const PULSE: u64 = 0;
const EXECUTION: u64 = 1;
const MESSAGE: u64 = 2;
const ASSETS: u64 = 3;
/// Two discrete items, an event between them, and an item of asset changes.
const MODEL: [u32; 7] = [1, 4, 0, 4 * 65_536, 65_536, 4 * 65_536, 3 * 65_536];

const ONE: Value = Value::Event(1);
const GONE: Value = Value::Unavailable;

/// Numbers from the origin on are start's four.
fn session(core: &UnderTest, places: u64, origin: u64) -> Tested<'_> {
    begin(core, &start(&MODEL, &names(&["Device"]), [places, 2, origin], 500))
}

/// The words of a delivery that is accepted.
fn words(session: &mut Tested, records: &[Record]) -> Vec<u64> {
    let (pair, mut words) = session.batch(records, 9, records.len() + 1);
    assert_eq!(pair, (0, records.len() as u64));
    assert_eq!(words.pop(), Some(UNTOUCHED));
    session.compare_contents().unwrap();
    words
}

/// The same offers, once as single observes and once as a delivery, each over a fresh start.
fn offered(places: u64, origin: u64, offers: &[(u64, Value)], expected: &[u64]) {
    let core = core();
    let mut singles = session(&core, places, origin);
    let answers: Vec<u64> = offers.iter().map(|&(item, value)| singles.observe(item, 7, 9, value)).collect();
    assert_eq!(answers, expected, "one by one");
    singles.compare_contents().unwrap();
    let records: Vec<Record> = offers.iter().map(|&(item, value)| record(item, 7, value)).collect();
    assert_eq!(words(&mut session(&core, places, origin), &records), expected, "in a delivery");
}

#[test]
fn equal_events() {
    let offers = [PULSE, PULSE, EXECUTION, EXECUTION, MESSAGE, PULSE, MESSAGE, EXECUTION];
    offered(16, 1, &offers.map(|item| (item, ONE)), &[5, 6, 7, 0, 8, 9, 10, 0]);
    for code in [0, u32::MAX] {
        offered(16, 1, &[(PULSE, Value::Event(code)); 3], &[5, 6, 7]);
    }
}

/// Also right after start, when Unavailable is what every item stands at.
#[test]
fn equal_unavailables() {
    let offers = [(PULSE, GONE), (EXECUTION, GONE), (MESSAGE, GONE), (PULSE, GONE)];
    offered(16, 1, &offers, &[5, 0, 6, 7]);
    let offers = [(PULSE, ONE), (PULSE, GONE), (PULSE, GONE), (PULSE, ONE), (PULSE, ONE)];
    offered(16, 1, &offers, &[5, 6, 7, 8, 9]);
}

/// A repeat is an observation like any other: rows, times, current and `at` have it.
#[test]
fn repeats_are_replied() {
    let core = core();
    let mut session = session(&core, 4, 1);
    for (number, time) in [(5, 30), (6, 10), (7, 20), (8, 20)] {
        assert_eq!(session.observe(PULSE, time, 9, ONE), number);
    }
    let pulse = ONE.packed(PULSE, Clean);
    let reply = session.ask("/sample").unwrap();
    assert_eq!(reply[..8], [4, 5, 8, 9, 5, 6, 7, 8]);
    assert_eq!(reply[8..], [30, pulse, 10, pulse, 20, pulse, 20, pulse]);
    assert_eq!(session.observe(PULSE, 0, 40, ONE), 9);
    let current = session.ask("/current").unwrap();
    assert_eq!((numbers(&current), current[8..10].to_vec()), (&[9, 2, 3, 4][..], vec![40, pulse]));
    // Each repeat that leaves the ring becomes what `at` falls back on.
    assert_eq!(session.observe(EXECUTION, 50, 9, ONE), 10);
    let at = session.ask("/current?at=7").unwrap();
    assert_eq!(numbers(&at), [7, 2, 3, 4]);
    for number in 11..14 {
        assert_eq!(session.observe(EXECUTION, 50, 9, Value::Event(number as u32)), number);
    }
    assert_eq!(numbers(&session.ask("/current?at=10").unwrap()), [9, 10, 3, 4]);
    session.compare_contents().unwrap();
}

/// Events and Unavailable, and nothing else.
#[test]
fn values_of_a_discrete_item() {
    let none = [Level::Normal, Level::Warning, Level::Fault].map(|level| Value::Condition(level, 0));
    let refused = none.into_iter().chain([0, 1, -1].map(Value::Sample));
    let offers: Vec<(u64, Value)> = refused.map(|value| (PULSE, value)).chain([(PULSE, ONE)]).collect();
    offered(16, 1, &offers, &[KIND, KIND, KIND, KIND, KIND, KIND, 5]);
    // Words that no value has.
    let odd = [1, (1 << 40) + (2 << 32), 4 << 32, 5 << 32, (3 << 32) + (3 << 24), END + (2 << 32), u64::MAX];
    let core = core();
    let mut session = session(&core, 16, 1);
    for value in odd {
        let call = Call::Observe { item: PULSE, time: 7, host: 9, value };
        assert_eq!(session.must(&call), Answer::Word(KIND), "{value:#x}");
    }
    assert_eq!(words(&mut session, &odd.map(|value| Record { item: PULSE, time: 7, value })), [KIND; 7]);
}

/// Store-asset's event goes to its own item, whichever comes first.
#[test]
fn discrete_items_beside_asset_changes() {
    let core = core();
    let mut session = session(&core, 16, 1);
    assert_eq!(session.observe(PULSE, 7, 9, Value::Event(0)), 5);
    assert_eq!(session.store(b"T", b"body", 9), 0);
    assert_eq!(session.store(b"T", b"body", 9), 0);
    let records = [(ASSETS, Value::Event(0)), (ASSETS, GONE), (PULSE, Value::Event(0)), (MESSAGE, GONE)];
    let records = records.map(|(item, value)| record(item, 7, value));
    assert_eq!(words(&mut session, &records), [KIND, KIND, 8, 9]);
    let reply = session.ask("/sample?from=5").unwrap();
    let zero = |item| Value::Event(0).packed(item, Clean);
    assert_eq!(packed(&reply), [zero(PULSE), zero(ASSETS), zero(ASSETS), zero(PULSE), MESSAGE << 40]);
    // Without an item of asset changes there is no event.
    let mut start = start(&MODEL, &names(&["Device"]), [16, 2, 1], 500);
    start.model[6] = 4 * 65_536;
    let mut session = begin(&core, &start);
    assert_eq!(session.store(b"T", b"body", 9), 0);
    assert_eq!(session.machine.last(), 4);
    assert_eq!(session.observe(ASSETS, 7, 9, GONE), 5);
}

/// With no number left a discrete item's equal value is refused, where an event's is Same.
#[test]
fn numbers_run_out() {
    let offers =
        [(PULSE, GONE), (EXECUTION, GONE), (PULSE, ONE), (MESSAGE, Value::Sample(1)), (MESSAGE, GONE)];
    offered(2, END - 4, &offers, &[SPENT, 0, SPENT, KIND, SPENT]);
    // The last number goes to the first, equal or not.
    offered(2, END - 5, &offers, &[END - 1, 0, SPENT, KIND, SPENT]);
    offered(2, END - 5, &[(PULSE, ONE), (PULSE, ONE), (EXECUTION, ONE)], &[END - 1, SPENT, SPENT]);
    offered(2, END - 5, &[(EXECUTION, ONE), (EXECUTION, ONE), (PULSE, GONE)], &[END - 1, 0, SPENT]);
    offered(2, END - 6, &[(PULSE, ONE); 4], &[END - 2, END - 1, SPENT, SPENT]);
}

/// The most records, all equal, through rings that they turn over or not.
#[test]
fn a_delivery_of_equal_values() {
    let core = core();
    for places in [1, 2, 3, 100, 255, 256, 257, 300] {
        for value in [ONE, GONE] {
            let mut session = session(&core, places, 3);
            for from in [7, 7 + 256] {
                let expected: Vec<u64> = (from..from + 256).collect();
                assert_eq!(words(&mut session, &[record(PULSE, 7, value); 256]), expected);
            }
            let current = session.ask("/current").unwrap();
            assert_eq!(numbers(&current), [518, 4, 5, 6]);
            let first = session.machine.first();
            let held = session.ask(format!("/sample?count={}", places.min(100))).unwrap();
            assert!(numbers(&held).iter().copied().eq(first..(first + 100).min(519)));
            assert_eq!(numbers(&session.ask(format!("/current?at={first}")).unwrap())[0], first);
        }
    }
}

/// A record's equal neighbours do not matter to a discrete item, and still do to the others.
#[test]
fn a_delivery_of_several_items() {
    let items = [PULSE, EXECUTION, PULSE, EXECUTION, MESSAGE, EXECUTION, MESSAGE, PULSE];
    let expected = [5, 6, 7, 0, 8, 0, 9, 10];
    for places in [1, 2, 5, 16] {
        offered(places, 1, &items.map(|item| (item, ONE)), &expected);
    }
}
