//! Several conditions standing on one item, with the numbers written out: by the core, the store layer
//! and the machine, one by one and in a delivery, through rings of every size.

use differential::call::{Answer, Call};
use differential::fixture::{begin, core, names, numbers, packed, record, start, Tested};
use differential::under_test::UnderTest;
use reference::{Clean, Level, Record, Value};

const END: u64 = 1 << 63;
const KIND: u64 = END + 5;
const SPENT: u64 = END + 6;
const CROWDED: u64 = END + 19;

/// Two condition items with a sample between them.
const SYSTEM: u64 = 0;
const POSITION: u64 = 1;
const LOGIC: u64 = 2;
const TYPES: [&str; 4] = ["SYSTEM", "POSITION", "LOGIC_PROGRAM", "Device"];
const MODEL: [u32; 6] = [1, 3, 3, 2 * 65_536, 1, 2 * 65_536 + 2];

/// The largest native code.
const LARGEST: u32 = (1 << 24) - 1;

const GONE: Value = Value::Unavailable;

const fn normal(code: u32) -> Value {
    Value::Condition(Level::Normal, code)
}

const fn warning(code: u32) -> Value {
    Value::Condition(Level::Warning, code)
}

const fn fault(code: u32) -> Value {
    Value::Condition(Level::Fault, code)
}

const fn at_place(millimetres: i32) -> Value {
    Value::Sample(1000 * millimetres)
}

/// Number and value of a row. Its time is 1000 more than its number, or 500 where start wrote it.
type Row = (u64, Value);

/// Item, value, answer word, and the rows of SYSTEM behind it.
type Step<'a> = (u64, Value, u64, &'a [Row]);

/// Numbers 1 to 3 are start's.
fn session(core: &UnderTest, places: u64) -> Tested<'_> {
    begin(core, &start(&MODEL, &names(&TYPES), [places, 1, 1], 500))
}

fn time(number: u64) -> u64 {
    if number <= 3 {
        500
    } else {
        1000 + number
    }
}

fn observe(session: &mut Tested, item: u64, value: Value) -> u64 {
    let number = session.machine.last() + 1;
    session.observe(item, time(number), 9, value)
}

/// The rows of an item, now or at a number.
fn rows(session: &mut Tested, item: u64, at: Option<u64>) -> Vec<Row> {
    let mut text = format!("/current?path=//Device//DataItem[@type=\"{}\"]", TYPES[item as usize]);
    text += &at.map_or(String::new(), |at| format!("&at={at}"));
    let reply = session.ask(text).unwrap();
    let k = reply[0] as usize;
    let row = |(&number, pair): (&u64, &[u64])| {
        assert_eq!((pair[0], pair[1] >> 40), (time(number), item));
        (number, Value::decode(pair[1] % (1 << 40)))
    };
    numbers(&reply).iter().zip(reply[4 + k..].chunks(2)).map(row).collect()
}

fn now(session: &mut Tested) -> Vec<Row> {
    rows(session, SYSTEM, None)
}

/// Rings that a story leaves behind, in part or not at all.
const RINGS: [u64; 6] = [1, 2, 3, 5, 8, 64];

/// Each answer and the rows behind it, then a snapshot at every number held; the same in one delivery.
fn told(story: &[Step]) {
    let core = core();
    for places in RINGS {
        let mut session = session(&core, places);
        let mut states: Vec<&[Row]> = vec![&[(1, GONE)]; 4];
        for &(item, value, answer, expected) in story {
            assert_eq!(observe(&mut session, item, value), answer, "{item} {value:?}, {places} places");
            assert_eq!(now(&mut session), expected, "behind {item} {value:?}, {places} places");
            if session.machine.last() as usize == states.len() {
                states.push(expected);
            }
            for at in session.machine.first()..=session.machine.last() {
                let snapshot = rows(&mut session, SYSTEM, Some(at));
                assert_eq!(snapshot, states[at as usize], "at {at}, {places} places");
            }
        }
        session.compare_contents().unwrap();
        delivered(&mut self::session(&core, places), story);
    }
}

fn delivered(session: &mut Tested, story: &[Step]) {
    let records: Vec<Record> =
        story.iter().map(|&(item, value, answer, _)| record(item, 1000 + answer % END, value)).collect();
    let (pair, words) = session.batch(&records, 9, records.len());
    assert_eq!(pair, (0, story.len() as u64));
    assert!(words.iter().eq(story.iter().map(|(_, _, answer, _)| answer)), "{words:?}");
    assert_eq!(now(session), story.last().map_or(&[(1, GONE)][..], |step| step.3));
    session.compare_contents().unwrap();
}

const EIGHT: [Row; 8] = [
    (4, warning(1)),
    (5, fault(2)),
    (6, warning(3)),
    (7, fault(4)),
    (8, warning(5)),
    (9, fault(6)),
    (10, warning(7)),
    (11, fault(8)),
];

/// Raises eight codes, then goes on.
fn eight_and(further: &[Step]) {
    let raised = (0..8).map(|at| (SYSTEM, EIGHT[at].1, EIGHT[at].0, &EIGHT[..=at]));
    let story: Vec<Step> = raised.chain(further.iter().copied()).collect();
    told(&story);
}

#[test]
fn eight_codes_stand() {
    eight_and(&[]);
    let core = core();
    let mut session = session(&core, 64);
    for (number, value) in EIGHT {
        assert_eq!(observe(&mut session, SYSTEM, value), number);
    }
    let reply = session.ask("/current").unwrap();
    assert_eq!(reply[..4], [10, 1, 11, 12]);
    assert_eq!(numbers(&reply), [4, 5, 6, 7, 8, 9, 10, 11, 2, 3]);
    assert_eq!(packed(&reply)[..3], [0x0003_0100_0001, 0x0003_0200_0002, 0x0003_0100_0003]);
    assert_eq!(packed(&reply)[8..], [1 << 40, 2 << 40]);
}

/// Refused, whatever its code and level; its Normal clears nothing and is Same.
#[test]
fn a_ninth_code_is_crowded() {
    eight_and(&[
        (SYSTEM, warning(9), CROWDED, &EIGHT),
        (SYSTEM, fault(9), CROWDED, &EIGHT),
        (SYSTEM, normal(9), 0, &EIGHT),
        (SYSTEM, warning(0), CROWDED, &EIGHT),
        (SYSTEM, fault(LARGEST), CROWDED, &EIGHT),
        (SYSTEM, normal(LARGEST), 0, &EIGHT),
        (SYSTEM, warning(1), 0, &EIGHT),
        (SYSTEM, fault(8), 0, &EIGHT),
        // Another item has room of its own.
        (LOGIC, warning(9), 12, &EIGHT),
        (POSITION, at_place(9), 13, &EIGHT),
    ]);
}

/// Of eight codes one is cleared: there is room for one, behind the others.
#[test]
fn room_for_one_more() {
    let [one, two, three, four, five, six, seven, eight] = EIGHT;
    eight_and(&[
        (SYSTEM, normal(3), 12, &[one, two, four, five, six, seven, eight]),
        (SYSTEM, normal(3), 0, &[one, two, four, five, six, seven, eight]),
        (SYSTEM, warning(9), 13, &[one, two, four, five, six, seven, eight, (13, warning(9))]),
        (SYSTEM, three.1, CROWDED, &[one, two, four, five, six, seven, eight, (13, warning(9))]),
        (SYSTEM, normal(9), 14, &[one, two, four, five, six, seven, eight]),
        (SYSTEM, three.1, 15, &[one, two, four, five, six, seven, eight, (15, warning(3))]),
    ]);
}

/// With eight codes the levels of each still change.
#[test]
fn eight_codes_are_replaced() {
    let mut left = EIGHT;
    let mut steps: Vec<(Value, u64, [Row; 8])> = Vec::new();
    for (number, at) in (12..).zip([7, 0, 3, 0]) {
        let (_, Value::Condition(level, code)) = left[at] else { panic!("a condition") };
        let value = if level == Level::Fault { warning(code) } else { fault(code) };
        left[at] = (number, value);
        steps.push((value, number, left));
    }
    let further: Vec<Step> =
        steps.iter().map(|(value, number, left)| (SYSTEM, *value, *number, &left[..])).collect();
    eight_and(&further);
    assert_eq!(left.map(|(number, _)| number), [15, 5, 6, 14, 8, 9, 10, 12]);
}

#[test]
fn unavailable_over_eight() {
    eight_and(&[
        (SYSTEM, GONE, 12, &[(12, GONE)]),
        (SYSTEM, GONE, 0, &[(12, GONE)]),
        (SYSTEM, normal(3), 0, &[(12, GONE)]),
        (SYSTEM, warning(9), 13, &[(13, warning(9))]),
        (SYSTEM, warning(1), 14, &[(13, warning(9)), (14, warning(1))]),
    ]);
    eight_and(&[
        (SYSTEM, normal(0), 12, &[(12, normal(0))]),
        (SYSTEM, normal(0), 0, &[(12, normal(0))]),
        (SYSTEM, fault(2), 13, &[(13, fault(2))]),
    ]);
}

/// The place stays, so that the numbers of an item's rows need not rise.
#[test]
fn replaced_in_its_place() {
    told(&[
        (SYSTEM, warning(1), 4, &[(4, warning(1))]),
        (SYSTEM, warning(2), 5, &[(4, warning(1)), (5, warning(2))]),
        (SYSTEM, fault(1), 6, &[(6, fault(1)), (5, warning(2))]),
        (SYSTEM, fault(1), 0, &[(6, fault(1)), (5, warning(2))]),
        (SYSTEM, warning(1), 7, &[(7, warning(1)), (5, warning(2))]),
        (SYSTEM, warning(2), 0, &[(7, warning(1)), (5, warning(2))]),
        (SYSTEM, fault(3), 8, &[(7, warning(1)), (5, warning(2)), (8, fault(3))]),
        (SYSTEM, fault(2), 9, &[(7, warning(1)), (9, fault(2)), (8, fault(3))]),
        (SYSTEM, normal(0), 10, &[(10, normal(0))]),
    ]);
}

/// From the middle, the front and the end; then the last one, whose Normal stands in its place.
#[test]
fn codes_are_cleared_one_by_one() {
    told(&[
        (SYSTEM, warning(1), 4, &[(4, warning(1))]),
        (SYSTEM, fault(2), 5, &[(4, warning(1)), (5, fault(2))]),
        (SYSTEM, warning(3), 6, &[(4, warning(1)), (5, fault(2)), (6, warning(3))]),
        (SYSTEM, fault(4), 7, &[(4, warning(1)), (5, fault(2)), (6, warning(3)), (7, fault(4))]),
        (SYSTEM, normal(2), 8, &[(4, warning(1)), (6, warning(3)), (7, fault(4))]),
        (SYSTEM, normal(2), 0, &[(4, warning(1)), (6, warning(3)), (7, fault(4))]),
        (SYSTEM, normal(1), 9, &[(6, warning(3)), (7, fault(4))]),
        (SYSTEM, warning(1), 10, &[(6, warning(3)), (7, fault(4)), (10, warning(1))]),
        (SYSTEM, normal(1), 11, &[(6, warning(3)), (7, fault(4))]),
        (SYSTEM, normal(4), 12, &[(6, warning(3))]),
        (SYSTEM, normal(4), 0, &[(6, warning(3))]),
        (SYSTEM, normal(3), 13, &[(13, normal(3))]),
        (SYSTEM, normal(3), 0, &[(13, normal(3))]),
        (SYSTEM, fault(4), 14, &[(14, fault(4))]),
    ]);
}

/// A code's level changes and comes back; a repeated one is Same.
#[test]
fn levels_of_one_code() {
    told(&[
        (SYSTEM, warning(5), 4, &[(4, warning(5))]),
        (SYSTEM, warning(5), 0, &[(4, warning(5))]),
        (SYSTEM, fault(5), 5, &[(5, fault(5))]),
        (SYSTEM, fault(5), 0, &[(5, fault(5))]),
        (SYSTEM, warning(5), 6, &[(6, warning(5))]),
        (SYSTEM, normal(5), 7, &[(7, normal(5))]),
        (SYSTEM, warning(5), 8, &[(8, warning(5))]),
    ]);
    told(&[
        (SYSTEM, warning(5), 4, &[(4, warning(5))]),
        (SYSTEM, normal(0), 5, &[(5, normal(0))]),
        (SYSTEM, warning(5), 6, &[(6, warning(5))]),
    ]);
}

/// Normal 0 ends an Unavailable; the Normal of a code does not.
#[test]
fn normal_after_unavailable() {
    told(&[
        (SYSTEM, GONE, 0, &[(1, GONE)]),
        (SYSTEM, normal(7), 0, &[(1, GONE)]),
        (SYSTEM, normal(0), 4, &[(4, normal(0))]),
        (SYSTEM, normal(0), 0, &[(4, normal(0))]),
        (SYSTEM, normal(7), 0, &[(4, normal(0))]),
        (SYSTEM, GONE, 5, &[(5, GONE)]),
        (SYSTEM, normal(LARGEST), 0, &[(5, GONE)]),
        (SYSTEM, GONE, 0, &[(5, GONE)]),
        (SYSTEM, normal(0), 6, &[(6, normal(0))]),
    ]);
}

/// After the last code's own Normal nothing is left to clear, but Unavailable is news.
#[test]
fn normal_after_normal() {
    told(&[
        (SYSTEM, warning(7), 4, &[(4, warning(7))]),
        (SYSTEM, normal(7), 5, &[(5, normal(7))]),
        (SYSTEM, normal(0), 0, &[(5, normal(7))]),
        (SYSTEM, normal(8), 0, &[(5, normal(7))]),
        (SYSTEM, GONE, 6, &[(6, GONE)]),
        (SYSTEM, normal(7), 0, &[(6, GONE)]),
        (SYSTEM, fault(7), 7, &[(7, fault(7))]),
        (SYSTEM, GONE, 8, &[(8, GONE)]),
    ]);
}

/// Code 0 stands like others; its Normal clears them all.
#[test]
fn code_zero() {
    told(&[
        (SYSTEM, fault(0), 4, &[(4, fault(0))]),
        (SYSTEM, fault(0), 0, &[(4, fault(0))]),
        (SYSTEM, warning(1), 5, &[(4, fault(0)), (5, warning(1))]),
        (SYSTEM, warning(0), 6, &[(6, warning(0)), (5, warning(1))]),
        (SYSTEM, normal(1), 7, &[(6, warning(0))]),
        (SYSTEM, fault(LARGEST), 8, &[(6, warning(0)), (8, fault(LARGEST))]),
        (SYSTEM, normal(0), 9, &[(9, normal(0))]),
        (SYSTEM, normal(0), 0, &[(9, normal(0))]),
        (SYSTEM, warning(0), 10, &[(10, warning(0))]),
    ]);
    told(&[
        (SYSTEM, fault(0), 4, &[(4, fault(0))]),
        (SYSTEM, warning(1), 5, &[(4, fault(0)), (5, warning(1))]),
        (SYSTEM, normal(0), 6, &[(6, normal(0))]),
    ]);
}

/// A story amid other items: the small rings have lost what stands.
#[test]
fn what_stands_leaves_the_ring() {
    const TWO: [Row; 2] = [(6, fault(1)), (12, warning(3))];
    told(&[
        (SYSTEM, warning(1), 4, &[(4, warning(1))]),
        (SYSTEM, warning(2), 5, &[(4, warning(1)), (5, warning(2))]),
        (SYSTEM, fault(1), 6, &[(6, fault(1)), (5, warning(2))]),
        (POSITION, at_place(1), 7, &[(6, fault(1)), (5, warning(2))]),
        (POSITION, at_place(2), 8, &[(6, fault(1)), (5, warning(2))]),
        (LOGIC, fault(1), 9, &[(6, fault(1)), (5, warning(2))]),
        (LOGIC, normal(2), 0, &[(6, fault(1)), (5, warning(2))]),
        (POSITION, at_place(3), 10, &[(6, fault(1)), (5, warning(2))]),
        (SYSTEM, normal(2), 11, &[(6, fault(1))]),
        (SYSTEM, warning(3), 12, &TWO),
        (POSITION, at_place(4), 13, &TWO),
        (LOGIC, GONE, 14, &TWO),
        (POSITION, at_place(5), 15, &TWO),
        (POSITION, at_place(6), 16, &TWO),
        (SYSTEM, GONE, 17, &[(17, GONE)]),
        (POSITION, at_place(7), 18, &[(17, GONE)]),
        (SYSTEM, warning(2), 19, &[(19, warning(2))]),
        (POSITION, at_place(8), 20, &[(19, warning(2))]),
        (SYSTEM, normal(2), 21, &[(21, normal(2))]),
        (POSITION, at_place(9), 22, &[(21, normal(2))]),
        (POSITION, at_place(10), 23, &[(21, normal(2))]),
    ]);
}

/// Set long before the ring's oldest number, and many turns of the ring later.
#[test]
fn conditions_outlive_the_ring() {
    let core = core();
    for places in [1, 3, 7] {
        let mut session = session(&core, places);
        for (number, value) in [(4, warning(1)), (5, warning(2)), (6, fault(3)), (7, fault(1))] {
            assert_eq!(observe(&mut session, SYSTEM, value), number);
        }
        for number in 8..=1000 {
            assert_eq!(observe(&mut session, POSITION, Value::Sample(number as i32)), number);
        }
        let three = [(7, fault(1)), (5, warning(2)), (6, fault(3))];
        assert_eq!(now(&mut session), three);
        assert_eq!(rows(&mut session, SYSTEM, Some(1001 - places)), three);
        assert_eq!(rows(&mut session, SYSTEM, Some(1000)), three);
        assert_eq!(observe(&mut session, SYSTEM, warning(2)), 0);
        assert_eq!(observe(&mut session, SYSTEM, normal(2)), 1001);
        if places > 1 {
            assert_eq!(rows(&mut session, SYSTEM, Some(1000)), three);
        }
        let two = [(7, fault(1)), (6, fault(3))];
        assert_eq!(rows(&mut session, SYSTEM, Some(1001)), two);
        for number in 1002..=2000 {
            assert_eq!(observe(&mut session, POSITION, Value::Sample(number as i32)), number);
        }
        assert_eq!(rows(&mut session, SYSTEM, Some(2001 - places)), two);
        assert_eq!(rows(&mut session, SYSTEM, Some(2000)), two);
        assert_eq!(observe(&mut session, SYSTEM, GONE), 2001);
        assert_eq!(rows(&mut session, SYSTEM, Some(2001)), [(2001, GONE)]);
        session.compare_contents().unwrap();
    }
}

/// The same codes on two items are apart, and each has eight.
#[test]
fn two_condition_items() {
    let core = core();
    for places in RINGS {
        let mut session = session(&core, places);
        for (at, (_, value)) in EIGHT.into_iter().enumerate() {
            assert_eq!(observe(&mut session, SYSTEM, value), 4 + 2 * at as u64);
            assert_eq!(observe(&mut session, LOGIC, value), 5 + 2 * at as u64);
        }
        assert_eq!(observe(&mut session, LOGIC, warning(9)), CROWDED);
        assert_eq!(observe(&mut session, SYSTEM, GONE), 20);
        assert_eq!(now(&mut session), [(20, GONE)]);
        let other: Vec<u64> = rows(&mut session, LOGIC, None).iter().map(|row| row.0).collect();
        assert_eq!(other, [5, 7, 9, 11, 13, 15, 17, 19]);
        let reply = session.ask("/current").unwrap();
        assert_eq!(reply[..4], [10, (21u64.saturating_sub(places)).max(1), 20, 21]);
        assert_eq!(numbers(&reply), [20, 2, 5, 7, 9, 11, 13, 15, 17, 19]);
        assert_eq!(session.ask("/current?at=20").unwrap(), reply);
        session.compare_contents().unwrap();
    }
}

/// The store's words, place by place: 4 + 2 * 3 + 48 * 3 of them.
#[test]
fn words_of_the_store() {
    let core = core();
    let mut session = session(&core, 3);
    let started = session.pair.expected_observations.clone();
    assert_eq!(started.len(), 154);
    // Start writes the first entry of each item.
    let used: Vec<usize> = (10..154).filter(|&at| started[at] != 0).collect();
    assert_eq!(used, [10, 18, 26, 34, 42, 50, 66, 74]);
    for (number, value) in [(4, warning(1)), (5, fault(2)), (6, fault(1))] {
        assert_eq!(observe(&mut session, SYSTEM, value), number);
    }
    let words = &session.pair.expected_observations;
    let [one, two, three] = [0x0003_0100_0001, 0x0003_0200_0002, 0x0003_0200_0001];
    assert_eq!(words[..10], [3, 3, 1, 6, 1004, 1005, 1006, one, two, three]);
    // Latest: numbers, times and packed values, eight words for each item.
    assert_eq!(words[10..20], [6, 5, 0, 0, 0, 0, 0, 0, 2, 0]);
    assert_eq!((words[26], words[34], words[35], words[42], words[50]), (3, 1006, 1005, 500, 500));
    assert_eq!(words[58..68], [three, two, 0, 0, 0, 0, 0, 0, 1 << 40, 0]);
    // The checkpoints are start's.
    assert_eq!((words[82], words[90], words[98], words[106], words[114]), (1, 2, 3, 500, 500));
    assert_eq!((words[130], words[138], words[146]), (0, 1 << 40, 2 << 40));
    // The first two leave the ring.
    for number in [7, 8] {
        assert_eq!(observe(&mut session, POSITION, Value::Sample(number as i32)), number);
    }
    let words = &session.pair.expected_observations;
    assert_eq!(words[82..90], [4, 5, 0, 0, 0, 0, 0, 0]);
    assert_eq!(words[106..114], [1004, 1005, 0, 0, 0, 0, 0, 0]);
    assert_eq!(words[130..138], [one, two, 0, 0, 0, 0, 0, 0]);
    // The third replaces the first of them, in its place.
    assert_eq!(observe(&mut session, POSITION, Value::Sample(9)), 9);
    let words = &session.pair.expected_observations;
    assert_eq!(words[82..90], [6, 5, 0, 0, 0, 0, 0, 0]);
    assert_eq!(words[130..138], [three, two, 0, 0, 0, 0, 0, 0]);
}

/// With N below m start writes the checkpoints of the first items.
#[test]
fn checkpoints_of_a_start() {
    let core = core();
    let mut session = session(&core, 1);
    let words = &session.pair.expected_observations;
    assert_eq!(words.len(), 150);
    let used: Vec<usize> = (78..150).filter(|&at| words[at] != 0).collect();
    assert_eq!(used, [78, 86, 102, 110, 134]);
    assert_eq!(rows(&mut session, SYSTEM, Some(3)), [(1, GONE)]);
    assert_eq!(rows(&mut session, LOGIC, Some(3)), [(3, GONE)]);
    assert_eq!(observe(&mut session, LOGIC, warning(1)), 4);
    assert_eq!(rows(&mut session, LOGIC, Some(4)), [(4, warning(1))]);
}

/// 4 + 3k words are needed, k the rows of all selected items.
#[test]
fn words_of_a_reply() {
    let core = core();
    let mut session = session(&core, 4);
    for (number, value) in EIGHT {
        assert_eq!(observe(&mut session, SYSTEM, value), number);
    }
    let system = "path=//Device//DataItem[@type=\"SYSTEM\"]";
    for (text, rows) in [
        ("/current".to_string(), 10),
        (format!("/current?{system}"), 8),
        ("/current?at=11".to_string(), 10),
        ("/current?at=8".to_string(), 7),
        (format!("/current?at=9&{system}"), 6),
    ] {
        for words in 0..40 {
            let expected = if words < 4 + 3 * rows { 15 } else { 0 };
            assert_eq!(session.ask_into(text.as_bytes(), words), expected, "{text} into {words}");
        }
    }
    // A sample has a row for each number, whatever stands.
    assert_eq!(session.ask("/sample").unwrap()[..8], [4, 8, 11, 12, 8, 9, 10, 11]);
}

/// Every level takes every code below 2^24, Normal too; and none above.
#[test]
fn codes_at_their_bounds() {
    let core = core();
    let mut session = session(&core, 8);
    let mut offer = |level: u64, code: u64| {
        let value = (3 << 32) + (level << 24) + code;
        match session.must(&Call::Observe { item: SYSTEM, time: 7, host: 9, value }) {
            Answer::Word(word) => word,
            other => panic!("observe answers {other:?}"),
        }
    };
    let largest = u64::from(LARGEST);
    assert_eq!([offer(0, 1), offer(0, largest), offer(0, 0)], [0, 0, 4]);
    assert_eq!([offer(1, largest), offer(2, largest), offer(0, largest)], [5, 6, 7]);
    for level in [3, 4, 127, 128, 255] {
        assert_eq!([offer(level, 0), offer(level, 1), offer(level, largest)], [KIND; 3]);
    }
    for level in [Level::Normal, Level::Warning, Level::Fault] {
        assert!(Value::Condition(level, LARGEST).allowed(2, Clean));
        assert!(!Value::Condition(level, LARGEST + 1).allowed(2, Clean));
    }
}

/// With no number left: Same and crowded come first.
#[test]
fn numbers_run_out() {
    let core = core();
    for places in [1, 3, 64] {
        let origin = END - 3 - 8;
        let mut session = begin(&core, &start(&MODEL, &names(&TYPES), [places, 1, origin], 500));
        for (number, value) in EIGHT {
            assert_eq!(session.observe(SYSTEM, 7, 9, value), origin - 1 + number);
        }
        let offers = [
            (warning(1), 0),
            (warning(9), CROWDED),
            (normal(9), 0),
            (fault(1), SPENT),
            (normal(1), SPENT),
            (normal(0), SPENT),
            (GONE, SPENT),
        ];
        for (value, expected) in offers {
            assert_eq!(session.observe(SYSTEM, 7, 9, value), expected, "{value:?}");
        }
        let records = offers.map(|(value, _)| record(SYSTEM, 7, value));
        assert_eq!(session.batch(&records, 9, 7).1, offers.map(|(_, expected)| expected));
        assert_eq!(session.observe(LOGIC, 7, 9, warning(1)), SPENT);
        assert_eq!(session.observe(LOGIC, 7, 9, normal(1)), 0);
        session.compare_contents().unwrap();
    }
}

/// Every list of so many values out of a few, each snapshot compared.
fn every_list(prefix: &[Value], letters: &[Value], length: u32) {
    let core = core();
    let model = [1, 1, 0, 2 * 65_536];
    for list in 0..letters.len().pow(length) {
        for places in 1..=3 {
            let mut session = begin(&core, &start(&model, &names(&["SYSTEM"]), [places, 1, 1], 500));
            prefix.iter().for_each(|&value| assert!(session.observe(0, 7, 9, value) < END));
            for place in 0..length {
                let letter = list / letters.len().pow(place) % letters.len();
                session.observe(0, 7, 9, letters[letter]);
            }
            for at in session.machine.first()..=session.machine.last() {
                session.ask(format!("/current?at={at}")).unwrap();
            }
            session.ask("/current").unwrap();
            session.compare_contents().unwrap();
        }
    }
}

#[test]
fn every_short_list() {
    let letters = [warning(1), fault(1), warning(2), normal(1), normal(2), normal(0), GONE];
    for length in 0..=5 {
        every_list(&[], &letters, length);
    }
}

/// With six codes standing the third further one is too many.
#[test]
fn every_short_list_over_six_codes() {
    let letters = [warning(1), fault(2), fault(9), normal(1), normal(5), warning(5), GONE];
    every_list(&EIGHT.map(|(_, value)| value)[2..], &letters, 4);
}
