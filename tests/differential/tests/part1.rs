//! The worked examples of MTConnect Part 1, version 1.2, in the core's words.

use differential::fixture::{begin, core, names, numbers, packed, start, Tested};
use differential::under_test::UnderTest;
use reference::{Clean, Level, Value};

const NORMAL: Value = Value::Condition(Level::Normal, 0);
const FAULT: Value = Value::Condition(Level::Fault, 7);

/// Packed values of rows, written as item and value.
fn rows(list: &[(u64, Value)]) -> Vec<u64> {
    list.iter().map(|(item, value)| value.packed(*item, Clean)).collect()
}

fn component(parent: u32, name: u32) -> u32 {
    parent * 256 + name
}

fn item(category: u32, component: u32, name: u32) -> u32 {
    category * 65_536 + component * 256 + name
}

// 5.4.2: the state at a sequence number.

const ESTOP: u64 = 0;
const EXECUTION: u64 = 1;
const AVAILABLE: u64 = 2;
const SYSTEM: u64 = 3;

/// Device, controller and path; the items in the order of the example's first four numbers.
fn minimal(core: &UnderTest) -> Tested<'_> {
    let names =
        names(&["Device", "Controller", "Path", "EMERGENCY_STOP", "EXECUTION", "AVAILABILITY", "SYSTEM"]);
    let model = [
        3,
        4,
        component(0, 0),
        component(0, 1),
        component(1, 2),
        item(1, 1, 3),
        item(1, 2, 4),
        item(1, 0, 5),
        item(2, 1, 6),
    ];
    let mut session = begin(core, &start(&model, &names, [16, 1, 1], 25_089));
    let series = [
        (AVAILABLE, 35_153, Value::Event(1)),
        (EXECUTION, 35_153, STOPPED),
        (ESTOP, 35_153, Value::Event(1)),
        (SYSTEM, 35_153, NORMAL),
        (ESTOP, 65_153, Value::Event(2)),
        (EXECUTION, 65_153, ACTIVE),
        (SYSTEM, 95_153, FAULT),
        (EXECUTION, 125_153, STOPPED),
        (SYSTEM, 155_153, NORMAL),
        (EXECUTION, 185_153, ACTIVE),
    ];
    for (number, (item, time, value)) in (5..).zip(series) {
        assert_eq!(session.observe(item, time, time, value), number);
    }
    session
}

const STOPPED: Value = Value::Event(10);
const ACTIVE: Value = Value::Event(11);

#[test]
fn state_after_the_series() {
    let core = core();
    let mut session = minimal(&core);
    let reply = session.ask("/current").unwrap();
    // Item order: emergency stop, execution, availability, system.
    assert_eq!(numbers(&reply), [9, 14, 5, 13]);
    assert_eq!(
        packed(&reply),
        rows(&[
            (ESTOP, Value::Event(2)),
            (EXECUTION, ACTIVE),
            (AVAILABLE, Value::Event(1)),
            (SYSTEM, NORMAL)
        ])
    );
}

#[test]
fn state_at_the_fault_and_just_after() {
    let core = core();
    let mut session = minimal(&core);
    // The example's header already says 18.
    for (number, value) in (15..=18).zip([STOPPED, ACTIVE, STOPPED, ACTIVE]) {
        assert_eq!(session.observe(EXECUTION, 0, 200_000, value), number);
    }
    let reply = session.ask("/current?at=11").unwrap();
    assert_eq!(reply[..4], [4, 3, 18, 19]);
    assert_eq!(numbers(&reply), [9, 10, 5, 11]);
    assert_eq!(
        packed(&reply),
        rows(&[(ESTOP, Value::Event(2)), (EXECUTION, ACTIVE), (AVAILABLE, Value::Event(1)), (SYSTEM, FAULT)])
    );
    let reply = session.ask("/current?at=12").unwrap();
    assert_eq!(reply[..4], [4, 3, 18, 19]);
    assert_eq!(numbers(&reply), [9, 12, 5, 11]);
    assert_eq!(packed(&reply)[1], STOPPED.packed(EXECUTION, Clean));
    assert_eq!(packed(&reply)[3], FAULT.packed(SYSTEM, Clean));
    // 'at' must be greater than or equal to 3.
    assert_eq!(session.ask("/current?at=2"), Err(17));
    assert!(session.ask("/current?at=3").is_ok());
}

// 5.8.1: a buffer of eight places.

const LINE: u64 = 0;
const POSITION: u64 = 1;

fn eight_places(core: &UnderTest) -> Tested<'_> {
    let names = names(&["Path", "LINE", "POSITION"]);
    let model = [1, 2, component(0, 0), item(1, 0, 1), item(0, 0, 2)];
    let mut session = begin(core, &start(&model, &names, [8, 1, 9], 1));
    let inserted = [
        (LINE, Value::Event(201)),
        (POSITION, Value::Sample(0)),
        (POSITION, Value::Sample(10_000)),
        (LINE, Value::Event(210)),
        (POSITION, Value::Sample(15_000)),
        (LINE, Value::Event(220)),
        (POSITION, Value::Sample(20_000)),
        (LINE, Value::Event(227)),
        (POSITION, Value::Sample(22_000)),
    ];
    for (number, (item, value)) in (11..=19).zip(inserted) {
        assert_eq!(session.observe(item, number, number, value), number);
    }
    session
}

#[test]
fn values_stand_until_they_are_replaced() {
    let core = core();
    let mut session = eight_places(&core);
    let reply = session.ask("/current").unwrap();
    assert_eq!(reply[..4], [2, 12, 19, 20]);
    assert_eq!(packed(&reply), rows(&[(LINE, Value::Event(227)), (POSITION, Value::Sample(22_000))]));
    // Line 201 has left the buffer, and is still what stood at 12 and 13.
    let reply = session.ask("/current?at=12").unwrap();
    assert_eq!(packed(&reply), rows(&[(LINE, Value::Event(201)), (POSITION, Value::Sample(0))]));
    let reply = session.ask("/current?at=13").unwrap();
    assert_eq!(packed(&reply), rows(&[(LINE, Value::Event(201)), (POSITION, Value::Sample(10_000))]));
    let reply = session.ask("/current?at=14").unwrap();
    assert_eq!(packed(&reply), rows(&[(LINE, Value::Event(210)), (POSITION, Value::Sample(10_000))]));
    assert_eq!(session.ask("/current?at=11"), Err(17));
    assert_eq!(session.ask("/current?at=20"), Err(18));
}

#[test]
fn a_further_line_pushes_out_the_oldest() {
    let core = core();
    let mut session = eight_places(&core);
    assert_eq!(session.observe(LINE, 20, 20, Value::Event(230)), 20);
    let reply = session.ask("/current?at=13").unwrap();
    assert_eq!(reply[..4], [2, 13, 20, 21]);
    assert_eq!(numbers(&reply), [11, 13]);
    assert_eq!(packed(&reply)[0], Value::Event(201).packed(LINE, Clean));
    assert_eq!(session.ask("/current?at=12"), Err(17));
    // 13 rolls off: from now on 210 is the oldest line that can be asked for.
    assert_eq!(session.observe(POSITION, 21, 21, Value::Sample(23_000)), 21);
    let reply = session.ask("/current?at=14").unwrap();
    assert_eq!(reply[1], 14);
    assert_eq!(packed(&reply), rows(&[(LINE, Value::Event(210)), (POSITION, Value::Sample(10_000))]));
}

// 5.8.2, 5.9 and 5.10: windows over one table, without and with a path.

const X: u64 = 0;
const Y: u64 = 1;
const Z: u64 = 2;
const C: u64 = 3;
const AVAILABILITY: u64 = 4;

/// The table from 102 on, in thousandths. At 116 and 117 it repeats the value before, which 5.8
/// forbids: half a unit is added there.
const TABLE: [(u64, i32); 25] = [
    (AVAILABILITY, 1),
    (Y, 25_000),
    (Z, 1_000),
    (C, 0),
    (X, 11_000),
    (Y, 24_000),
    (Z, 1_100),
    (C, 1_000_000),
    (X, 12_000),
    (Y, 23_000),
    (Z, 1_200),
    (X, 13_000),
    (Y, 22_000),
    (X, 14_000),
    (Y, 22_500),
    (X, 14_500),
    (Z, 1_300),
    (X, 15_000),
    (Y, 21_000),
    (Z, 1_400),
    (C, 0),
    (X, 10_000),
    (Y, 15_000),
    (Z, 0),
    (AVAILABILITY, 0),
];

const FILTER: &str = "&path=//Device//DataItem[@type=\"AVAILABILITY\"]";

/// Numbered from 97, so that 101 is the availability's start.
fn mill(core: &UnderTest) -> Tested<'_> {
    let names = names(&["Device", "Axes", "Linear", "Rotary", "POSITION", "SPINDLE_SPEED", "AVAILABILITY"]);
    let model = [
        6,
        5,
        component(0, 0),
        component(0, 1),
        component(1, 2),
        component(1, 2),
        component(1, 2),
        component(1, 3),
        item(0, 2, 4),
        item(0, 3, 4),
        item(0, 4, 4),
        item(0, 5, 5),
        item(1, 0, 6),
    ];
    let mut session = begin(core, &start(&model, &names, [64, 1, 97], 1_197_539_040_022));
    for (number, (item, value)) in (102..=126).zip(TABLE) {
        let value = match (item, value) {
            (AVAILABILITY, 0) => Value::Unavailable,
            (AVAILABILITY, code) => Value::Event(code as u32),
            (_, thousandths) => Value::Sample(thousandths),
        };
        assert_eq!(session.observe(item, 1_197_540_000_000 + number, 0, value), number);
    }
    session
}

/// Number of the request's first row, numbers of its rows, next.
fn window(session: &mut Tested, query: &str, filter: &str) -> (Vec<u64>, u64) {
    let reply = session.ask(format!("/sample?{query}{filter}")).unwrap();
    (numbers(&reply).to_vec(), reply[3])
}

#[test]
fn windows_without_a_path() {
    let core = core();
    let mut session = mill(&core);
    let mut window = |query| window(&mut session, query, "");
    assert_eq!(window("from=101&count=12"), ((101..=112).collect(), 113));
    assert_eq!(window("from=113&count=10"), ((113..=122).collect(), 123));
    assert_eq!(window("from=123&count=10"), ((123..=126).collect(), 127));
    assert_eq!(window("from=127&count=10"), (vec![], 127));
    assert_eq!(session.ask("/sample?from=128&count=10"), Err(18));
}

#[test]
fn windows_with_a_path() {
    let core = core();
    let mut session = mill(&core);
    let mut window = |query| window(&mut session, query, FILTER);
    assert_eq!(window("from=101&count=12"), (vec![101, 102], 113));
    assert_eq!(window("from=113&count=10"), (vec![], 123));
    assert_eq!(window("from=123&count=10"), (vec![126], 127));
    assert_eq!(window("from=127&count=10"), (vec![], 127));
}

#[test]
fn a_component_type_selects_with_its_ancestors() {
    let core = core();
    let mut session = mill(&core);
    let linear = window(&mut session, "from=101&count=12", "&path=//Linear");
    assert_eq!(linear, (vec![103, 104, 106, 107, 108, 110, 111, 112], 113));
    let axes = window(&mut session, "from=101&count=12", "&path=//Axes");
    assert_eq!(axes, ((103..=112).collect(), 113));
    let speed = window(&mut session, "from=101&count=12", "&path=//Axes//DataItem[@type=\"SPINDLE_SPEED\"]");
    assert_eq!(speed, (vec![105, 109], 113));
}

#[test]
fn current_has_the_number_after_the_last() {
    let core = core();
    let mut session = mill(&core);
    let reply = session.ask(format!("/current?{}", &FILTER[1..])).unwrap();
    assert_eq!(reply, [1, 97, 126, 127, 126, 1_197_540_000_126, AVAILABILITY << 40]);
}
