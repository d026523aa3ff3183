//! Several conditions on one item: what observe answers, what `current` shows, and what `at` shows later.

mod common;

use common::Rng;
use mtcore::{
    Agent, Category, Component, Level, Model, ModelBuilder, Observed, Record, Refusal, Reply, Row, Sizes,
    Value, MAX_ACTIVE,
};

const PLACES: usize = 12;
const ITEMS: usize = 3;
const SERVO: u64 = 0;
const POSITION: u64 = 1;
const SPINDLE: u64 = 2;
const SIZES: Sizes = Sizes { places: PLACES as u64, cells: 1, origin: 1 };

type Mill = Agent<Vec<u32>, Vec<u8>, Vec<u64>, Vec<u8>>;

/// Two conditions with a sample between them.
fn mill(sizes: Sizes) -> Mill {
    let (mut words, mut names) = ([0; mtcore::model_words(2, ITEMS)], [0; mtcore::name_bytes(5)]);
    let mut build = ModelBuilder::new(&mut words, &mut names, "Device").unwrap();
    let axes = build.component(Component::DEVICE, "Axes").unwrap();
    build.item(axes, Category::Condition, "ACTUATOR").unwrap();
    build.item(axes, Category::Sample, "POSITION").unwrap();
    build.item(Component::DEVICE, Category::Condition, "SYSTEM").unwrap();
    let built = build.finish().unwrap();
    let model = Model::new(built.words().to_vec(), built.names().to_vec()).unwrap();
    let (observations, assets) =
        (vec![0; mtcore::observation_words(PLACES, ITEMS)], vec![0; mtcore::asset_bytes(1)]);
    Agent::start(model, observations, assets, sizes, 9).unwrap()
}

const fn normal(code: u32) -> Value {
    Value::Condition(Level::Normal, code)
}

const fn warning(code: u32) -> Value {
    Value::Condition(Level::Warning, code)
}

const fn fault(code: u32) -> Value {
    Value::Condition(Level::Fault, code)
}

/// The rows of a request that is answered with observations.
fn rows(mill: &Mill, text: &str) -> Vec<Row> {
    let mut reply = vec![0; mill.reply_words(0)];
    match mill.request(text.as_bytes(), &mut reply) {
        Ok(Reply::Observations(read)) => read.rows().collect(),
        other => panic!("{text}: {other:?}"),
    }
}

/// Number and value of each row that current gives for an item.
fn standing(mill: &Mill, item: u64) -> Vec<(u64, Value)> {
    let mut reply = vec![0; mill.reply_words(0)];
    let Ok(Reply::Observations(read)) = mill.request(b"/current", &mut reply) else {
        panic!("current is answered");
    };
    let checked = |row: Row| (row.number, mill.model().checked(row).unwrap().1);
    read.rows_of(item).map(checked).collect()
}

/// An observation, its answer, and number and value of what stands then.
type Step<'a> = (Value, Result<Observed, Refusal>, &'a [(u64, Value)]);

/// Each observation in turn, what it is answered with, and what stands then. An empty list: as before.
#[test]
fn raised_replaced_and_cleared() {
    const NONE: Value = Value::Unavailable;
    let (recorded, same) = (|number| Ok(Observed::Recorded(number)), Ok(Observed::Same));
    let steps: [Step; 20] = [
        (NONE, same, &[(1, NONE)]),
        (normal(7), same, &[(1, NONE)]),
        (normal(0), recorded(4), &[(4, normal(0))]),
        (normal(0), same, &[]),
        (warning(77), recorded(5), &[(5, warning(77))]),
        (fault(502), recorded(6), &[(5, warning(77)), (6, fault(502))]),
        (fault(502), same, &[]),
        (fault(77), recorded(7), &[(7, fault(77)), (6, fault(502))]),
        (normal(7), same, &[]),
        (warning(0), recorded(8), &[(7, fault(77)), (6, fault(502)), (8, warning(0))]),
        (normal(502), recorded(9), &[(7, fault(77)), (8, warning(0))]),
        (warning(502), recorded(10), &[(7, fault(77)), (8, warning(0)), (10, warning(502))]),
        (normal(0), recorded(11), &[(11, normal(0))]),
        (warning(3), recorded(12), &[(12, warning(3))]),
        (normal(3), recorded(13), &[(13, normal(3))]),
        (normal(0), same, &[]),
        (fault(4), recorded(14), &[(14, fault(4))]),
        (NONE, recorded(15), &[(15, NONE)]),
        (fault(4), recorded(16), &[(16, fault(4))]),
        (Value::Condition(Level::Fault, 1 << 24), Err(Refusal::Kind), &[]),
    ];
    let mut mill = mill(SIZES);
    let mut stands = Vec::new();
    for (place, (value, answer, rows)) in steps.into_iter().enumerate() {
        assert_eq!(mill.observe(SERVO, 0, 10, value), answer, "step {place}");
        stands = if rows.is_empty() { stands } else { rows.to_vec() };
        assert_eq!(standing(&mill, SERVO), stands, "step {place}");
        assert_eq!(standing(&mill, SPINDLE), [(3, NONE)], "step {place}");
    }
}

/// Eight stand; a ninth changes nothing, until one of them is cleared, and goes behind the others then.
#[test]
fn a_ninth_code_is_refused() {
    let mut mill = mill(SIZES);
    let last = MAX_ACTIVE as u32;
    let records: Vec<_> = (0..=last).map(|code| Record::new(SERVO, 0, warning(code))).collect();
    let mut words = [0; MAX_ACTIVE + 1];
    let answers = mill.observe_batch(&records, 10, &mut words).unwrap();
    assert!(answers.iter().take(MAX_ACTIVE).eq((4..).take(MAX_ACTIVE).map(|n| Ok(Observed::Recorded(n)))));
    assert_eq!(answers.get(MAX_ACTIVE), Some(Err(Refusal::Crowded)));
    let before = mill.observations().to_vec();
    for value in [warning(last), fault(last), fault(u32::MAX >> 8)] {
        assert_eq!(mill.observe(SERVO, 0, 11, value), Err(Refusal::Crowded));
    }
    for value in [warning(0), normal(last)] {
        assert_eq!(mill.observe(SERVO, 0, 11, value), Ok(Observed::Same));
    }
    assert_eq!(mill.observations(), before);
    assert_eq!(mill.observe(SERVO, 0, 11, fault(5)), Ok(Observed::Recorded(12)));
    assert_eq!(mill.observe(SPINDLE, 0, 11, warning(last)), Ok(Observed::Recorded(13)));
    assert_eq!(mill.observe(SERVO, 0, 11, normal(2)), Ok(Observed::Recorded(14)));
    assert_eq!(mill.observe(SERVO, 0, 11, warning(last)), Ok(Observed::Recorded(15)));
    let stands = [(4, 0), (5, 1), (7, 3), (8, 4), (12, 5), (10, 6), (11, 7), (15, last)];
    let of = |(number, code)| (number, if code == 5 { fault(code) } else { warning(code) });
    assert_eq!(standing(&mill, SERVO), stands.map(of));
}

/// At the last number: Same first, then crowded, then spent.
#[test]
fn crowded_before_spent() {
    let last = (1 << 63) - 1;
    let mut mill = mill(Sizes { origin: last - (ITEMS + MAX_ACTIVE) as u64 + 1, ..SIZES });
    for code in 0..MAX_ACTIVE as u32 {
        assert!(mill.observe(SERVO, 0, 10, warning(code)).is_ok());
    }
    let mut answer = |value| mill.observe(SERVO, 0, 10, value);
    assert_eq!(answer(warning(7)), Ok(Observed::Same));
    assert_eq!(answer(warning(8)), Err(Refusal::Crowded));
    for value in [fault(7), normal(7), normal(0), Value::Unavailable] {
        assert_eq!(answer(value), Err(Refusal::Spent), "{value:?}");
    }
    assert_eq!(answer(Value::Sample(7)), Err(Refusal::Kind));
}

/// Mostly raised, so that items fill up.
fn some_value(rng: &mut Rng) -> Value {
    let code = rng.below(12) as u32;
    match rng.below(40) {
        0 => Value::Unavailable,
        1 => normal(0),
        2..12 => normal(code),
        _ => rng.pick(&[warning(code), fault(code)]),
    }
}

/// While a number is held, `at` gives the rows that current gave when it was the newest, whatever has left
/// the ring since.
#[test]
fn at_shows_what_current_showed() {
    let mut rng = Rng::new(5);
    let mut mill = mill(SIZES);
    let mut shown = vec![None; ITEMS];
    shown.push(Some(rows(&mill, "/current")));
    let (mut most, mut crowded) = (0, 0);
    for step in 0..4000 {
        let item = rng.below(3);
        let value = if item == POSITION { Value::Sample(step) } else { some_value(&mut rng) };
        match mill.observe(item, 0, step as u64, value) {
            Ok(Observed::Recorded(number)) => {
                assert_eq!(number, shown.len() as u64);
                shown.push(Some(rows(&mill, "/current")));
            }
            Ok(Observed::Same) => {}
            Err(refusal) => {
                assert_eq!(refusal, Refusal::Crowded);
                crowded += 1;
            }
        }
        let first = shown.len().saturating_sub(PLACES).max(1);
        for (number, then) in shown.iter().enumerate().skip(first) {
            if let Some(then) = then {
                assert_eq!(&rows(&mill, &format!("/current?at={number}")), then, "{number}");
                most = most.max(then.len());
            }
        }
    }
    assert!(most == mtcore::current_rows(ITEMS, 2) && crowded > 50, "{most} rows, {crowded} crowded");
}

/// Entries that no call would have left are refused by the calls that need them, behind the value and before
/// Same, and by no others.
#[test]
fn entries_that_break_their_form() {
    let mut good = mill(SIZES);
    for (value, number) in [(warning(7), 4), (fault(8), 5)] {
        assert_eq!(good.observe(SERVO, 0, 10, value), Ok(Observed::Recorded(number)));
    }
    let (model, store, assets) = good.into_parts();
    let latest = 4 + 2 * PLACES; // numbers; then times, then packed words, eight of each item
    let (times, packed) = (latest + 8 * ITEMS, latest + 16 * ITEMS);
    let servo = SERVO << 40;
    for (place, word) in [
        (latest, 0),                                     // a gap before an entry
        (times + 2, 1),                                  // a word behind the entries
        (packed + 1, servo + warning(7).word()),         // a code twice
        (packed + 1, servo + normal(8).word()),          // not active
        (packed, (1 << 40) + warning(7).word()),         // another item's
        (packed + 1, servo + (3 << 32) + (3 << 24) + 8), // no level
    ] {
        let mut damaged = store.clone();
        damaged[place] = word;
        let mut mill = Agent::resume(model.clone(), damaged.clone(), assets.clone()).unwrap();
        for value in [fault(8), normal(0), Value::Unavailable] {
            assert_eq!(mill.observe(SERVO, 0, 11, value), Err(Refusal::Store), "{place} {value:?}");
        }
        assert_eq!(mill.observe(SERVO, 0, 11, Value::Sample(1)), Err(Refusal::Kind));
        let mut reply = vec![0; mill.reply_words(0)];
        assert_eq!(mill.request(b"/current", &mut reply).err(), Some(Refusal::Store), "{place}");
        assert_eq!(mill.request(b"/current", &mut []).err(), Some(Refusal::Store), "{place}");
        assert_eq!(mill.observations(), damaged);
        let system = "/current?path=//Device//DataItem[@type=\"SYSTEM\"]";
        assert_eq!((rows(&mill, system).len(), rows(&mill, "/sample").len()), (1, 5));
        assert_eq!(rows(&mill, "/current?at=5").len(), 4);
        assert!(mill.observe(SPINDLE, 0, 11, fault(8)).is_ok());
    }
}

/// A saved store of layout 1 had six words for each item: it is refused for its length, and stays as it is.
#[test]
fn stores_of_layout_one_are_refused() {
    let (model, _, assets) = mill(SIZES).into_parts();
    let mut old = vec![0; 4 + 2 * PLACES + 6 * ITEMS];
    old[..4].copy_from_slice(&[PLACES as u64, ITEMS as u64, 1, 90]);
    assert_eq!(Agent::resume(model.clone(), old.clone(), assets.clone()).err(), Some(Refusal::Store));
    let kept = old.clone();
    let observed = mtcore::observe(model.words(), model.names(), &mut old, SERVO, 0, 11, fault(8));
    assert_eq!((observed, old), (Err(Refusal::Store), kept.clone()));
    // A start behind its last number: a client that was level goes on, and one that was not is late.
    let mill = mill(Sizes { origin: kept[3] + 1, ..SIZES });
    assert_eq!(rows(&mill, "/sample?from=91").iter().map(|row| row.number).collect::<Vec<_>>(), [91, 92, 93]);
    let mut reply = vec![0; mill.reply_words(0)];
    assert_eq!(mill.request(b"/sample?from=90", &mut reply).err(), Some(Refusal::Late));
}
