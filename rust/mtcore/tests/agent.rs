//! The agent answers as the plain functions do, over owned and lent buffers, and replies need no more
//! than the sizes say.

mod common;

use common::Rng;
use mtcore::{
    Agent, Assets, Category, Component, LentAgent, Level, Model, ModelBuilder, Observations, Observed,
    Record, Refusal, Reply, Sizes, Value, MAX_BATCH,
};

const PLACES: usize = 7;
const CELLS: usize = 3;
const ITEMS: usize = 5;
const EVENT: u64 = 0;
const CONDITION: u64 = 2;
const DISCRETE: u64 = 4;
const SIZES: Sizes = Sizes { places: PLACES as u64, cells: CELLS as u64, origin: 5 };

type Owned = Model<Vec<u32>, Vec<u8>>;

fn model() -> Owned {
    let (mut words, mut names) = ([0; mtcore::model_words(2, ITEMS)], [0; mtcore::name_bytes(7)]);
    let mut build = ModelBuilder::new(&mut words, &mut names, "Device").unwrap();
    let axes = build.component(Component::DEVICE, "Axes").unwrap();
    build.item(Component::DEVICE, Category::Event, "AVAILABILITY").unwrap();
    build.item(axes, Category::Sample, "POSITION").unwrap();
    build.item(axes, Category::Condition, "OVERTRAVEL").unwrap();
    build.item(Component::DEVICE, Category::AssetChange, "ASSET_CHANGED").unwrap();
    build.item(Component::DEVICE, Category::Discrete, "MESSAGE").unwrap();
    let model = build.finish().unwrap();
    Model::new(model.words().to_vec(), model.names().to_vec()).unwrap()
}

fn stores() -> (Vec<u64>, Vec<u8>) {
    (vec![0; mtcore::observation_words(PLACES, ITEMS)], vec![0; mtcore::asset_bytes(CELLS)])
}

fn value(rng: &mut Rng) -> Value {
    let code = rng.below(4) as u32;
    match rng.below(5) {
        0 => Value::Unavailable,
        1 => Value::Sample(code as i32 - 2),
        2 => Value::Event(code),
        3 => Value::Condition(rng.pick(&[Level::Normal, Level::Warning]), rng.below(12) as u32),
        _ => Value::Condition(Level::Fault, code << 23),
    }
}

const TEXTS: [&str; 16] = [
    "/sample",
    "/sample?count=2",
    "/sample?count=8",
    "/sample?from=9&count=3&path=//Axes",
    "/sample?path=//Device//DataItem[@type=\"ASSET_CHANGED\"]",
    "/sample?from=1000",
    "/sample?",
    "/current",
    "/current?at=12",
    "/current?path=//Axes",
    "/current?interval=5",
    "/assets",
    "/asset/T1",
    "/asset/T0;T1;T0",
    "/probe",
    "sample",
];

/// The same calls, through an agent over owned stores and through the plain functions.
#[test]
fn agent_and_plain_functions_agree() {
    let mut rng = Rng::new(12);
    let (owned, (mut observations, mut assets)) = (model(), stores());
    let (words, names) = (owned.words().to_vec(), owned.names().to_vec());
    mtcore::start(&words, &names, &mut observations, &mut assets, SIZES, 9).unwrap();
    let (o, a) = stores();
    let mut agent = Agent::start(owned, o, a, SIZES, 9).unwrap();
    for step in 10..4000 {
        match rng.below(3) {
            0 => {
                let (item, time, value) = (rng.below(6), rng.below(2) * step, value(&mut rng));
                let plain = mtcore::observe(&words, &names, &mut observations, item, time, step, value);
                assert_eq!(agent.observe(item, time, step, value), plain);
            }
            1 if rng.below(4) == 0 => {
                let id = [b'T', rng.pick(b"0123;")];
                let plain =
                    mtcore::store_asset(&words, &names, &mut observations, &mut assets, &id, b"body", step);
                assert_eq!(agent.store_asset(&id, b"body", step), plain);
                assert_eq!(agent.body(&id), mtcore::body(&assets, &id));
            }
            _ => {
                let text = rng.pick(&TEXTS).as_bytes();
                let (mut left, mut right) = ([3; 40], [3; 40]);
                let plain = mtcore::request(&words, &names, &observations, &assets, text, &mut left);
                let reply = agent.request(text, &mut right);
                assert_eq!(reply.map(|reply| reply.len() as u64), plain);
                assert_eq!(left, right);
            }
        }
        assert_eq!((agent.observations(), agent.assets()), (&observations[..], &assets[..]));
    }
}

/// Deliveries of all lengths give what the single observes of their records give, in answers and store; a
/// refused one changes nothing, and words behind the answers stay.
#[test]
fn deliveries_are_their_single_observes() {
    const BLANK: u64 = 77;
    let mut rng = Rng::new(31);
    let start = || {
        let (o, a) = stores();
        Agent::start(model(), o, a, SIZES, 9).unwrap()
    };
    let (mut delivered, mut single) = (start(), start());
    let mut seen = [0; 3];
    for host in 10..400 {
        let length = rng.pick(&[0, 1, 2, 3, 8, 60, MAX_BATCH, MAX_BATCH + 1]);
        let record = |rng: &mut Rng| {
            let time = rng.below(2) * rng.below(1000);
            let word = if rng.below(20) == 0 { rng.next() } else { value(rng).word() };
            Record { item: rng.below(6), time, value: word }
        };
        let records: Vec<_> = (0..length).map(|_| record(&mut rng)).collect();
        let room = (length + rng.below(4) as usize).saturating_sub(1);
        let (mut answers, before) = (vec![BLANK; room], single.observations().to_vec());
        let given = delivered.observe_batch(&records, host, &mut answers);
        let refusal = match (length > MAX_BATCH, room < length) {
            (true, _) => Some(Refusal::Batch),
            (_, true) => Some(Refusal::Space),
            _ => None,
        };
        if let Some(refusal) = refusal {
            assert_eq!(given, Err(refusal));
            assert_eq!(delivered.observations(), before);
            assert!(answers.iter().all(|&word| word == BLANK));
            continue;
        }
        let given: Vec<_> = given.unwrap().iter().collect();
        let one_by_one: Vec<_> = records.iter().map(|record| observe(&mut single, record, host)).collect();
        assert_eq!(given, one_by_one);
        assert_eq!(delivered.observations(), single.observations());
        assert!(answers[length..].iter().all(|&word| word == BLANK));
        for answer in given {
            seen[answer.map_or(2, |observed| usize::from(observed == Observed::Same))] += 1;
        }
    }
    assert!(seen.iter().all(|&times| times > 100), "recorded, Same, refused: {seen:?}");
}

type Lathe = Agent<Vec<u32>, Vec<u8>, Vec<u64>, Vec<u8>>;

/// The single observe of a record; a word that no value has is given as one that every item refuses.
fn observe(agent: &mut Lathe, record: &Record, host: u64) -> Result<Observed, Refusal> {
    let none = Value::Condition(Level::Fault, u32::MAX);
    agent.observe(record.item, record.time, host, Value::from_word(record.value).unwrap_or(none))
}

/// A wrong model comes before a wrong head, this before too many records, and these before too few answers.
#[test]
fn deliveries_are_refused_in_order() {
    let owned = model();
    let ((mut observations, mut assets), wrong) = (stores(), vec![9; 8]);
    mtcore::start(owned.words(), owned.names(), &mut observations, &mut assets, SIZES, 9).unwrap();
    let damaged: Vec<_> = [0].into_iter().chain(observations[1..].iter().copied()).collect();
    let record = Record::new(1, 0, Value::Sample(5));
    let (some, most) = (vec![record; MAX_BATCH + 1], vec![record; MAX_BATCH]);
    let none: Vec<Record> = Vec::new();
    let deliver = |words: &[u32], store: &[u64], records: &[Record], room: usize| {
        let (mut store, mut answers) = (store.to_vec(), vec![3; room]);
        let given = mtcore::observe_batch(words, owned.names(), &mut store, records, 10, &mut answers);
        let given = given.map(|answers| answers.len());
        (given, store, answers)
    };
    let refused = |words: &[u32], store: &[u64], records: &[Record], room: usize, refusal| {
        assert_eq!(deliver(words, store, records, room), (Err(refusal), store.to_vec(), vec![3; room]));
    };
    let right = owned.words();
    refused(&wrong, &damaged, &some, 0, Refusal::Model);
    refused(&wrong, &damaged, &none, 0, Refusal::Model);
    refused(right, &damaged, &some, 0, Refusal::Store);
    refused(right, &damaged, &none, 0, Refusal::Store);
    refused(right, &observations[1..], &some, 0, Refusal::Store);
    refused(right, &observations, &some, 0, Refusal::Batch);
    refused(right, &observations, &some, MAX_BATCH + 1, Refusal::Batch);
    refused(right, &observations, &most, MAX_BATCH - 1, Refusal::Space);
    assert_eq!(deliver(right, &observations, &none, 0), (Ok(0), observations.clone(), vec![]));
    assert_eq!(deliver(right, &observations, &none, 2), (Ok(0), observations.clone(), vec![3, 3]));
    let (given, store, answers) = deliver(right, &observations, &most, MAX_BATCH);
    assert_eq!((given, store[3], answers[0]), (Ok(MAX_BATCH), 10, 10));
    assert!(answers[1..].iter().all(|&word| word == 0));
}

/// Numbers run out inside a delivery: what is the same as before is still Same, the rest is spent, an
/// Unavailable of a discrete item too.
#[test]
fn numbers_run_out_inside_a_delivery() {
    let last = (1 << 63) - 1;
    let (o, a) = stores();
    let sizes = Sizes { origin: last - ITEMS as u64, ..SIZES };
    let mut agent = Agent::start(model(), o, a, sizes, 9).unwrap();
    let mut records = [4, 4, 5, 4].map(|thousandths| Record::new(1, 0, Value::Sample(thousandths))).to_vec();
    records.extend([EVENT, DISCRETE].map(|item| Record::new(item, 0, Value::Unavailable)));
    let mut words = [0; 6];
    let answers = agent.observe_batch(&records, 10, &mut words).unwrap();
    let (same, spent) = (Ok(Observed::Same), Err(Refusal::Spent));
    let expected = [Ok(Observed::Recorded(last)), same, spent, same, same, spent];
    assert_eq!(answers.iter().collect::<Vec<_>>(), expected);
}

/// What a category holds is what the core takes for its items; only asset changes are not observed.
#[test]
fn categories_hold_what_is_taken() {
    let codes = [0, 1, (1 << 24) - 1, 1 << 24, u32::MAX];
    let levels = [Level::Normal, Level::Warning, Level::Fault];
    let conditions = levels.into_iter().flat_map(|level| codes.map(|code| Value::Condition(level, code)));
    let others = codes.into_iter().flat_map(|code| [Value::Event(code), Value::Sample(code as i32)]);
    let (o, a) = stores();
    let mut agent = Agent::start(model(), o, a, SIZES, 9).unwrap();
    for value in conditions.chain(others).chain([Value::Unavailable]) {
        for item in 0..ITEMS as u64 {
            let category = agent.model().category(item).unwrap();
            let taken = agent.observe(item, 0, 1, value) != Err(Refusal::Kind);
            let expected = category.holds(value) && category != Category::AssetChange;
            assert_eq!(taken, expected, "{category:?} {value:?}");
        }
    }
    assert!(Category::AssetChange.holds(Value::Event(2)) && !Category::AssetChange.holds(Value::Sample(2)));
}

/// Each observation of a discrete item takes a number, whatever it equals; an event item's is Same.
#[test]
fn discrete_events_count_when_equal() {
    let (o, a) = stores();
    let mut agent = Agent::start(model(), o, a, SIZES, 9).unwrap();
    let none = Value::Unavailable;
    let values = [none, none, Value::Event(7), Value::Event(7), Value::Event(7), Value::Event(0), none, none];
    // Of the event item only a change is recorded; start's own Unavailable is the first value.
    let mut next = SIZES.origin + ITEMS as u64;
    let mut number = || {
        next += 1;
        Ok(Observed::Recorded(next - 1))
    };
    let mut newest = none;
    for value in values {
        assert_eq!(agent.observe(DISCRETE, 0, 10, value), number(), "{value:?}");
        let expected = if value == newest { Ok(Observed::Same) } else { number() };
        assert_eq!(agent.observe(EVENT, 0, 10, value), expected, "{value:?}");
        newest = value;
    }
    for other in [Value::Sample(7), Value::Condition(Level::Normal, 0)] {
        assert_eq!(agent.observe(DISCRETE, 0, 10, other), Err(Refusal::Kind));
    }
}

/// The same in deliveries: as many equal records as there may be take as many numbers and leave no other
/// in the ring, and the last of them is the item's newest.
#[test]
fn deliveries_of_equal_discrete_events() {
    let (o, a) = stores();
    let mut agent = Agent::start(model(), o, a, SIZES, 9).unwrap();
    let mut words = [0; MAX_BATCH];
    let mut last = agent.observations()[3];
    for value in [Value::Unavailable, Value::Event(1), Value::Event(1), Value::Unavailable] {
        let answers =
            agent.observe_batch(&[Record::new(DISCRETE, 20, value); MAX_BATCH], 30, &mut words).unwrap();
        assert!(answers.iter().eq((last + 1..).take(MAX_BATCH).map(|number| Ok(Observed::Recorded(number)))));
        last += MAX_BATCH as u64;
        let mut reply = [0; 40];
        let Ok(Reply::Observations(sample)) = agent.request(b"/sample", &mut reply) else {
            panic!("sample is answered");
        };
        assert_eq!((sample.len(), sample.last), (PLACES, last));
        assert!(sample.rows().all(|row| agent.model().checked(row) == Some((DISCRETE as usize, value))));
        let Ok(Reply::Observations(current)) = agent.request(b"/current", &mut reply) else {
            panic!("current is answered");
        };
        assert_eq!(current.row(DISCRETE as usize).map(|row| row.number), Some(last));
    }
    let event = [Record::new(EVENT, 20, Value::Event(1)); MAX_BATCH];
    let answers = agent.observe_batch(&event, 30, &mut words).unwrap();
    assert_eq!(answers.get(0), Some(Ok(Observed::Recorded(last + 1))));
    assert!(answers.iter().skip(1).all(|answer| answer == Ok(Observed::Same)));
}

/// What a number gets that has to be from `first` to `end`.
fn between(number: u64, first: u64, end: u64) -> Result<(), Refusal> {
    match number {
        _ if number < first => Err(Refusal::Late),
        _ if number > end => Err(Refusal::Early),
        _ => Ok(()),
    }
}

/// The lowest and the newest number that the ring holds, from the store's own words.
fn held(agent: &Lathe) -> (u64, u64) {
    let last = agent.observations()[3];
    (SIZES.origin.max(last + 1 - SIZES.places), last)
}

/// Both parameters at every number, while the ring fills and behind that. Below first is late, also where no
/// start gave the number out; `from` may be 0 or last + 1, `at` neither. What is refused writes no word.
#[test]
fn late_below_first_and_early_behind_the_end() {
    let (o, a) = stores();
    let mut agent = Agent::start(model(), o, a, SIZES, 9).unwrap();
    for step in 0..20 {
        let (first, last) = held(&agent);
        for number in (0..last + 5).chain([1 << 32, (1 << 63) - 1]) {
            let from = if number == 0 { Ok(()) } else { between(number, first, last + 1) };
            let asked = [("/sample?from=", from), ("/current?at=", between(number, first, last))];
            for (parameter, expected) in asked {
                let (text, mut reply) = (format!("{parameter}{number}"), [3; 40]);
                assert_eq!(agent.request(text.as_bytes(), &mut reply).map(|_| ()), expected, "{text}");
                assert_eq!(reply == [3; 40], expected.is_err(), "{text}");
            }
        }
        agent.observe(1, 0, step, Value::Sample(step as i32)).unwrap();
    }
    assert_eq!(held(&agent), (23, 29));
}

/// Some request that is answered with observations, where the ring holds these numbers.
fn answered(rng: &mut Rng, first: u64, last: u64) -> String {
    let number = first + rng.below(last + 1 - first);
    match rng.below(4) {
        0 => "/current".to_string(),
        1 => format!("/current?at={number}"),
        2 => format!("/sample?from={number}&count=2"),
        _ => "/sample?count=1&path=//Axes".to_string(),
    }
}

/// A number that a reply gave as next is neither late nor early while it is at least first, and late at each
/// poll from it behind that, whatever its path and count.
#[test]
fn clients_that_fall_behind_are_late() {
    let polls = ["", "&count=1", "&count=7", "&path=//Axes", "&path=//Device//DataItem[@type=\"MESSAGE\"]"];
    let mut rng = Rng::new(17);
    let (o, a) = stores();
    let mut agent = Agent::start(model(), o, a, SIZES, 9).unwrap();
    let (mut given, mut seen) = (Vec::new(), [0; 2]);
    for step in 0..1000 {
        if rng.below(3) == 0 {
            agent.observe(1, 0, step, Value::Sample(step as i32)).unwrap();
        }
        let (first, last) = held(&agent);
        let (text, mut reply) = (answered(&mut rng, first, last), [0; 40]);
        let Ok(Reply::Observations(read)) = agent.request(text.as_bytes(), &mut reply) else {
            panic!("{text} is answered");
        };
        given.push(read.next);
        for &next in given.iter().rev().take(40) {
            let text = format!("/sample?from={next}{}", rng.pick(&polls));
            let expected = if next < first { Err(Refusal::Late) } else { Ok(()) };
            assert_eq!(agent.request(text.as_bytes(), &mut reply).map(|_| ()), expected, "{text}");
            seen[usize::from(next < first)] += 1;
        }
    }
    assert!(seen.iter().all(|&times| times > 1000), "answered, late: {seen:?}");
}

/// Both stand where the text's count and path are past, and the ring and the reply are not looked at yet.
#[test]
fn late_and_early_in_the_order_of_refusals() {
    let (o, a) = stores();
    let mut agent = Agent::start(model(), o, a, SIZES, 9).unwrap();
    for step in 0..10 {
        agent.observe(1, 0, step, Value::Sample(step as i32)).unwrap();
    }
    let (first, last) = held(&agent);
    let (owned, good, assets) = agent.into_parts();
    let mut damaged = good.clone();
    damaged[4 + PLACES..4 + 2 * PLACES].fill(u64::MAX); // the packed words of the ring
    let ask = |store: &[u64], text: &str| {
        mtcore::request(owned.words(), owned.names(), store, &assets, text.as_bytes(), &mut [])
    };
    for (number, refusal) in [(first - 1, Refusal::Late), (last + 2, Refusal::Early)] {
        for text in [format!("/sample?from={number}"), format!("/current?at={number}")] {
            assert_eq!(ask(&damaged, &text), Err(refusal), "{text}");
            assert_eq!(ask(&damaged, &format!("{text}&path=//axes")), Err(Refusal::InvalidXpath), "{text}");
        }
        let both = format!("/sample?from={number}&count=8&path=//axes");
        assert_eq!(ask(&damaged, &both), Err(Refusal::TooMany));
    }
    for text in [format!("/sample?from={first}"), format!("/current?at={last}")] {
        assert_eq!(ask(&damaged, &text), Err(Refusal::Store), "{text}");
        assert_eq!(ask(&good, &text), Err(Refusal::Space), "{text}");
    }
}

/// Refusal 2 does not see these words of a store; the check of a row does.
#[test]
fn rows_that_only_their_check_sees() {
    let (o, a) = stores();
    let agent = Agent::start(model(), o, a, SIZES, 9).unwrap();
    let (owned, good, a) = agent.into_parts();
    let ring = 4 + PLACES;
    let latest = 4 + 2 * PLACES + 16 * ITEMS; // behind eight numbers and eight times of each item
    for (text, place, packed) in [
        ("/sample", ring, 2 << 32), // item 0's first entry: an event, as item 0 is
        ("/sample", ring, 1 << 32), // a sample of an event item
        ("/sample", ring, 9 << 32), // no kind
        ("/sample", ring, (2 << 40) + (3 << 32) + (7 << 24)), // no level
        ("/current", latest, 5 << 40), // no item
        ("/current", latest, u64::MAX),
    ] {
        let mut damaged = good.clone();
        damaged[place] = packed;
        let agent = Agent::resume(owned.clone(), damaged, a.clone()).unwrap();
        let mut reply = [0; 40];
        let Ok(Reply::Observations(read)) = agent.request(text.as_bytes(), &mut reply) else {
            panic!("{text} is answered");
        };
        let row = read.row(0).unwrap();
        assert_eq!((row.packed, agent.model().checked(row).is_some()), (packed, packed == 2 << 32));
        assert!(agent.model().checked(read.row(1).unwrap()).is_some());
    }
}

/// Requests run side by side, each with a reply of its own.
#[test]
fn requests_side_by_side() {
    let (o, a) = stores();
    let agent = std::sync::RwLock::new(Agent::start(model(), o, a, SIZES, 9).unwrap());
    std::thread::scope(|scope| {
        for _ in 0..3 {
            scope.spawn(|| {
                let held = agent.read().unwrap();
                let mut reply = [0; 40];
                assert_eq!(held.request(b"/current", &mut reply).map(|reply| reply.len()), Ok(ITEMS));
            });
        }
    });
    assert!(agent.write().unwrap().observe(1, 0, 10, Value::Sample(3)).is_ok());
}

/// A reply says of itself what it is.
#[test]
fn replies_are_told_apart() {
    let (o, a) = stores();
    let mut agent = Agent::start(model(), o, a, SIZES, 9).unwrap();
    for step in 0..30 {
        agent.observe(1, 0, step, Value::Sample(step as i32)).unwrap();
        agent.store_asset(&[b'T', b'0' + (step % 5) as u8], b"body", step).unwrap();
        for text in TEXTS {
            let mut reply = [0; 40];
            let Ok(read) = agent.request(text.as_bytes(), &mut reply) else {
                continue;
            };
            assert_eq!(matches!(read, Reply::Assets(_)), text.starts_with("/asset"), "{text}");
            assert_eq!(Observations::read(&reply).is_none(), text.starts_with("/asset"), "{text}");
            assert_eq!(Assets::read(&reply).is_some(), text.starts_with("/asset"), "{text}");
        }
    }
}

/// Buffers lent, arrays owned, and stores taken over from one to the other.
#[test]
fn lent_and_owned_buffers() {
    let owned = model();
    let (mut observations, mut assets) =
        ([0; mtcore::observation_words(PLACES, ITEMS)], [0; mtcore::asset_bytes(CELLS)]);
    let lent = Model::new(owned.words(), owned.names()).unwrap();
    let mut first: LentAgent = Agent::start(lent, &mut observations[..], &mut assets[..], SIZES, 9).unwrap();
    first.observe(1, 10, 10, Value::Sample(7)).unwrap();
    first.store_asset(b"T1", b"drill", 11).unwrap();

    let mut second = Agent::resume(lent, observations, assets).unwrap();
    assert_eq!(second.body(b"T1"), Some(&b"drill"[..]));
    assert_eq!((second.cell_id(0), second.cell_body(0)), (Some(&b"T1"[..]), Some(&b"drill"[..])));
    assert_eq!(second.cell_id(1), None);
    let mut reply = [0; 40];
    let Ok(Reply::Observations(read)) = second.request(b"/current?path=//Axes", &mut reply) else {
        panic!("current is answered");
    };
    let row = read.row(0).unwrap();
    assert_eq!((row.number, row.time), (10, 10));
    assert_eq!(second.model().checked(row), Some((1, Value::Sample(7))));

    second.restart(SIZES, 20).unwrap();
    assert_eq!(second.body(b"T1"), None);
    let (_, observations, _) = second.into_parts();
    assert_eq!(observations[3], SIZES.origin + ITEMS as u64 - 1);
}

#[test]
fn starts_that_are_refused() {
    let (o, a) = stores();
    for sizes in [Sizes { places: 6, ..SIZES }, Sizes { cells: 2, ..SIZES }, Sizes { origin: 0, ..SIZES }] {
        assert_eq!(Agent::start(model(), o.clone(), a.clone(), sizes, 1).err(), Some(Refusal::Size));
    }
    let mut agent = Agent::start(model(), o, a, SIZES, 1).unwrap();
    let before = agent.observations().to_vec();
    assert_eq!(agent.restart(Sizes { places: 8, ..SIZES }, 2), Err(Refusal::Size));
    assert_eq!(agent.observations(), before);
}

/// Resume sees heads, lengths, another model's number of items, and lengths of bodies.
#[test]
fn stores_that_cannot_be_resumed() {
    let (o, a) = stores();
    let mut agent = Agent::start(model(), o, a, SIZES, 1).unwrap();
    agent.store_asset(b"T1", b"drill", 2).unwrap();
    let (owned, o, a) = agent.into_parts();
    let resume = |o: &[u64], a: &[u8]| Agent::resume(owned.clone(), o.to_vec(), a.to_vec()).err();
    assert_eq!(resume(&o, &a), None);
    for place in 0..3 {
        let mut head = o.clone();
        head[place] = 0;
        assert_eq!(resume(&head, &a), Some(Refusal::Store), "word {place}");
    }
    for place in 0..2 {
        let mut head = a.clone();
        head[place] = 200;
        assert_eq!(resume(&o, &head), Some(Refusal::Store), "byte {place}");
    }
    let mut body = a.clone();
    body[2 + 32 * CELLS] = 2;
    assert_eq!(resume(&o, &body), Some(Refusal::Store));
    assert_eq!(resume(&o[1..], &a), Some(Refusal::Store));
    assert_eq!(resume(&o, &a[1..]), Some(Refusal::Store));
    let names = owned.names().to_vec();
    let other = Model::new(vec![1, 1, 0, 0], names).unwrap();
    assert_eq!(Agent::resume(other, o, a).err(), Some(Refusal::Store));
}

/// The sizes of replies are enough, and a word less is not, where the ring and the cells are full.
#[test]
fn replies_fill_their_sizes() {
    let (places, cells) = (150, 128);
    let sizes = Sizes { places: places as u64, cells: cells as u64, origin: 1 };
    let (o, a) = (vec![0; mtcore::observation_words(places, ITEMS)], vec![0; mtcore::asset_bytes(cells)]);
    let mut agent = Agent::start(model(), o, a, sizes, 1).unwrap();
    for step in 0..400 {
        agent.observe(1, step, step, Value::Sample(step as i32)).unwrap();
        agent.store_asset(format!("{}", step % 128).as_bytes(), b"body", step).unwrap();
    }
    for code in 0..mtcore::MAX_ACTIVE as u32 {
        agent.observe(CONDITION, 0, 401, Value::Condition(Level::Warning, code)).unwrap();
    }
    let named = format!("/asset/{}", ["1"; mtcore::MAX_NAMED].join(";"));
    let exact: [(&str, usize); 6] = [
        ("/sample", mtcore::sample_words(places, None)),
        ("/sample?count=150", mtcore::sample_words(places, Some(150))),
        ("/sample?count=1", mtcore::sample_words(places, Some(1))),
        ("/current", mtcore::reply_words(mtcore::current_rows(ITEMS, 1))),
        ("/assets", mtcore::assets_words(cells)),
        (&named, mtcore::asset_reply_words(mtcore::MAX_NAMED)),
    ];
    for (text, words) in exact {
        let mut reply = vec![0; words];
        assert!(agent.request(text.as_bytes(), &mut reply).is_ok(), "{text}");
        let refused = agent.request(text.as_bytes(), &mut reply[1..]).err();
        assert_eq!(refused, Some(Refusal::Space), "{text}");
        assert!(agent.reply_words(150) >= words);
    }
    assert_eq!(mtcore::current_words(1), mtcore::reply_words(mtcore::current_rows(1, 1)));
    assert_eq!(agent.reply_words(0), mtcore::sample_words(places, None));
    assert_eq!(agent.reply_words(1000), mtcore::sample_words(places, Some(150)));
}
