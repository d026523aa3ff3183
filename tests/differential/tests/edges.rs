//! Edges of sizes, numbers, times, buffers and slices, each tried through.

use differential::call::{Answer, Call, Start};
use differential::fixture::{begin, core, discrete_model, names, plain_model, start, Tested};
use differential::pair::Pair;
use differential::rng::Rng;
use differential::under_test::UnderTest;
use differential::{offers, settings, worlds};
use reference::{Record, Value};

const END: u64 = 1 << 63;

fn one_name() -> Vec<u8> {
    names(&["Device"])
}

/// Every request that the numbers held can tell apart, around both ends.
fn ask_all(session: &mut Tested) {
    let (first, last, n) = (session.machine.first(), session.machine.last(), session.machine.places());
    let _ = session.ask("/sample");
    let _ = session.ask("/current");
    for number in (first.saturating_sub(2)..=last + 2).chain([0, 1]) {
        let _ = session.ask(format!("/current?at={number}"));
        for count in 1..=(n + 1).min(6) {
            let _ = session.ask(format!("/sample?from={number}&count={count}"));
        }
    }
}

/// Small rings, also smaller than the number of items, from start over several turns.
#[test]
fn small_rings_through_several_turns() {
    let core = core();
    let mut rng = Rng::new(settings::seed());
    for m in 1..=5u64 {
        for n in 1..=6 {
            for b in [1, 2, 3, n, n + 1, 1000, END - m - 14] {
                for model in [plain_model(m as u32, m > 2), discrete_model(m as u32, m > 2)] {
                    turn(&core, &mut rng, &model, n, b);
                }
            }
        }
    }
}

/// Turns a small ring over, with every request behind each step.
fn turn(core: &UnderTest, rng: &mut Rng, model: &[u32], n: u64, b: u64) {
    let mut session = begin(core, &start(model, &one_name(), [n, 1, b], 1000));
    ask_all(&mut session);
    for step in 0..3 * n.max(4) {
        let item = rng.below(u64::from(model[1]));
        let value = offers::value(rng, model[3 + item as usize] / 65_536);
        session.must(&Call::Observe { item, time: worlds::time(rng), host: 1000 + step, value });
        if step % 4 == 0 {
            session.store(b"T", b"body", step);
        }
        ask_all(&mut session);
    }
    session.compare_contents().unwrap();
}

/// The last number: Same is still answered, nothing else is added, and next cannot be asked for.
#[test]
fn numbers_run_out() {
    let core = core();
    for m in [1u64, 3, 64] {
        let sizes = [2, 2, END - m];
        let mut session = begin(&core, &start(&plain_model(m as u32, m > 1), &one_name(), sizes, 5));
        assert_eq!(session.observe(0, 1, 1, Value::Unavailable), 0);
        assert_eq!(session.observe(0, 1, 1, Value::Sample(1)), END + 6);
        assert_eq!(session.store(b"T", b"x", 1), if m > 1 { END + 6 } else { 0 });
        assert_eq!(session.store(b"", b"x", 1), END + 14);
        let reply = session.ask("/sample?from=9223372036854775807").unwrap();
        assert_eq!(reply[..5], [1, END - m.min(2), END - 1, END, END - 1]);
        assert_eq!(session.ask("/sample?from=9223372036854775808"), Err(8));
        ask_all_near_the_end(&mut session);
        session.compare_contents().unwrap();
    }
    // One before the end there is one number left.
    let mut session = begin(&core, &start(&plain_model(2, false), &one_name(), [2, 2, END - 3], 5));
    assert_eq!(session.observe(0, 1, 1, Value::Sample(1)), END - 1);
    assert_eq!(session.observe(0, 1, 1, Value::Sample(2)), END + 6);
    assert_eq!(session.observe(0, 1, 1, Value::Sample(1)), 0);
    ask_all_near_the_end(&mut session);
}

fn ask_all_near_the_end(session: &mut Tested) {
    for back in 0..5 {
        let _ = session.ask(format!("/current?at={}", END - back));
        let _ = session.ask(format!("/sample?from={}&count=2", END - back));
    }
}

#[test]
fn first_numbers_at_their_bounds() {
    let core = core();
    for m in [1u64, 2, 64] {
        for (b, expected) in
            [(0, 3), (1, 0), (END - m, 0), (END - m + 1, 3), (END, 3), (u64::MAX, 3), (u64::MAX - m + 1, 3)]
        {
            let begun = Tested::start(
                &core,
                &start(&plain_model(m as u32, false), &one_name(), [3, 1, b], 0),
                reference::Clean,
            );
            let answer = begun.unwrap().err().unwrap_or(0);
            assert_eq!(answer, expected, "m {m} b {b}");
        }
    }
}

#[test]
fn sizes_at_their_bounds() {
    let core = core();
    let model = plain_model(2, false);
    let sizes = [
        (0u64, 1u64),
        (1, 1),
        (131_072, 1),
        (131_073, 1),
        (1, 0),
        (1, 128),
        (1, 129),
        (1, 255),
        (1, 256),
        (1, 257),
        (1 << 32, 1),
        (u64::MAX, u64::MAX),
    ];
    for (n, a) in sizes {
        // The lengths that the sizes would need, as far as they can be had.
        let lengths = [(n.min(200_000), a.min(300)), (1, 1)];
        for (n_long, a_long) in lengths {
            let mut begin = start(&model, &one_name(), [n_long, a_long, 1], 0);
            (begin.n, begin.a) = (n, a);
            let answer = Tested::start(&core, &begin, reference::Clean).unwrap().err().unwrap_or(0);
            let fits = (1..=131_072).contains(&n) && (1..=128).contains(&a) && (n_long, a_long) == (n, a);
            assert_eq!(answer == 0, fits, "{n} {a} {n_long} {a_long}");
        }
    }
}

/// Times rise, fall, repeat, are missing with and without a host time, and are the largest: the
/// order stays that of the numbers.
#[test]
fn times_do_not_order() {
    let core = core();
    let mut session = begin(&core, &start(&plain_model(1, false), &one_name(), [32, 1, 1], 500));
    let times =
        [(1000, 7), (900, 7), (900, 7), (0, 7), (0, 0), (u64::MAX, 7), (1, 7), (0, u64::MAX), (1000, 7)];
    for (number, (time, host)) in (2..).zip(times) {
        assert_eq!(session.observe(0, time, host, Value::Sample(number as i32)), number);
    }
    let reply = session.ask("/sample").unwrap();
    let given: Vec<u64> = reply[4 + reply[0] as usize..].chunks(2).map(|pair| pair[0]).collect();
    assert_eq!(given, [500, 1000, 900, 900, 7, 0, u64::MAX, 1, u64::MAX, 1000]);
    ask_all(&mut session);
}

/// A count that is not given is 100, whatever the size of the ring.
#[test]
fn the_default_count() {
    let core = core();
    for n in [1, 99, 100, 101, 300] {
        let mut session = begin(&core, &start(&plain_model(1, false), &one_name(), [n, 1, 1], 1));
        for number in 2..=350 {
            assert_eq!(session.observe(0, 1, 1, Value::Sample(number as i32)), number);
        }
        let first = 350 - n + 1;
        for from in (first..first + 3).chain([first + n / 2, 250, 251, 252, 350, 351]) {
            let expected = match from {
                _ if from < first => Err(17),
                0..=351 => Ok((from + 100).min(351)),
                _ => Err(18),
            };
            assert_eq!(session.ask(format!("/sample?from={from}")).map(|reply| reply[3]), expected);
        }
        assert_eq!(session.ask("/sample").unwrap()[..4], [n.min(100), first, 350, (first + 100).min(351)]);
        assert_eq!(session.ask(format!("/sample?count={}", n + 1)), Err(10));
    }
}

/// Every reply length from none to beyond the words needed, for each kind of reply.
#[test]
fn every_reply_length() {
    let core = core();
    let mut session = begin(&core, &start(&plain_model(4, true), &one_name(), [6, 3, 7], 500));
    for value in 1..9 {
        session.observe(
            value % 3,
            0,
            600,
            [Value::Unavailable, Value::Event(2), Value::Unavailable][value as usize % 3],
        );
        session.observe(0, 0, 600, Value::Sample(value as i32));
    }
    session.store(b"A", b"aa", 700);
    session.store(b"B", b"bbb", 700);
    for text in
        ["/sample", "/sample?count=1", "/current", "/current?at=20", "/assets", "/asset/A", "/asset/B;A;B"]
    {
        let words = session.ask(text).unwrap_or_else(|number| panic!("{text}: {number}")).len();
        for length in 0..=words + 3 {
            let expected = if length < words { 15 } else { 0 };
            assert_eq!(session.ask_into(text.as_bytes(), length), expected, "{text} into {length}");
        }
    }
    // Another refusal comes before the space.
    assert_eq!(session.ask_into(b"/sample?count=7", 0), 10);
    assert_eq!(session.ask_into(b"/asset/C", 0), 13);
}

/// Each slice empty in turn, in every call.
#[test]
fn empty_slices() {
    let core = core();
    let sound = start(&plain_model(3, true), &one_name(), [2, 1, 1], 1);
    let calls = [
        Call::Observe { item: 0, time: 1, host: 1, value: 1 << 32 },
        delivery(2, 3),
        delivery(2, 0),
        delivery(0, 3),
        delivery(0, 0),
        delivery(257, 0),
        Call::StoreAsset { id: b"T".to_vec(), body: b"b".to_vec(), host: 1 },
        Call::StoreAsset { id: vec![], body: b"b".to_vec(), host: 1 },
        Call::StoreAsset { id: b"T".to_vec(), body: vec![], host: 1 },
        Call::Request { text: b"/sample".to_vec(), reply: vec![9; 40] },
        Call::Request { text: vec![], reply: vec![9; 40] },
        Call::Request { text: b"/sample".to_vec(), reply: vec![] },
        Call::Request { text: vec![], reply: vec![] },
        Call::Body { id: b"T".to_vec() },
        Call::Body { id: vec![] },
    ];
    for empty in 0..32 {
        let mut start = sound.clone();
        clear(&mut start, empty);
        Pair::start(&core, &start).unwrap_or_else(|what| panic!("{start:?}: {what}"));
        let (ready, _) = Pair::start(&core, &sound).unwrap();
        let mut damaged = Start {
            observations: ready.expected_observations.clone(),
            assets: ready.expected_assets.clone(),
            ..sound.clone()
        };
        clear(&mut damaged, empty);
        let mut pair = Pair::over(&core, damaged);
        for call in &calls {
            pair.call(call).unwrap_or_else(|what| panic!("{call:?} with {empty:b} empty: {what}"));
        }
    }
}

/// So many records, and room for so many answers.
fn delivery(records: usize, room: usize) -> Call {
    let record = Record { item: 0, time: 1, value: (1 << 32) + 7 };
    Call::ObserveBatch { records: vec![record; records], host: 1, answers: vec![9; room] }
}

/// Empties the slices whose bits are set.
fn clear(start: &mut Start, empty: u32) {
    if empty & 1 != 0 {
        start.model.clear();
    }
    if empty & 2 != 0 {
        start.names.clear();
    }
    if empty & 4 != 0 {
        start.observations.clear();
    }
    if empty & 8 != 0 {
        start.assets.clear();
    }
    if empty & 16 != 0 {
        start.b = 0;
    }
}

/// Every category, component and name of an item word; every parent and name of a component word.
#[test]
fn every_field_of_a_model_word() {
    let core = core();
    let names = names(&["Device", "Axes", "POSITION"]);
    let words = (0..=300u32).chain([1 << 16, 2 << 16, 3 << 16, 4 << 16, 5 << 16, 1 << 24, 1 << 31, u32::MAX]);
    for word in words {
        for low in [0, 1, 2, 3, 255, 256, 512, 65_536, 3 * 65_536, 4 * 65_536] {
            for place in 0..7 {
                let mut model = vec![3, 2, 0, 1, 258, 65_536 + 2, 512 + 2];
                model[place] = word.wrapping_add(low);
                let start = Start { model, ..start(&[3, 2], &names, [2, 1, 1], 0) };
                let begun = Tested::start(&core, &start, reference::Clean);
                begun.unwrap_or_else(|what| panic!("{start:?}: {what}")).err();
            }
        }
    }
}

/// Categories 0 to 4 are there. Of asset changes there is at most one item, of the others any number,
/// together or alone.
#[test]
fn categories_at_their_bounds() {
    let core = core();
    let answer = |categories: &[u32]| {
        let items = categories.iter().map(|category| category * 65_536);
        let model: Vec<u32> = [1, categories.len() as u32, 0].into_iter().chain(items).collect();
        let begun = Tested::start(&core, &start(&model, &one_name(), [2, 1, 1], 0), reference::Clean);
        begun.unwrap_or_else(|what| panic!("{categories:?}: {what}")).err().unwrap_or(0)
    };
    for category in (0..=9).chain([127, 128, 255, 256, 257, 260, 32_768, 65_535]) {
        let once = u64::from(category > 4);
        assert_eq!(answer(&[category]), once, "{category}");
        assert_eq!(answer(&[4, category]), once, "{category}");
        assert_eq!(answer(&[category, 4, 4, 1]), once, "{category}");
        let again = u64::from(category > 4 || category == 3);
        assert_eq!(answer(&[category, category]), again, "{category}");
        assert_eq!(answer(&[4, 3, category, 4]), again, "{category}");
        assert_eq!(answer(&[category; 64]), again, "{category}");
    }
}

/// Every word that the value argument can be at the edges of its fields, in single observes and in
/// deliveries.
#[test]
fn every_edge_of_a_value_word() {
    let lows = [
        0,
        1,
        2,
        (1 << 24) - 1,
        1 << 24,
        (1 << 24) + 1,
        (2 << 24) - 1,
        2 << 24,
        (3 << 24) - 1,
        3 << 24,
        1 << 31,
        (1 << 32) - 1,
    ];
    let mut records = Vec::new();
    for kind in (0..=5).chain([255, 256, 257, 258, 259, 1 << 8, 1 << 31]) {
        for low in lows {
            records.extend((0..5).map(|item| Record { item, time: 4, value: (kind << 32) + low }));
        }
    }
    let core = core();
    for model in [plain_model(4, true), discrete_model(4, true)] {
        let mut session = begin(&core, &start(&model, &one_name(), [4, 1, 1], 1));
        for &Record { item, time, value } in &records {
            session.must(&Call::Observe { item, time, host: 3, value });
        }
        for some in records.chunks(200) {
            assert_eq!(session.batch(some, 3, 256).0, (0, some.len() as u64));
        }
    }
}

/// Ids and bodies of every length.
#[test]
fn ids_and_bodies_at_their_bounds() {
    let core = core();
    let mut session = begin(&core, &start(&plain_model(1, false), &one_name(), [4, 2, 1], 1));
    for length in 0..=40 {
        let id = vec![b'L'; length];
        let stored = session.store(&id, b"b", 1) < END;
        assert_eq!(stored, (1..=32).contains(&length));
        assert_eq!(session.body(&id).len(), usize::from(stored));
    }
    for length in (0..=520).chain([766, 767, 768, 65_536, 65_537]) {
        let body = vec![7; length];
        assert_eq!(session.store(b"T", &body, 1) < END, (1..=510).contains(&length), "{length}");
    }
}

/// 128 cells filled, replaced and pushed out; each body is the one stored last.
#[test]
fn all_the_cells() {
    let core = core();
    let mut session = begin(&core, &start(&plain_model(2, true), &one_name(), [200, 128, 1], 1));
    for tool in 0..128u64 {
        assert_eq!(session.store(format!("tool{tool}").as_bytes(), &[tool as u8; 510], tool), tool);
    }
    assert_eq!(session.store(b"tool64", b"new", 200), 127);
    assert_eq!(session.store(b"tool128", b"other", 201), 127);
    assert_eq!(session.body(b"tool0"), b"");
    assert_eq!(session.body(b"tool64"), b"new");
    assert_eq!(session.body(b"tool127"), [127; 510]);
    let reply = session.ask("/assets").unwrap();
    assert_eq!(reply[..6], [128, 128, 128, 0, 127, 126]);
    assert_eq!(reply[4 + 128..4 + 128 + 3], [5, 3, 510]);
    session.compare_contents().unwrap();
}

/// Both ends and the middle of what is held.
fn ask_around(session: &mut Tested) {
    let (first, last) = (session.machine.first(), session.machine.last());
    for at in [first - 1, first, first + (last - first) / 2, last, last + 1] {
        let _ = session.ask(format!("/current?at={at}"));
        let _ = session.ask(format!("/sample?from={at}&count=60&path=//Device"));
    }
    let _ = session.ask("/current");
}

/// The largest ring, over its end: a box's size, with all its items.
#[test]
fn the_largest_ring() {
    let core = core();
    let n = 131_072;
    let mut session = begin(&core, &start(&plain_model(64, true), &one_name(), [n, 1, 1], 1));
    session.pair.every = 16_384;
    let mut rng = Rng::new(settings::seed());
    let mut next = 1;
    let mut step = 0;
    while session.machine.last() < n + 5000 {
        step += 1;
        // The last items stay behind, so that their newest leave the ring.
        let item = rng.below(60);
        let value = offers::value(&mut rng, (item % 3) as u32);
        session.must(&Call::Observe { item, time: step, host: step, value });
        if step % 100 == 0 {
            let reply = session.ask(format!("/sample?from={next}&count=100")).unwrap();
            next = reply[3];
        }
        if step % 8192 == 0 || session.machine.last() > n + 4990 {
            ask_around(&mut session);
        }
    }
    assert!(session.machine.first() > 64, "the ring has turned");
    assert!(matches!(session.must(&Call::Body { id: b"T".to_vec() }), Answer::Part(0, 0)));
    session.pair.compare_stores().unwrap();
    session.compare_contents().unwrap();
}
