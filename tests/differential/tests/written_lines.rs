//! Adapter lines, written: their form, the room they need, and that they read back.

use differential::by_hand::ByHand;
use differential::call::{Answer, Call};
use differential::dates;
use differential::fixture::{begin, core, names, start, word, Tested, UNWRITTEN};
use differential::lines;
use differential::pair::Pair;
use differential::rng::Rng;
use differential::settings;
use differential::under_test::UnderTest;
use reference::calendar::LAST_TIME;
use reference::model::Model;
use reference::{Clean, Core, Level, Record, Value};

/// A sample, an event, a condition, an item of asset changes, a discrete event, and samples up to item 63.
fn model() -> Vec<u32> {
    let mut words = vec![1, 64, 0, 0, 65_536, 2 * 65_536, 3 * 65_536, 4 * 65_536];
    words.resize(2 + 1 + 64, 0);
    words
}

fn session(core: &UnderTest) -> Tested<'_> {
    begin(core, &start(&model(), &names(&["Device"]), [4, 1, 1], 500))
}

/// Room for any line, and bytes behind it.
const AMPLE: usize = 64;

const NORMAL: fn(u32) -> Value = |code| Value::Condition(Level::Normal, code);
const WARNING: fn(u32) -> Value = |code| Value::Condition(Level::Warning, code);
const FAULT: fn(u32) -> Value = |code| Value::Condition(Level::Fault, code);

/// What is written for an item, a time and a value.
fn forms() -> Vec<(u64, u64, Value, &'static str)> {
    vec![
        (0, 0, Value::Sample(-1), "|0|-0.001"),
        (0, 0, Value::Sample(0), "|0|0"),
        (0, 0, Value::Sample(5000), "|0|5"),
        (0, 0, Value::Sample(5500), "|0|5.5"),
        (0, 0, Value::Sample(5050), "|0|5.05"),
        (0, 0, Value::Sample(5005), "|0|5.005"),
        (0, 0, Value::Sample(-500), "|0|-0.5"),
        (0, 0, Value::Sample(-1500), "|0|-1.5"),
        (0, 0, Value::Sample(10), "|0|0.01"),
        (0, 0, Value::Sample(120), "|0|0.12"),
        (0, 0, Value::Sample(-10_000), "|0|-10"),
        (0, 0, Value::Sample(i32::MAX), "|0|2147483.647"),
        (0, 0, Value::Sample(i32::MIN), "|0|-2147483.648"),
        (0, 0, Value::Unavailable, "|0|UNAVAILABLE"),
        (1, 0, Value::Event(0), "|1|0"),
        (1, 0, Value::Event(10), "|1|10"),
        (4, 0, Value::Event(u32::MAX), "|4|4294967295"),
        (1, 0, Value::Unavailable, "|1|UNAVAILABLE"),
        (2, 0, NORMAL(0), "|2|NORMAL:0"),
        (2, 0, NORMAL(7), "|2|NORMAL:7"),
        (2, 0, WARNING(77), "|2|WARNING:77"),
        (2, 0, FAULT((1 << 24) - 1), "|2|FAULT:16777215"),
        (63, 0, Value::Sample(1000), "|63|1"),
        (10, 1, Value::Sample(1), "1970-01-01T00:00:00.001Z|10|0.001"),
        (0, 1010, Value::Sample(5000), "1970-01-01T00:00:01.010Z|0|5"),
        (0, 1_794_957_300_250, Value::Sample(12_500), "2026-11-17T23:15:00.250Z|0|12.5"),
        (1, 951_825_600_000, Value::Event(3), "2000-02-29T12:00:00.000Z|1|3"),
        (2, 946_684_799_999, WARNING(77), "1999-12-31T23:59:59.999Z|2|WARNING:77"),
        (2, LAST_TIME, WARNING((1 << 24) - 1), "2099-12-31T23:59:59.999Z|2|WARNING:16777215"),
        (0, 68_169_600_000, Value::Unavailable, "1972-02-29T00:00:00.000Z|0|UNAVAILABLE"),
    ]
}

#[test]
fn forms_written_out() {
    let core = core();
    let mut session = session(&core);
    for (item, time, value, line) in forms() {
        let (pair, text) = session.write(item, time, value, AMPLE);
        assert_eq!(pair, (0, line.len() as u64), "{line}");
        assert_eq!(text[..line.len()].escape_ascii().to_string(), line);
        assert!(text[line.len()..].iter().all(|&byte| byte == UNWRITTEN), "{line}");
    }
}

/// One byte too few and none is written; exactly enough; the bytes behind a line stay.
#[test]
fn every_room() {
    let core = core();
    let mut session = session(&core);
    for (item, time, value, line) in forms() {
        for room in 0..line.len() + 9 {
            let (pair, text) = session.write(item, time, value, room);
            let mut expected = vec![UNWRITTEN; room];
            if room < line.len() {
                assert_eq!(pair, (15, 0), "{line} into {room}");
            } else {
                assert_eq!(pair, (0, line.len() as u64), "{line} into {room}");
                expected[..line.len()].copy_from_slice(line.as_bytes());
            }
            assert_eq!(text, expected, "{line} into {room}");
        }
    }
}

/// The item, the value, the time, the room: each comes before those behind it, and the model before all.
#[test]
fn where_two_refusals_meet() {
    let core = core();
    let mut session = session(&core);
    let (late, sample) = (LAST_TIME + 1, Value::Sample(5));
    for (item, time, value, room, expected) in [
        (64, late, Value::NONE, 0, 4),
        (u64::MAX, 0, sample, AMPLE, 4),
        (1 << 32, 0, sample, AMPLE, 4),
        (0, late, Value::NONE, 0, 5),
        (0, late, Value::Event(5), 0, 5),
        (1, 0, sample, 0, 5),
        (2, 0, Value::Event(5), AMPLE, 5),
        (3, 0, Value::Event(5), AMPLE, 5),
        (3, late, Value::Unavailable, 0, 5),
        (3, 0, Value::Unavailable, AMPLE, 5),
        (4, 0, sample, AMPLE, 5),
        (0, late, sample, 0, 21),
        (0, late, sample, AMPLE, 21),
        (0, u64::MAX, sample, AMPLE, 21),
        (0, LAST_TIME, sample, 0, 15),
        (0, LAST_TIME, sample, AMPLE, 0),
    ] {
        let (pair, text) = session.write(item, time, value, room);
        assert_eq!(pair.0, expected, "item {item} time {time} {value:?} into {room}");
        assert!(pair.0 == 0 || (pair.1 == 0 && text == vec![UNWRITTEN; room]));
    }
    let mut by_hand = ByHand::new(start(&model(), &names(&["Device"]), [4, 1, 1], 500));
    by_hand.start.names[0] = b'-';
    assert_eq!([by_hand.write(0, 0, sample), by_hand.write(64, late, Value::NONE)], [(1, 0); 2]);
}

/// Words that are no value, and native codes that have no room.
#[test]
fn words_that_are_no_value() {
    let core = core();
    let mut pair = Pair::over(&core, start(&model(), &names(&["Device"]), [4, 1, 1], 500));
    for value in [1, 4 << 32, (3 << 32) + (3 << 24), (1 << 40) + (1 << 32), u64::MAX] {
        for item in 0..5 {
            let answer = pair.call(&Call::WriteLine { item, time: 0, value, text: vec![0; AMPLE] });
            assert_eq!(answer, Ok(Answer::Pair(5, 0)), "{value:#x}");
        }
    }
}

/// Writes the line of an observation, and reads it over a fresh copy of the store: what was recorded.
fn there_and_back(pair: &mut Pair<UnderTest>, item: u64, time: u64, value: Value) -> (Vec<u8>, Record) {
    let call = Call::WriteLine { item, time, value: word(value), text: vec![UNWRITTEN; AMPLE] };
    let Ok(Answer::Pair(0, bytes)) = pair.call(&call) else {
        panic!("{call:?}");
    };
    let line = pair.text[..bytes as usize].to_vec();
    let call = Call::ReadLine { line: line.clone(), host: 0 };
    let answer = pair.call(&call).unwrap_or_else(|what| panic!("{call:?}: {what}"));
    let Answer::Word(number @ 1..0x8000_0000_0000_0000) = answer else {
        panic!("{call:?}: {answer:?}");
    };
    let words = &pair.expected_observations;
    let (n, place) = (words[0] as usize, ((number - words[2]) % words[0]) as usize);
    let (time, packed) = (words[4 + place], words[4 + n + place]);
    (line, Record { item: packed >> 40, time, value: packed % (1 << 40) })
}

/// Both sides over the stores behind a start.
fn pair_behind_start(core: &UnderTest) -> Pair<'_, UnderTest> {
    let (pair, answer) = Pair::start(core, &start(&model(), &names(&["Device"]), [4, 1, 1], 500)).unwrap();
    assert_eq!(answer, Answer::Pair(0, 0));
    pair
}

/// Every day of 130 years at three times of day, against the tests' own calendar.
#[test]
fn every_day_there_and_back() {
    let core = core();
    let mut pair = pair_behind_start(&core);
    let mut days = 0;
    for date in dates::all() {
        for (hour, minute, second, thousandth) in [(0, 0, 0, 0), (12, 34, 56, 789), (23, 59, 59, 999)] {
            let time = date.time + ((hour * 60 + minute) * 60 + second) * 1000 + thousandth;
            let (line, read) = there_and_back(&mut pair, 4, time, Value::Event(1));
            let stamp = if time == 0 { String::new() } else { date.stamp(hour, minute, second, thousandth) };
            assert_eq!(line.escape_ascii().to_string(), format!("{stamp}|4|1"));
            assert_eq!(read, Record { item: 4, time, value: (2 << 32) + 1 }, "{date:?}");
        }
        days += 1;
    }
    assert_eq!(days, (LAST_TIME + 1) / 86_400_000);
}

/// Every millisecond around the turn of a day, a month and a year.
#[test]
fn milliseconds_there_and_back() {
    let core = core();
    let mut pair = pair_behind_start(&core);
    for turn in [86_400_000, 951_782_400_000, 951_868_800_000, 946_684_800_000, 4_102_358_400_000] {
        for time in turn - 1500..turn + 1500 {
            let (_, read) = there_and_back(&mut pair, 4, time, Value::Event(1));
            assert_eq!(read.time, time);
        }
    }
}

/// Samples around 0, around every power of ten and at both ends, by lines without a needless byte.
#[test]
fn samples_there_and_back() {
    let core = core();
    let mut pair = pair_behind_start(&core);
    let powers = (0..10).map(|power| 10i64.pow(power));
    let around = powers.flat_map(|power| power - 3..power + 3).flat_map(|sample| [sample, -sample]);
    let ends = [i64::from(i32::MIN), i64::from(i32::MIN) + 1, i64::from(i32::MAX) - 1, i64::from(i32::MAX)];
    let mut samples: Vec<i64> = (-12_000..12_000).chain(around).chain(ends).collect();
    samples.dedup();
    for (sample, turn) in samples.into_iter().zip(0..) {
        // Of two items in turn, so that none stands at what is read.
        let (line, read) = there_and_back(&mut pair, 5 + turn % 50, 7, Value::Sample(sample as i32));
        assert_eq!(read.value, word(Value::Sample(sample as i32)));
        let text = line.escape_ascii().to_string();
        let number = text.rsplit('|').next().unwrap();
        assert_eq!((number.parse::<f64>().unwrap() * 1000.0).round() as i64, sample, "{text}");
        assert!(!number.contains('.') || !number.ends_with(['0', '.']), "{text}");
        let whole = number.trim_start_matches('-').split('.').next().unwrap();
        assert!(whole == "0" || !whole.starts_with('0'), "{text}");
        assert_ne!(number, "-0");
    }
}

/// Any item, time and value that the writer takes: what it writes reads to them.
#[test]
fn random_observations_there_and_back() {
    let mut rng = Rng::new(settings::seed());
    let (core, words, names) = (core(), model(), names(&["Device"]));
    let model = Model::check(&words, &names, Clean).unwrap();
    for _ in 0..200_000 {
        let item = rng.below(64);
        let value = match model.category(item as usize) {
            _ if rng.percent(10) => Value::Unavailable,
            0 => Value::Sample(rng.word() as i32),
            2 => Value::decode((3 << 32) + rng.below(3 << 24)),
            _ => Value::Event(rng.word() as u32),
        };
        let time = if rng.percent(10) { 0 } else { rng.below(LAST_TIME + 1) };
        let mut text = [UNWRITTEN; AMPLE];
        let (number, bytes) = Core::write_line(&core, &words, &names, item, time, word(value), &mut text);
        if model.category(item as usize) == 3 {
            assert_eq!((number, bytes), (5, 0));
            continue;
        }
        let read = lines::reading(&model, &text[..bytes as usize]);
        assert_eq!((number, read), (0, Ok(Record { item, time, value: word(value) })));
    }
}

/// Exactly the room of a line, against a page that may not be touched on either side.
#[cfg(target_os = "linux")]
#[test]
fn written_against_a_fence() {
    let core = differential::fenced::Fenced::new(core());
    let mut pair = Pair::over(&core, start(&model(), &names(&["Device"]), [4, 1, 1], 500));
    for (item, time, value, line) in forms() {
        for room in [0, 1, line.len() - 1, line.len()] {
            // Once against each side.
            for _ in 0..2 {
                let call = Call::WriteLine { item, time, value: word(value), text: vec![UNWRITTEN; room] };
                pair.call(&call).unwrap_or_else(|what| panic!("{call:?}: {what}"));
            }
        }
    }
}
