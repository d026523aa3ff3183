//! Adapter lines: a line does what the observe of its reading does, what is written reads back, and what is
//! refused changes nothing.

mod common;

use common::Rng;
use mtcore::{
    Agent, Category, Component, Level, Line, Model, ModelBuilder, Observed, Refusal, Sizes, Value,
    LINE_BYTES, MAX_LINE, MAX_STAMP,
};

const PLACES: usize = 7;
const ITEMS: usize = 5;
const SAMPLE: u64 = 0;
const EVENT: u64 = 1;
const CONDITION: u64 = 2;
const CHANGE: u64 = 3;
const DISCRETE: u64 = 4;
const SIZES: Sizes = Sizes { places: PLACES as u64, cells: 1, origin: 1 };
/// 2026-09-14T06:00:00Z
const SIX: u64 = 1_789_365_600_000;
/// What a buffer is filled with, so that what is written shows.
const BLANK: u8 = b'#';

type Mill = Agent<Vec<u32>, Vec<u8>, Vec<u64>, Vec<u8>>;

fn model() -> Model<Vec<u32>, Vec<u8>> {
    let (mut words, mut names) = ([0; mtcore::model_words(1, ITEMS)], [0; mtcore::name_bytes(6)]);
    let mut build = ModelBuilder::new(&mut words, &mut names, "Device").unwrap();
    build.item(Component::DEVICE, Category::Sample, "POSITION").unwrap();
    build.item(Component::DEVICE, Category::Event, "EXECUTION").unwrap();
    build.item(Component::DEVICE, Category::Condition, "SYSTEM").unwrap();
    build.item(Component::DEVICE, Category::AssetChange, "ASSET_CHANGED").unwrap();
    build.item(Component::DEVICE, Category::Discrete, "PART_COUNT").unwrap();
    let built = build.finish().unwrap();
    Model::new(built.words().to_vec(), built.names().to_vec()).unwrap()
}

fn mill() -> Mill {
    let (observations, assets) =
        (vec![0; mtcore::observation_words(PLACES, ITEMS)], vec![0; mtcore::asset_bytes(1)]);
    Agent::start(model(), observations, assets, SIZES, SIX).unwrap()
}

fn value(rng: &mut Rng) -> Value {
    let code = rng.below(4) as u32;
    match rng.below(6) {
        0 => Value::Unavailable,
        1 => Value::Sample(rng.pick(&[0, -1, 500, -5000, 12_340, i32::MAX, i32::MIN])),
        2 => Value::Sample(code as i32 - 2),
        3 => Value::Event(rng.pick(&[code, u32::MAX])),
        4 => Value::Condition(rng.pick(&[Level::Normal, Level::Warning]), rng.below(12) as u32),
        _ => Value::Condition(Level::Fault, rng.pick(&[code, (1 << 24) - 1])),
    }
}

fn time(rng: &mut Rng) -> u64 {
    match rng.below(4) {
        0 => 0,
        1 => rng.pick(&[1, 951_825_600_000, MAX_STAMP]),
        2 => rng.below(MAX_STAMP + 1),
        _ => SIX + rng.below(100_000),
    }
}

/// What the line says once more, with zeros that it doesn't need.
fn longer(line: &str, zeros: usize) -> String {
    let (stamp, rest) = line.split_once('|').unwrap();
    let (item, value) = rest.split_once('|').unwrap();
    let filled = |digits: &str| format!("{}{digits}", "0".repeat(zeros.min(10 - digits.len())));
    let value = match (value.split_once(':'), value.split_once('.')) {
        (Some((level, code)), _) => format!("{level}:{}", filled(code)),
        (_, Some((whole, part))) if whole.starts_with('-') => format!("-{}.{part:0<3}", filled(&whole[1..])),
        (_, Some((whole, part))) => format!("{}.{part:0<3}", filled(whole)),
        _ if value == "UNAVAILABLE" => value.to_string(),
        _ if value.starts_with('-') => format!("-{}", filled(&value[1..])),
        _ => filled(value),
    };
    format!("{stamp}|{}|{value}", filled(item))
}

/// Whether the text of the value, behind the second bar, can be another category's: an event's code for a
/// sample, which reads it as whole units.
fn ambiguous(item: u64, value: Value) -> bool {
    item == SAMPLE && matches!(value, Value::Event(_)) || item != SAMPLE && matches!(value, Value::Sample(_))
}

/// Two mills, the one by lines and the other by observes: the same answers, and the same words in the stores.
#[test]
fn lines_are_the_observes_of_their_readings() {
    let mut rng = Rng::new(6);
    let (mut by_lines, mut by_observes) = (mill(), mill());
    let mut seen = [0; 3];
    for step in 0..20_000 {
        let (item, time, value) = (rng.below(6), time(&mut rng), value(&mut rng));
        if ambiguous(item, value) {
            continue;
        }
        let line = Line::new(item, time, value).unwrap().to_string();
        let line = if rng.below(3) == 0 { longer(&line, rng.below(10) as usize) } else { line };
        let answer = by_lines.read_line(line.as_bytes(), SIX + step);
        assert_eq!(answer, by_observes.observe(item, time, SIX + step, value), "{line}");
        assert_eq!(by_lines.observations(), by_observes.observations(), "{line}");
        seen[answer.map_or(2, |observed| usize::from(observed == Observed::Same))] += 1;
    }
    assert!(seen.iter().all(|&times| times > 1000), "recorded, Same, refused: {seen:?}");
}

/// Of every observation that the model takes, the core's line is the one that prints, it fits exactly into as
/// many bytes, and it reads back. What is refused writes nothing.
#[test]
fn written_lines_print_so_and_read_back() {
    let mut rng = Rng::new(21);
    let mill = mill();
    let (mut written, mut refused) = (0, 0);
    for _ in 0..5000 {
        let (item, time, value) = (rng.below(6), time(&mut rng) + rng.below(2), value(&mut rng));
        let mut text = [BLANK; LINE_BYTES + 1];
        let category = mill.model().category(item);
        let expected = match category {
            None => Err(Refusal::Item),
            Some(Category::AssetChange) => Err(Refusal::Kind),
            Some(category) if !category.holds(value) => Err(Refusal::Kind),
            Some(_) => Line::new(item, time, value).map(|line| line.to_string().into_bytes()),
        };
        let line = mill.write_line(item, time, value, &mut text).map(<[u8]>::to_vec);
        assert_eq!(line, expected, "{item} {time} {value:?}");
        let length = line.as_ref().map_or(0, Vec::len);
        assert!(text[length..].iter().all(|&byte| byte == BLANK));
        let Ok(line) = line else {
            refused += 1;
            continue;
        };
        let mut exact = vec![BLANK; length];
        assert_eq!(mill.write_line(item, time, value, &mut exact), Ok(&line[..]));
        let mut short = vec![BLANK; length - 1];
        assert_eq!(mill.write_line(item, time, value, &mut short), Err(Refusal::Space));
        assert!(short.iter().all(|&byte| byte == BLANK));
        let (mut by_line, mut by_observe) = (mill.clone(), mill.clone());
        assert_eq!(by_line.read_line(&line, SIX), by_observe.observe(item, time, SIX, value));
        assert_eq!(by_line.observations(), by_observe.observations());
        written += 1;
    }
    assert!(written > 1000 && refused > 1000, "{written} written, {refused} refused");
}

/// Each is refused so, changes nothing, and the next line is read as if it had not come.
#[test]
fn refused_lines_cost_nothing_else() {
    let wrong: [(&[u8], Refusal); 28] = [
        (b"", Refusal::Line),
        (b"12.5", Refusal::Line),
        (b"0|12.5", Refusal::Line),
        (b"|0|12.5|1|3", Refusal::Line),
        (b"|0|12.5\r", Refusal::Line),
        (b"|0|12.5\n", Refusal::Line),
        (b"|0| 12.5", Refusal::Line),
        (b"|0|+12.5", Refusal::Line),
        (b"|0|12.", Refusal::Line),
        (b"|0|.5", Refusal::Line),
        (b"|0|12.3456", Refusal::Line),
        (b"|0|1e3", Refusal::Line),
        (b"|0|unavailable", Refusal::Line),
        (b"|2|NORMAL", Refusal::Line),
        (b"|2|FAULT:-1", Refusal::Line),
        (b"|x|12.5", Refusal::Line),
        (b"|00000000000|12.5", Refusal::Line),
        (b"2026-09-14 06:00:00.000Z|0|12.5", Refusal::Line),
        (b"2026-09-14T06:00:00Z|0|12.5", Refusal::Line),
        (b"2026-13-14T06:00:00.000Z|0|", Refusal::Line),
        (b"2026-02-29T06:00:00.000Z|0|12.5", Refusal::Stamp),
        (b"2026-09-14T24:00:00.000Z|0|12.5", Refusal::Stamp),
        (b"2100-01-01T00:00:00.000Z|9|12.5", Refusal::Stamp),
        (b"|5|12.5", Refusal::Item),
        (b"|4294967296|12.5", Refusal::Item),
        (b"|0|2147483.648", Refusal::Kind),
        (b"|1|4294967296", Refusal::Kind),
        (b"|3|1", Refusal::Kind),
    ];
    let mut mill = mill();
    for (number, (line, refusal)) in (ITEMS as u64 + 1..).zip(wrong) {
        let before = mill.observations().to_vec();
        assert_eq!(mill.read_line(line, SIX), Err(refusal), "{}", String::from_utf8_lossy(line));
        assert_eq!(mill.observations(), before);
        let next = format!("|{SAMPLE}|{number}");
        assert_eq!(mill.read_line(next.as_bytes(), SIX), Ok(Observed::Recorded(number)));
    }
}

/// As long as a line can be, and one byte more; a host need not keep what is behind that.
#[test]
fn the_longest_line_that_reads() {
    let mut mill = mill();
    let longest = format!("2026-09-14T06:00:00.000Z|{CONDITION:010}|WARNING:{:010}", 7);
    assert_eq!(longest.len(), MAX_LINE);
    assert_eq!(mill.read_line(longest.as_bytes(), SIX), Ok(Observed::Recorded(ITEMS as u64 + 1)));
    for behind in 1..300 {
        let line = longest.clone() + &"0".repeat(behind);
        assert_eq!(mill.read_line(line.as_bytes(), SIX), Err(Refusal::Line));
    }
}

/// The head comes before the line's form, this before its date, and this before its item.
#[test]
fn lines_are_refused_in_order() {
    let (model, good, _) = mill().into_parts();
    let mut damaged = good.clone();
    damaged[0] = 0;
    let all = "2026-02-30T06:00:00.000Z|9|x";
    let read = |words: &[u32], store: &[u64], line: &str| {
        let mut left = store.to_vec();
        let answer = mtcore::read_line(words, model.names(), &mut left, line.as_bytes(), SIX);
        assert!(answer.is_ok() || left == store);
        answer
    };
    assert_eq!(read(&[9; 8], &damaged, all), Err(Refusal::Model));
    assert_eq!(read(model.words(), &damaged, all), Err(Refusal::Store));
    assert_eq!(read(model.words(), &good, all), Err(Refusal::Line));
    assert_eq!(read(model.words(), &good, "2026-02-30T06:00:00.000Z|9|1.5"), Err(Refusal::Stamp));
    assert_eq!(read(model.words(), &good, "|9|1.5"), Err(Refusal::Item));
    assert_eq!(read(model.words(), &good, "|1|1.5"), Err(Refusal::Kind));
    let written = |words: &[u32], item, time, value| {
        mtcore::write_line(words, model.names(), item, time, value, &mut [])
    };
    let late = MAX_STAMP + 1;
    assert_eq!(written(&[9; 8], 9, late, Value::Event(1)), Err(Refusal::Model));
    assert_eq!(written(model.words(), 9, late, Value::Event(1)), Err(Refusal::Item));
    assert_eq!(written(model.words(), SAMPLE, late, Value::Event(1)), Err(Refusal::Kind));
    assert_eq!(written(model.words(), CHANGE, late, Value::Unavailable), Err(Refusal::Kind));
    assert_eq!(written(model.words(), EVENT, late, Value::Event(1)), Err(Refusal::Stamp));
    assert_eq!(written(model.words(), DISCRETE, MAX_STAMP, Value::Event(1)), Err(Refusal::Space));
}

/// An empty stamp and the first millisecond of 1970 are no time: the host's is recorded.
#[test]
fn lines_without_a_time() {
    let mut mill = mill();
    let lines = [("|0|1", 11), ("1970-01-01T00:00:00.000Z|0|2", 12), ("1970-01-01T00:00:00.001Z|0|3", 1)];
    for (host, (line, recorded)) in (11..).zip(lines) {
        assert!(matches!(mill.read_line(line.as_bytes(), host), Ok(Observed::Recorded(_))), "{line}");
        let mut reply = [0; 40];
        let Ok(mtcore::Reply::Observations(current)) = mill.request(b"/current", &mut reply) else {
            panic!("current is answered");
        };
        assert_eq!(current.row(SAMPLE as usize).map(|row| row.time), Some(recorded), "{line}");
    }
}
