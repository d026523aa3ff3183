//! Random adapter lines, and the rule that a line is the observe of its reading.

use crate::call::{Answer, Call, Start};
use crate::fixture::record;
use crate::offers::Offers;
use crate::pair::same;
use crate::rng::Rng;
use crate::{batches, damaged, worlds, Counts, Difference};
use reference::calendar::LAST_TIME;
use reference::model::Model;
use reference::{line, Clean, Core, Level, Record, Stores, Value};

const END: u64 = 1 << 63;
const DAY: u64 = 86_400_000;

/// A line that says the record, or something near it, or has a fault.
pub fn draw(rng: &mut Rng, record: Record) -> Vec<u8> {
    let stamp = stamp(rng, record.time);
    let item = padded(rng, record.item.to_string());
    let value = if rng.percent(70) { value(rng, record.value) } else { rng.pick(&VALUES).to_string() };
    let mut line = format!("{stamp}|{item}|{value}").into_bytes();
    if rng.percent(15) {
        spoil(rng, &mut line);
    }
    line
}

/// Values at the bounds of their form and of their kind, and beside them.
const VALUES: [&str; 60] = [
    "UNAVAILABLE",
    "0",
    "-0",
    "1",
    "5",
    "5.0",
    "5.5",
    "5.50",
    "5.500",
    "5.05",
    "5.005",
    "0.5",
    "-0.5",
    "-0.05",
    "-1.5",
    "-1.05",
    "-0.001",
    "2147483.647",
    "2147483.648",
    "-2147483.648",
    "-2147483.649",
    "4294967.301",
    "0000000001.5",
    "1234567890.5",
    "0000000005",
    "00000000005",
    "12345678901",
    "-5",
    "4294967295",
    "4294967296",
    "4294967301",
    "9999999999",
    "NORMAL:0",
    "NORMAL:7",
    "NORMAL:1",
    "WARNING:1",
    "FAULT:2",
    "FAULT:16777215",
    "WARNING:16777216",
    "NORMAL:33554433",
    "WARNING:00000000001",
    "",
    "-",
    "5.",
    ".5",
    "-.5",
    "+5",
    "5.0000",
    "5.1234",
    "5e3",
    "NORMAL",
    "NORMAL:",
    "NORMAL:-1",
    "normal:1",
    "unavailable",
    "UNAVAILABLE\r",
    "5\r",
    "5 ",
    "5|",
    "UNAVAILABLE|5",
];

/// Empty, of the record's time of day, of any date, or of one that there is not.
fn stamp(rng: &mut Rng, time: u64) -> String {
    let mut fields = match rng.weighted(&[25, 35, 40]) {
        0 => return String::new(),
        1 => [1970, 1, 1, time % DAY / 3_600_000, time / 60_000 % 60, time / 1000 % 60, time % 1000],
        _ => {
            let [year, month, day] = date(rng);
            [year, month, day, rng.below(24), rng.below(60), rng.below(60), rng.below(1000)]
        }
    };
    if rng.percent(14) {
        let field = rng.index(6);
        fields[field] = *rng.pick(BESIDE[field]);
    }
    let [year, month, day, hour, minute, second, thousandth] = fields;
    format!("{year:04}-{month:02}-{day:02}T{hour:02}:{minute:02}:{second:02}.{thousandth:03}Z")
}

/// What each field of a stamp can't be, and now and then what it just can.
const BESIDE: [&[u64]; 6] = [
    &[0, 1969, 2100, 2100, 9999],
    &[0, 13, 99],
    &[0, 0, 32, 99],
    &[23, 24, 99],
    &[59, 60, 99],
    &[59, 60, 60, 61],
];

/// Year, month and day, mostly there: the ends of months and the leap years come often.
fn date(rng: &mut Rng) -> [u64; 3] {
    let year = match rng.weighted(&[50, 50]) {
        0 => rng.between(1970, 2099),
        _ => *rng.pick(&[1970, 1971, 1972, 1999, 2000, 2000, 2001, 2096, 2099, 2099]),
    };
    let month = if rng.percent(30) { 2 } else { rng.between(1, 12) };
    let day = if rng.percent(60) { rng.between(1, 28) } else { *rng.pick(&[1, 29, 30, 31]) };
    [year, month, day]
}

/// The digits with leading zeros now and then, seldom one too many.
fn padded(rng: &mut Rng, digits: String) -> String {
    let width = match rng.weighted(&[80, 16, 4]) {
        0 => 1,
        1 => rng.between(2, 10) as usize,
        _ => 11,
    };
    format!("{digits:0>width$}")
}

/// The text of a value's word, with needless zeros now and then.
fn value(rng: &mut Rng, word: u64) -> String {
    match Value::decode(word) {
        Value::Unavailable => "UNAVAILABLE".into(),
        Value::Sample(sample) => decimal(rng, sample),
        Value::Event(code) => padded(rng, code.to_string()),
        Value::Condition(level, code) => {
            let word = match level {
                Level::Normal => "NORMAL",
                Level::Warning => "WARNING",
                Level::Fault => "FAULT",
            };
            format!("{word}:{}", padded(rng, code.to_string()))
        }
    }
}

fn decimal(rng: &mut Rng, sample: i32) -> String {
    let magnitude = sample.unsigned_abs();
    let negative = sample < 0 || (sample == 0 && rng.percent(20));
    let (whole, behind) = (padded(rng, (magnitude / 1000).to_string()), format!(".{:03}", magnitude % 1000));
    let needed = behind.trim_end_matches('0').trim_end_matches('.').len();
    // A point alone is no number.
    let kept = if rng.percent(30) { rng.between(needed.max(2) as u64, 4) as usize } else { needed };
    format!("{}{whole}{}", if negative { "-" } else { "" }, &behind[..kept])
}

/// Bytes that a line has, and some that it has not.
const BYTES: &[u8] = b"|||::..--+0123456789ATZNUWFaz \r\n\x00\x7f\x80\xff";

/// One byte changed, deleted or inserted, mostly.
fn spoil(rng: &mut Rng, line: &mut Vec<u8>) {
    let at = rng.index(line.len());
    match rng.weighted(&[40, 25, 25, 4, 6]) {
        0 => line[at] = *rng.pick(BYTES),
        1 => drop(line.remove(at)),
        2 => line.insert(rng.index(line.len() + 1), *rng.pick(BYTES)),
        3 => *line = (0..rng.below(40)).map(|_| *rng.pick(BYTES)).collect(),
        _ => line.push(*rng.pick(b" \r\n|0")),
    }
}

/// Writes the record's line, at a time of its own and into a buffer of any length.
pub fn write(rng: &mut Rng, model: &[u32], names: &[u8], record: Record) -> Call {
    let time = match rng.weighted(&[25, 15, 45, 15]) {
        0 => record.time,
        1 => 0,
        2 => rng.below(LAST_TIME + 1),
        _ => *rng.pick(&[1, LAST_TIME - 1, LAST_TIME, LAST_TIME + 1, LAST_TIME + DAY, u64::MAX]),
    };
    let value = if record.value >> 32 == 1 && rng.percent(70) { sample(rng) } else { record.value };
    let written = Stores::<Clean>::default().write_line(
        model,
        names,
        record.item,
        time,
        Value::decode(value),
        &mut [0; 64],
    );
    let room = room(rng, written.pair().1 as usize);
    let text = worlds::garbage(rng, room).into_iter().map(|word| word as u8).collect();
    Call::WriteLine { item: record.item, time, value, text }
}

/// The word of a sample with digits behind its point.
fn sample(rng: &mut Rng) -> u64 {
    let thousandths = match rng.weighted(&[70, 30]) {
        0 => *rng.pick(&[500, -500, 5500, -1500, 5050, 50, -5, 5005, 999, -999, 1000, 10, 120]),
        _ => rng.word() as i32,
    };
    (1 << 32) + u64::from(thousandths as u32)
}

/// Bytes of the buffer: exact, longer, shorter.
fn room(rng: &mut Rng, bytes: usize) -> usize {
    match rng.weighted(&[40, 30, 30]) {
        0 => bytes,
        1 => bytes + *rng.pick(&[1, 2, 7, 64]),
        _ => *rng.pick(&[0, 1, bytes / 2, bytes.saturating_sub(1), bytes.saturating_sub(1)]),
    }
}

/// Lines after a start, some over a damaged store, beside the core's own observes of what they say, and
/// what it writes beside what that reads to.
pub fn run<C: Core>(core: &C, seed: u64, counts: &mut Counts) -> Result<(), Difference> {
    let mut rng = Rng::new(seed);
    let mut start = worlds::start(&mut rng);
    let Start { n, a, b, host, .. } = start;
    let (words, bytes) = (&mut start.observations, &mut start.assets);
    let answer = core.start(&start.model, &start.names, words, bytes, n, a, b, host);
    assert_eq!(answer, (0, 0), "{start:?}");
    let (words, names) = (start.model.clone(), start.names.clone());
    let model = Model::check(&words, &names, Clean).expect("the start was accepted");
    let offers = Offers::new(&mut rng, &model);
    for _ in 0..rng.between(4, 24) {
        let mut store = start.observations.clone();
        let damage = rng.percent(25);
        if damage {
            damaged::damage_observations(&mut rng, &mut store);
        }
        let record = batches::record(&mut rng, &offers);
        let host = worlds::time(&mut rng);
        let call = match rng.weighted(&[75, 25]) {
            0 => Call::ReadLine { line: draw(&mut rng, record), host },
            _ => write(&mut rng, &start.model, &start.names, record),
        };
        let before = store.clone();
        let place = || format!("{call:?} after {start:?}\n  observations {before:?}");
        let answer = beside_observe(core, &start, &model, &mut store, &call).map_err(|what| Difference {
            seed,
            place: place(),
            what,
        })?;
        counts.call(&call, answer, &[]);
        if !damage {
            start.observations = store;
        }
    }
    Ok(())
}

/// Runs the call over the store, and the observe it stands for over a copy.
fn beside_observe<C: Core>(
    core: &C,
    start: &Start,
    model: &Model,
    store: &mut [u64],
    call: &Call,
) -> Result<Answer, String> {
    let Start { model: words, names, .. } = start;
    match call {
        Call::ReadLine { line, host } => {
            let mut copy = store.to_vec();
            let word = core.read_line(words, names, store, line, *host);
            let expected = match reading(model, line) {
                Ok(Record { item, time, value }) => {
                    core.observe(words, names, &mut copy, item, time, *host, value)
                }
                // A wrong head comes first.
                Err(refusal) => {
                    if word == END + 2 {
                        word
                    } else {
                        END + refusal
                    }
                }
            };
            same("answer word beside the observe", &[word], &[expected])?;
            same("store word beside the observe", store, &copy)?;
            Answer::Word(word).in_use(&[])
        }
        Call::WriteLine { item, time, value, text } => {
            let mut text = text.clone();
            let (number, bytes) = core.write_line(words, names, *item, *time, *value, &mut text);
            if number == 0 {
                let record = Record { item: *item, time: *time, value: *value };
                same("what was written", &[reading(model, &text[..bytes as usize])], &[Ok(record)])?;
            }
            Answer::Pair(number, bytes).in_use(&[])
        }
        _ => Err("no call about lines".into()),
    }
}

/// The observation that a line stands for, or its refusal's number.
pub fn reading(model: &Model, text: &[u8]) -> Result<Record, u64> {
    let line = line::read(text, Clean).ok_or(20u64)?;
    let time = line.time(Clean).ok_or(21u64)?;
    let item = line.item(Clean);
    let known = usize::try_from(item).ok().filter(|&known| known < model.items());
    let value = known.map_or(Value::NONE, |known| line.value(model.category(known), Clean));
    Ok(record(item, time, value))
}
