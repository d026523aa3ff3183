//! Random replies to be made into streams documents, and the rule that a document gives back its rows.

use crate::call::{Answer, Call};
use crate::pair::same;
use crate::rng::Rng;
use crate::xml::{self, Element};
use crate::{worlds, Counts, Difference};
use reference::calendar::LAST_TIME;
use reference::model::Model;
use reference::streams::Given;
use reference::{Clean, Core, Stores};

/// Words of a reply ahead of its rows.
const SIZES: usize = 4;

/// One row of a reply, in its words.
#[derive(Clone, Copy, PartialEq, Eq, Debug)]
pub struct Row {
    pub number: u64,
    pub time: u64,
    pub packed: u64,
}

/// A reply's words: k, first, last and next, the numbers, then each time with its packed value.
pub fn reply([first, last, next]: [u64; 3], rows: &[Row]) -> Vec<u64> {
    let mut words = vec![rows.len() as u64, first, last, next];
    words.extend(rows.iter().map(|row| row.number));
    words.extend(rows.iter().flat_map(|row| [row.time, row.packed]));
    words
}

/// The rows of a reply that has all its words.
pub fn rows(reply: &[u64]) -> Vec<Row> {
    let k = reply[0] as usize;
    let (numbers, pairs) = reply[SIZES..SIZES + 3 * k].split_at(k);
    let row = |(&number, pair): (&u64, &[u64])| Row { number, time: pair[0], packed: pair[1] };
    numbers.iter().zip(pairs.chunks_exact(2)).map(row).collect()
}

/// A packed value.
pub fn packed(item: u64, kind: u64, low: u64) -> u64 {
    (item << 40) + (kind << 32) + low
}

/// More than the longest document of a reply has.
pub fn ample(reply: &[u64]) -> usize {
    16_384 + 60 * reply.len()
}

/// A document of the reply given, if there is one, or of any; into a buffer of any length.
pub fn draw(rng: &mut Rng, model: &[u32], names: &[u8], given: Option<&[u64]>) -> Call {
    let checked = Model::check(model, names, Clean);
    let mut reply = match given {
        Some(words) if words.len() >= SIZES && rng.percent(60) => cut(rng, words),
        _ => any(rng, checked.as_ref()),
    };
    // The lists' times are often later than a stamp can say.
    if rng.percent(85) {
        mend(&mut reply);
    }
    for _ in 0..rng.weighted(&[62, 20, 12, 6]) {
        damage(rng, &mut reply, checked.as_ref());
    }
    let given = header(rng);
    let mut scratch = vec![0; ample(&reply)];
    let written = Stores::<Clean>::default().streams(model, names, &reply, given, &mut scratch);
    let room = room(rng, written.pair().1 as usize);
    let text = worlds::garbage(rng, room).into_iter().map(|word| word as u8).collect();
    Call::Streams { reply, given, text }
}

/// The buffer of a reply, or its words with few or none behind them.
fn cut(rng: &mut Rng, words: &[u64]) -> Vec<u64> {
    let exact = SIZES + 3 * words[0] as usize;
    let length = match rng.weighted(&[50, 30, 20]) {
        0 => exact,
        1 => exact + rng.between(1, 7) as usize,
        _ => words.len(),
    };
    words[..length.min(words.len())].to_vec()
}

/// Rows of any items in any order, some of them repeated.
fn any(rng: &mut Rng, model: Option<&Model>) -> Vec<u64> {
    let k = match rng.weighted(&[12, 18, 50, 20]) {
        0 => 0,
        1 => 1,
        2 => rng.between(2, 8),
        _ => rng.between(9, 40),
    };
    let mut rows: Vec<Row> = Vec::new();
    for _ in 0..k {
        let again = !rows.is_empty() && rng.percent(12);
        rows.push(if again { *rng.pick(&rows) } else { row(rng, model) });
    }
    let mut words = reply([number(rng), number(rng), number(rng)], &rows);
    if rng.percent(40) {
        let behind = rng.between(1, 6) as usize;
        words.extend(worlds::garbage(rng, behind));
    }
    words
}

fn row(rng: &mut Rng, model: Option<&Model>) -> Row {
    let items = model.map_or(4, |model| model.items() as u64);
    let item = rng.below(items);
    let category = model.map_or(0, |model| model.category(item as usize));
    Row { number: number(rng), time: time(rng), packed: value(rng, item, category) }
}

/// A packed value that the item can have.
fn value(rng: &mut Rng, item: u64, category: u32) -> u64 {
    if rng.percent(20) {
        return packed(item, 0, 0);
    }
    let word = rng.word() % (1 << 32);
    match category {
        0 => {
            let thousandths = *rng.pick(&[0, 1, -1, 5000, 5500, -500, 5050, 120, i32::MIN, i32::MAX]);
            packed(item, 1, if rng.percent(70) { u64::from(thousandths as u32) } else { word })
        }
        2 => {
            let code = *rng.pick(&[0, 0, 1, 77, (1 << 24) - 1, word % (1 << 24)]);
            packed(item, 3, (rng.below(3) << 24) + code)
        }
        _ => packed(item, 2, *rng.pick(&[0, 1, 10, u64::from(u32::MAX), word])),
    }
}

fn number(rng: &mut Rng) -> u64 {
    match rng.weighted(&[70, 15, 15]) {
        0 => rng.below(100),
        1 => *rng.pick(&[0, 9, 10, (1 << 63) - 1, 1 << 63, u64::MAX - 1, u64::MAX]),
        _ => rng.word() >> rng.below(64),
    }
}

/// Up to the last of 2099.
fn time(rng: &mut Rng) -> u64 {
    match rng.weighted(&[30, 12, 8, 50]) {
        0 => rng.between(1000, 2000),
        1 => 0,
        2 => *rng.pick(&[1, LAST_TIME - 1, LAST_TIME]),
        _ => rng.below(LAST_TIME + 1),
    }
}

fn late(rng: &mut Rng) -> u64 {
    *rng.pick(&[LAST_TIME + 1, LAST_TIME + 1, 2 * LAST_TIME, 1 << 63, u64::MAX])
}

fn header(rng: &mut Rng) -> Given {
    let creation_time = if rng.percent(8) { late(rng) } else { time(rng) };
    let n = if rng.percent(60) { rng.between(1, 131_072) } else { number(rng) };
    Given { n, instance_id: number(rng), creation_time }
}

/// How many rows there are, by what the words say and by how many they are.
fn held(reply: &[u64]) -> usize {
    let room = reply.len().saturating_sub(SIZES) / 3;
    reply.first().map_or(0, |&k| room.min(usize::try_from(k).unwrap_or(room)))
}

/// Times that a stamp can say.
fn mend(reply: &mut [u64]) {
    let k = held(reply);
    for row in 0..k {
        reply[SIZES + k + 2 * row] %= LAST_TIME + 1;
    }
}

/// The number whose product with 3 is 1, over 64 bits.
const THIRD: u64 = 0xaaaa_aaaa_aaaa_aaab;

/// Makes one thing of a reply wrong, mostly.
fn damage(rng: &mut Rng, reply: &mut Vec<u64>, model: Option<&Model>) {
    let k = held(reply);
    match rng.weighted(&[14, 12, 40, 26, 8]) {
        0 if !reply.is_empty() => reply[0] = count(rng, reply),
        1 => {
            let exact = SIZES + 3 * k;
            let length = *rng.pick(&[exact.saturating_sub(1), exact.saturating_sub(1), exact - 2, 3, 1, 0]);
            reply.truncate(length);
        }
        2 if k > 0 => {
            let at = SIZES + k + 2 * rng.index(k) + 1;
            reply[at] = wrong(rng, reply[at], model);
        }
        3 if k > 0 => {
            let at = SIZES + k + 2 * rng.index(k);
            reply[at] = late(rng);
        }
        _ => {
            let behind = rng.between(1, 6) as usize;
            reply.extend(worlds::garbage(rng, behind));
        }
    }
}

/// A number of rows that the words are too few for; often one of which 4 + 3k is small where it wraps.
fn count(rng: &mut Rng, reply: &[u64]) -> u64 {
    let length = reply.len() as u64;
    match rng.weighted(&[40, 20, 40]) {
        0 => rng.below(length + 1).wrapping_sub(4).wrapping_mul(THIRD),
        1 => *rng.pick(&[
            u64::MAX,
            u64::MAX - 1,
            1 << 63,
            (1 << 63) - 1,
            u64::MAX / 3,
            u64::MAX / 3 + 1,
            1 << 32,
        ]),
        _ => {
            let most = (length.saturating_sub(4)) / 3;
            *rng.pick(&[most + 1, most + 1, most + 2, reply[0].wrapping_sub(1)])
        }
    }
}

/// A packed value that its item can't have, mostly.
fn wrong(rng: &mut Rng, word: u64, model: Option<&Model>) -> u64 {
    let (item, kind, low) = (word >> 40, word >> 32 & 255, word % (1 << 32));
    let items = model.map_or(4, |model| model.items() as u64);
    match rng.weighted(&[30, 20, 15, 15, 15, 5]) {
        0 => packed(
            *rng.pick(&[items, items, items + 1, item + 256, item + (1 << 16), (1 << 24) - 1]),
            kind,
            low,
        ),
        1 => packed(item, *rng.pick(&[1, 2, 3, 3]), low % (1 << 24)),
        2 => packed(item, 0, *rng.pick(&[1, 1 << 24, 1 << 31, u64::from(u32::MAX)])),
        3 => packed(item, 3, (*rng.pick(&[3, 3, 3, 4, 128, 255]) << 24) + low % (1 << 24)),
        4 => packed(item, *rng.pick(&[4, kind + 4, kind + 8, kind + 128, 255]) % 256, low),
        _ => rng.word(),
    }
}

/// Bytes of the buffer: exact, longer, shorter.
fn room(rng: &mut Rng, bytes: usize) -> usize {
    match rng.weighted(&[40, 30, 30]) {
        0 => bytes,
        1 => bytes + *rng.pick(&[1, 2, 7, 64]),
        _ => *rng.pick(&[0, 1, bytes / 2, bytes.saturating_sub(1), bytes.saturating_sub(1)]),
    }
}

/// Replies to any model, each beside what is read from its document, or beside the rules of refusal.
pub fn run<C: Core>(core: &C, seed: u64, counts: &mut Counts) -> Result<(), Difference> {
    let mut rng = Rng::new(seed);
    let start = worlds::start(&mut rng);
    let (words, names) = (&start.model, &start.names);
    let model = Model::check(words, names, Clean).expect("the start is acceptable");
    for _ in 0..rng.between(4, 24) {
        let Call::Streams { reply, given, .. } = draw(&mut rng, words, names, None) else {
            unreachable!("a document was drawn");
        };
        let text = vec![0; ample(&reply)];
        let call = Call::Streams { reply, given, text };
        let answer = beside_rows(core, words, names, &model, &call).map_err(|what| Difference {
            seed,
            place: format!("{call:?} after {start:?}"),
            what,
        })?;
        counts.call(&call, answer, &[]);
    }
    Ok(())
}

fn beside_rows<C: Core>(
    core: &C,
    words: &[u32],
    names: &[u8],
    model: &Model,
    call: &Call,
) -> Result<Answer, String> {
    let Call::Streams { reply, given, text } = call else {
        return Err("no call for a document".into());
    };
    let mut text = text.clone();
    let Given { n, instance_id, creation_time } = *given;
    let (number, bytes) = core.streams(words, names, reply, n, instance_id, creation_time, &mut text);
    same("answer's number by the rules", &[number], &[refusal(model, reply, given)])?;
    if number == 0 {
        gives_back(model, reply, *given, &text[..bytes as usize])?;
    }
    Answer::Pair(number, bytes).in_use(&[])
}

/// The refusal's number where there is room, 0 where there is none to give.
pub fn refusal(model: &Model, reply: &[u64], given: &Given) -> u64 {
    let whole = reply.len() >= SIZES && (reply.len() - SIZES) as u128 >= 3 * u128::from(reply[0]);
    if !whole || rows(reply).iter().any(|row| !can_be(model, row.packed)) {
        return 2;
    }
    let late = rows(reply).iter().any(|row| row.time >= 4_102_444_800_000);
    if late || given.creation_time >= 4_102_444_800_000 {
        return 21;
    }
    0
}

/// Whether some item can have the packed value: by the ranges that each category leaves.
fn can_be(model: &Model, packed: u64) -> bool {
    let item = packed / (1 << 40);
    if item >= model.items() as u64 {
        return false;
    }
    let word = packed % (1 << 40);
    let own = match model.category(item as usize) {
        0 => 1 << 32..2 << 32,
        2 => 3 << 32..(3 << 32) + (3 << 24),
        _ => 2 << 32..3 << 32,
    };
    word == 0 || own.contains(&word)
}

/// What is read from the document is the reply: its header, and each row once, by component, then group, then place.
pub fn gives_back(model: &Model, reply: &[u64], given: Given, document: &[u8]) -> Result<(), String> {
    let root = xml::read(document)?;
    let Given { n, instance_id, creation_time } = given;
    let [first, last, next] = [reply[1], reply[2], reply[3]];
    same("header", &header_of(&root)?, &[creation_time, instance_id, n, next, first, last])?;
    let group = |item: usize| match model.category(item) {
        0 => 0,
        2 => 2,
        _ => 1,
    };
    let mut expected: Vec<(usize, usize, Row)> = Vec::new();
    for row in rows(reply) {
        let item = (row.packed >> 40) as usize;
        expected.push((model.component(item), group(item), row));
    }
    // Rows of one group keep their order.
    expected.sort_by_key(|&(component, group, _)| (component, group));
    same("row", &rows_of(model, &root)?, &expected)
}

/// The header's numbers, in the order of its attributes.
fn header_of(root: &Element) -> Result<Vec<u64>, String> {
    let header = root.children.first().filter(|first| first.name == "Header").ok_or("no header")?;
    let name_space = root.attribute("xmlns")? == "urn:mtconnect.org:MTConnectStreams:1.2";
    let fixed = header.attribute("sender")? == "box" && header.attribute("version")? == "1.2";
    if root.name != "MTConnectStreams" || !name_space || !fixed {
        return Err(format!("{} with {header:?}", root.name));
    }
    let creation = time_of(header.attribute("creationTime")?)?;
    let numbers = ["instanceId", "bufferSize", "nextSequence", "firstSequence", "lastSequence"];
    let numbers = numbers.map(|name| digits(header.attribute(name)?));
    [Ok(creation)].into_iter().chain(numbers).collect()
}

/// The rows of a document with the index of their component and the place of their group.
fn rows_of(model: &Model, root: &Element) -> Result<Vec<(usize, usize, Row)>, String> {
    let [_, streams] = &root.children[..] else {
        return Err("not a header and streams".into());
    };
    let mut found = Vec::new();
    for device in &streams.children {
        let name = [device.attribute("name")?, device.attribute("uuid")?];
        if device.name != "DeviceStream" || name.map(str::as_bytes) != [model.component_type(0); 2] {
            return Err(format!("the device is {name:?}"));
        }
        if device.children.is_empty() {
            return Err("a device without components".into());
        }
        for component in &device.children {
            found.extend(rows_of_component(model, component)?);
        }
    }
    Ok(found)
}

fn rows_of_component(model: &Model, component: &Element) -> Result<Vec<(usize, usize, Row)>, String> {
    let index = component.attribute("componentId")?.strip_prefix('c').ok_or("no c before an index")?;
    let index = digits(index)? as usize;
    let names = [component.attribute("component")?, component.attribute("name")?];
    let own = index < model.components() && names.map(str::as_bytes) == [model.component_type(index); 2];
    if component.name != "ComponentStream" || !own || component.children.is_empty() {
        return Err(format!("component {index} is {names:?}"));
    }
    let mut found = Vec::new();
    let mut behind = 0;
    for group in &component.children {
        let place = ["Samples", "Events", "Condition"].iter().position(|name| *name == group.name);
        let place = place.ok_or_else(|| format!("a group {}", group.name))?;
        if group.children.is_empty() || place < behind {
            return Err(format!("{} without rows, or out of its turn", group.name));
        }
        behind = place + 1;
        for row in &group.children {
            found.push((index, place, row_of(model, place, row)?));
        }
    }
    Ok(found)
}

fn row_of(model: &Model, group: usize, row: &Element) -> Result<Row, String> {
    let item = digits(row.attribute("dataItemId")?.strip_prefix('i').ok_or("no i before an item")?)?;
    let known = usize::try_from(item).ok().filter(|&known| known < model.items());
    let name = model.item_type(known.ok_or_else(|| format!("item {item}"))?);
    let (kind, low) = if group == 2 { condition(row, name)? } else { said(row, name, group)? };
    let (number, time) = (digits(row.attribute("sequence")?)?, time_of(row.attribute("timestamp")?)?);
    Ok(Row { number, time, packed: packed(item, kind, low) })
}

/// Kind and low word of a condition's element.
fn condition(row: &Element, name: &[u8]) -> Result<(u64, u64), String> {
    if row.attribute("type")?.as_bytes() != name || !row.text.is_empty() {
        return Err(format!("{row:?}"));
    }
    let level = match &row.name[..] {
        "Normal" => 0,
        "Warning" => 1,
        "Fault" => 2,
        "Unavailable" if row.attribute("nativeCode").is_err() => return Ok((0, 0)),
        other => return Err(format!("a level {other}")),
    };
    Ok((3, (level << 24) + digits(row.attribute("nativeCode")?)?))
}

/// Kind and low word of an element with text.
fn said(row: &Element, name: &[u8], group: usize) -> Result<(u64, u64), String> {
    if row.name != pascal(name) {
        return Err(format!("{} for {}", row.name, name.escape_ascii()));
    }
    match (&row.text[..], group) {
        ("UNAVAILABLE", _) => Ok((0, 0)),
        (text, 0) => Ok((1, u64::from(thousandths(text)? as u32))),
        (text, _) => Ok((2, digits(text)?)),
    }
}

/// A type's name in Pascal case.
pub fn pascal(name: &[u8]) -> String {
    let name = String::from_utf8_lossy(name);
    let words = name.split('_').filter(|word| !word.is_empty());
    let name: String = words.map(|word| word[..1].to_uppercase() + &word[1..].to_lowercase()).collect();
    if name.starts_with(|first: char| first.is_ascii_alphabetic()) {
        return name;
    }
    format!("T{name}")
}

/// Digits without a needless zero.
fn digits(text: &str) -> Result<u64, String> {
    let number = text.parse::<u64>().map_err(|error| format!("{text:?}: {error}"))?;
    if number.to_string() != text {
        return Err(format!("{text:?} for {number}"));
    }
    Ok(number)
}

/// A sample's thousandths, written without a needless byte.
fn thousandths(text: &str) -> Result<i32, String> {
    let bare = text.strip_prefix('-').unwrap_or(text);
    let (whole, behind) = bare.split_once('.').unwrap_or((bare, ""));
    let right = behind.len() <= 3 && !behind.ends_with('0') && !bare.ends_with('.') && text != "-0";
    let magnitude = digits(whole)? * 1000 + format!("{behind:0<3}").parse::<u64>().map_err(|_| text)?;
    let sample = if text.starts_with('-') { -(magnitude as i64) } else { magnitude as i64 };
    i32::try_from(sample).ok().filter(|_| right).ok_or_else(|| format!("a sample {text:?}"))
}

/// Milliseconds of a stamp, by the number of days before each year and month.
fn time_of(stamp: &str) -> Result<u64, String> {
    let pattern: String = stamp.chars().map(|one| if one.is_ascii_digit() { 'd' } else { one }).collect();
    if pattern != "dddd-dd-ddTdd:dd:dd.dddZ" {
        return Err(format!("a stamp {stamp:?}"));
    }
    let field = |from: usize, to: usize| stamp[from..to].parse::<u64>().expect("digits");
    let (year, month, day) = (field(0, 4), field(5, 7), field(8, 10));
    let leap = u64::from(year.is_multiple_of(4) && month > 2);
    let before = [0, 31, 59, 90, 120, 151, 181, 212, 243, 273, 304, 334];
    let months = before.get(month as usize - 1).ok_or_else(|| format!("a stamp {stamp:?}"))?;
    // 1972 was the first leap year of them.
    let days = (year - 1970) * 365 + (year - 1969) / 4 + months + leap + day - 1;
    let seconds = (field(11, 13) * 60 + field(14, 16)) * 60 + field(17, 19);
    Ok((days * 86_400 + seconds) * 1000 + field(20, 23))
}
