//! Streams documents: their rows are the reply's, each once and as adapter lines have them, no document is longer
//! than its bound, and what is refused writes nothing.

mod common;

use common::Rng;
use mtcore::{
    Agent, Category, Component, Level, Line, Model, ModelBuilder, Observations, Refusal, Reply, Row, Sizes,
    Value, MAX_PLACES, MAX_STAMP,
};

/// 2026-09-14T06:00:00Z
const SIX: u64 = 1_789_365_600_000;
/// What a buffer is filled with, so that what is written shows.
const BLANK: u8 = b'#';
const LEVELS: [Level; 3] = [Level::Normal, Level::Warning, Level::Fault];

type Built = Model<Vec<u32>, Vec<u8>>;

/// Components with an item of each category, one of them an asset change, in an order that is not the document's,
/// and a component without items.
fn model() -> Built {
    let (mut words, mut names) = ([0; mtcore::model_words(4, 13)], [0; mtcore::name_bytes(24)]);
    let mut build = ModelBuilder::new(&mut words, &mut names, "Device").unwrap();
    let axes = build.component(Component::DEVICE, "Axes").unwrap();
    build.component(Component::DEVICE, "Coolant").unwrap();
    let path = build.component(axes, "Path").unwrap();
    build.item(path, Category::Condition, "SYSTEM").unwrap();
    build.item(Component::DEVICE, Category::AssetChange, "ASSET_CHANGED").unwrap();
    for component in [path, Component::DEVICE, axes] {
        build.item(component, Category::Event, "EXECUTION").unwrap();
        build.item(component, Category::Sample, "PATH_FEEDRATE").unwrap();
    }
    build.item(axes, Category::Discrete, "part__COUNT_").unwrap();
    build.item(axes, Category::Condition, "ACTUATOR").unwrap();
    build.item(path, Category::Sample, "3D_x").unwrap();
    build.item(Component::DEVICE, Category::Event, "__").unwrap();
    build.item(axes, Category::Sample, "x9Y").unwrap();
    let built = build.finish().unwrap();
    Model::new(built.words().to_vec(), built.names().to_vec()).unwrap()
}

/// The element of each item's type that is no condition.
fn element(kind: &str) -> &str {
    match kind {
        "ASSET_CHANGED" => "AssetChanged",
        "EXECUTION" => "Execution",
        "PATH_FEEDRATE" => "PathFeedrate",
        "part__COUNT_" => "PartCount",
        "3D_x" => "T3dX",
        "__" => "T",
        "x9Y" => "X9y",
        other => panic!("the model has a type {other}"),
    }
}

fn value(rng: &mut Rng, category: Category) -> Value {
    let code = rng.pick(&[0, 1, 77, (1 << 24) - 1]);
    match category {
        _ if rng.below(5) == 0 => Value::Unavailable,
        Category::Sample => Value::Sample(rng.pick(&[0, -1, 500, -5000, 12_340, i32::MAX, i32::MIN])),
        Category::Condition => Value::Condition(rng.pick(&LEVELS), code),
        _ => Value::Event(rng.pick(&[code, u32::MAX])),
    }
}

fn row(rng: &mut Rng, model: &Built) -> Row {
    let item = rng.below(model.items() as u64);
    let value = value(rng, model.category(item).unwrap());
    let time = rng.pick(&[0, 1, SIX, SIX + 250, 951_825_600_000, MAX_STAMP]);
    let number = rng.pick(&[0, 7, 1 << 40, u64::MAX]);
    Row { number, time, packed: (item << 40) + value.word() }
}

/// The words of a reply with these rows.
fn reply(head: [u64; 3], rows: &[Row]) -> Vec<u64> {
    let mut words = vec![rows.len() as u64];
    words.extend(head);
    words.extend(rows.iter().map(|row| row.number));
    words.extend(rows.iter().flat_map(|row| [row.time, row.packed]));
    words
}

/// A row's line, made of the adapter line of what it reports.
fn row_line(model: &Built, row: Row) -> String {
    let (item, value) = model.checked(row).unwrap();
    let line = Line::new(item as u64, row.time, value).unwrap().to_string();
    let (stamp, text) = (line.split('|').next().unwrap(), line.rsplit('|').next().unwrap());
    let stamp = if row.time == 0 { "1970-01-01T00:00:00.000Z" } else { stamp };
    let kind = model.item_type(item as u64).unwrap();
    let about = format!(r#" dataItemId="i{item}" sequence="{}" timestamp="{stamp}""#, row.number);
    match (value, text.split_once(':')) {
        (Value::Condition(level, _), Some((_, code))) => {
            format!("<{level:?}{about} type=\"{kind}\" nativeCode=\"{code}\"/>")
        }
        _ if model.category(item as u64) == Some(Category::Condition) => {
            format!("<Unavailable{about} type=\"{kind}\"/>")
        }
        _ => format!("<{0}{about}>{text}</{0}>", element(kind)),
    }
}

/// Where a row stands in the document: its component's place and its group.
fn place(model: &Built, row: Row) -> (Component, usize) {
    let group = match model.category(row.item()).unwrap() {
        Category::Sample => 0,
        Category::Condition => 2,
        _ => 1,
    };
    (model.component_of(row.item()).unwrap(), group)
}

/// The lines from the first component on.
fn streams_lines(model: &Built, rows: &[Row]) -> Vec<String> {
    let mut lines = Vec::new();
    let mut sorted = rows.to_vec();
    sorted.sort_by_key(|&row| place(model, row));
    for of_component in sorted.chunk_by(|&one, &other| place(model, one).0 == place(model, other).0) {
        let component = place(model, of_component[0]).0;
        let (name, index) = (model.component_type(component).unwrap(), component.0);
        lines.push(format!(r#"<ComponentStream component="{name}" name="{name}" componentId="c{index}">"#));
        for of_group in of_component.chunk_by(|&one, &other| place(model, one) == place(model, other)) {
            let group = ["Samples", "Events", "Condition"][place(model, of_group[0]).1];
            lines.push(format!("<{group}>"));
            lines.extend(of_group.iter().map(|&row| row_line(model, row)));
            lines.push(format!("</{group}>"));
        }
        lines.push("</ComponentStream>".to_string());
    }
    lines
}

fn text(document: &[u8]) -> &str {
    std::str::from_utf8(document).unwrap()
}

#[test]
fn documents_have_the_reply_s_rows_each_once() {
    let (mut rng, model) = (Rng::new(7), model());
    for _ in 0..2000 {
        let rows: Vec<Row> = (0..rng.below(12)).map(|_| row(&mut rng, &model)).collect();
        let head = [rng.below(9), rng.next(), rng.next() | 1];
        let words = reply(head, &rows);
        let read = Observations::read(&words).unwrap();
        let (n, instance) = (rng.next(), rng.below(3));
        let mut room = vec![BLANK; model.streams_bytes(rows.len())];
        let document = model.streams(&read, n, instance, SIX, &mut room).unwrap().to_vec();
        let lines: Vec<&str> = text(&document).split('\n').collect();
        let [first, last, next] = head;
        let header = [
            r#"<Header creationTime="2026-09-14T06:00:00.000Z" sender="box""#.to_string(),
            format!(r#"instanceId="{instance}" bufferSize="{n}" version="1.2""#),
            format!(r#"nextSequence="{next}" firstSequence="{first}" lastSequence="{last}"/>"#),
        ];
        assert_eq!(lines[0], r#"<?xml version="1.0" encoding="UTF-8"?>"#);
        assert_eq!(lines[1], r#"<MTConnectStreams xmlns="urn:mtconnect.org:MTConnectStreams:1.2">"#);
        assert_eq!(lines[2], header.join(" "));
        assert_eq!(lines[lines.len() - 2..], ["</MTConnectStreams>", ""]);
        let streams = &lines[3..lines.len() - 2];
        if rows.is_empty() {
            assert_eq!(streams, ["<Streams/>"]);
        } else {
            assert_eq!(streams[..2], ["<Streams>", r#"<DeviceStream name="Device" uuid="Device">"#]);
            assert_eq!(streams[streams.len() - 2..], ["</DeviceStream>", "</Streams>"]);
            assert_eq!(streams[2..streams.len() - 2], streams_lines(&model, &rows));
        }
        exact_room(&model, &read, n, instance, &document);
    }
}

/// As many bytes as the document has are enough, one less is refused, and bytes behind it stay.
fn exact_room(model: &Built, read: &Observations<'_>, n: u64, instance: u64, document: &[u8]) {
    let mut longer = vec![BLANK; document.len() + 40];
    assert_eq!(model.streams(read, n, instance, SIX, &mut longer), Ok(document));
    assert!(longer[document.len()..].iter().all(|&byte| byte == BLANK));
    let mut exact = vec![BLANK; document.len()];
    assert_eq!(model.streams(read, n, instance, SIX, &mut exact), Ok(document));
    let mut short = vec![BLANK; document.len() - 1];
    assert_eq!(model.streams(read, n, instance, SIX, &mut short), Err(Refusal::Space));
    assert!(short.iter().all(|&byte| byte == BLANK));
}

/// A type of so many digits and letters, the longest there are: its element has 25 bytes.
fn longest_type(number: usize) -> String {
    format!("{number:02}{}", "a".repeat(22))
}

/// Components of the longest names, and in each a sample, an event and a condition.
fn longest_model(components: usize) -> Built {
    let items = 3 * components;
    let mut words = vec![0; mtcore::model_words(components, items)];
    let mut names = vec![0; mtcore::name_bytes(components + items)];
    let mut build = ModelBuilder::new(&mut words, &mut names, &longest_type(0)).unwrap();
    let mut all = vec![Component::DEVICE];
    all.extend(
        (1..components).map(|place| build.component(Component::DEVICE, &longest_type(place)).unwrap()),
    );
    for (place, component) in all.into_iter().enumerate() {
        for (kind, category) in
            [Category::Sample, Category::Event, Category::Condition].into_iter().enumerate()
        {
            build.item(component, category, &longest_type(components + 3 * place + kind)).unwrap();
        }
    }
    let built = build.finish().unwrap();
    Model::new(built.words().to_vec(), built.names().to_vec()).unwrap()
}

/// Every number, stamp, name and value is as long as it can be. What is left to the bound is that an index or an
/// item below 10 has one digit, and that an event has a byte less than a sample, and a condition three.
#[test]
fn the_longest_documents_keep_to_the_bound() {
    let longest =
        [Value::Sample(i32::MIN), Value::Unavailable, Value::Condition(Level::Warning, (1 << 24) - 1)];
    let row = |item: u64| {
        let packed = (item << 40) + longest[item as usize % 3].word();
        Row { number: u64::MAX, time: MAX_STAMP, packed }
    };
    for (components, further) in [(1, 0), (4, 0), (21, 0), (21, 1000), (21, MAX_PLACES - 63)] {
        let model = longest_model(components);
        let items = 3 * components as u64;
        // One of each item, then the longest of all: samples of the last component.
        let rows: Vec<Row> = (0..items).chain((0..further).map(|_| items - 3)).map(row).collect();
        let words = reply([u64::MAX; 3], &rows);
        let bound = mtcore::streams_bytes(components, rows.len());
        let mut room = vec![BLANK; bound];
        let read = Observations::read(&words).unwrap();
        let document = model.streams(&read, u64::MAX, u64::MAX, MAX_STAMP, &mut room).unwrap();
        let one_digit = components.min(10) + (3 * components).min(10);
        assert_eq!(bound - document.len(), one_digit + components * (1 + 3), "{components} {further}");
    }
    let largest = mtcore::streams_bytes(mtcore::MAX_COMPONENTS, MAX_PLACES);
    assert_eq!(largest, 20_197_679);
}

/// A word of each row, and of the reply, is made wrong, with all that comes behind it in the order.
#[test]
fn documents_are_refused_in_order() {
    let model = model();
    let sample = (3 << 40) + Value::Sample(5).word();
    let rows = [Row { number: 7, time: SIX, packed: sample }, Row { number: 8, time: SIX, packed: sample }];
    let good = reply([1, 8, 9], &rows);
    let write = |words: &[u32], reply: &[u64], time: u64| {
        let mut room = [BLANK; 8];
        let answer = mtcore::streams(words, model.names(), reply, 3, 1, time, &mut room);
        assert_eq!(room, [BLANK; 8]);
        answer
    };
    let with = |place: usize, word: u64| {
        let mut words = good.clone();
        words[place] = word;
        words
    };
    let late = MAX_STAMP + 1;
    assert_eq!(write(&[9; 8], &good[..3], late), Err(Refusal::Model));
    for length in 0..good.len() {
        assert_eq!(write(model.words(), &good[..length], late), Err(Refusal::Store), "{length}");
    }
    for k in [3, 4, 1 << 32, u64::MAX / 3 + 1, u64::MAX / 3 + 2, u64::MAX] {
        assert_eq!(write(model.words(), &with(0, k), late), Err(Refusal::Store), "{k}");
    }
    let (item, kind) = (1 << 40, 1 << 32);
    let wrong =
        [13 * item, 3 * item + 1, 3 * item + 2 * kind, 2 * item + kind, 3 * kind + (3 << 24), 4 * kind];
    for packed in wrong.into_iter().chain([u64::MAX]) {
        for place in [7, 9] {
            assert_eq!(write(model.words(), &with(place, packed), late), Err(Refusal::Store), "{packed}");
        }
    }
    for place in [6, 8] {
        assert_eq!(write(model.words(), &with(place, late), SIX), Err(Refusal::Stamp));
        assert_eq!(write(model.words(), &with(place, MAX_STAMP), SIX), Err(Refusal::Space));
    }
    assert_eq!(write(model.words(), &good, late), Err(Refusal::Stamp));
    assert_eq!(write(model.words(), &good, MAX_STAMP), Err(Refusal::Space));
}

/// The bench case of the specification, by an agent: its ring is what the header calls bufferSize.
#[test]
fn the_document_of_the_bench_case() {
    let names = mtcore::names(["Device", "Axes", "AVAILABILITY", "POSITION"]).unwrap();
    let model = Model::new([2, 2, 0, 1, 65_538, 259], names.as_flattened()).unwrap();
    let sizes = Sizes { places: 3, cells: 2, origin: 1 };
    let (observations, assets) = ([0; mtcore::observation_words(3, 2)], [0; mtcore::asset_bytes(2)]);
    let mut agent = Agent::start(model, observations, assets, sizes, 1000).unwrap();
    agent.observe(1, 1010, 1010, Value::Sample(5000)).unwrap();
    agent.observe(1, 1030, 1030, Value::Sample(-1)).unwrap();
    let (mut words, mut room) = (vec![0; agent.reply_words(3)], [BLANK; mtcore::streams_bytes(2, 3)]);
    let Ok(Reply::Observations(rows)) = agent.request(b"/sample", &mut words) else {
        panic!("a sample is answered");
    };
    let document = agent.streams(&rows, 1, 2000, &mut room).unwrap();
    assert_eq!(text(document), include_str!("../../../examples/streams.out"));
    assert_eq!(document.len(), 750);
}
