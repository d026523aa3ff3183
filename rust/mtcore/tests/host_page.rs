//! docs/HOST.md and the crate say the same: its tables of sizes, of categories, of conditions, of adapter lines,
//! of requests, of documents, of refusals and of what is late and early, and its version.

use mtcore::{
    Agent, AssetRow, Category, Component, Level, Model, ModelBuilder, Observed, Refusal, Reply, Row, Sizes,
    Value,
};

const PAGE: &str = include_str!("../../../docs/HOST.md");
const CHANGES: &str = include_str!("../../../CHANGELOG.md");
const PLACES: usize = 8;
const CELLS: usize = 3;

type Mill = Agent<Vec<u32>, Vec<u8>, Vec<u64>, Vec<u8>>;

/// The cells of each row of the table that begins with this head, without its two first lines.
#[track_caller]
fn table(head: &str) -> Vec<Vec<&'static str>> {
    let lines = PAGE.lines().skip_while(|line| !line.starts_with(head)).skip(2);
    let rows: Vec<Vec<_>> = lines.take_while(|line| line.starts_with('|')).map(cells).collect();
    assert!(!rows.is_empty(), "the page has no table {head}");
    rows
}

fn cells(line: &str) -> Vec<&str> {
    line.trim_matches('|').split('|').map(str::trim).collect()
}

/// The page's mill: Linear stands below Axes, and Coolant has no items.
fn mill() -> Mill {
    let (mut words, mut names) = ([0; mtcore::model_words(5, 5)], [0; mtcore::name_bytes(10)]);
    let mut build = ModelBuilder::new(&mut words, &mut names, "Device").unwrap();
    let axes = build.component(Component::DEVICE, "Axes").unwrap();
    let linear = build.component(axes, "Linear").unwrap();
    let controller = build.component(Component::DEVICE, "Controller").unwrap();
    build.component(Component::DEVICE, "Coolant").unwrap();
    build.item(Component::DEVICE, Category::Event, "AVAILABILITY").unwrap();
    build.item(linear, Category::Sample, "POSITION").unwrap();
    build.item(controller, Category::Event, "EXECUTION").unwrap();
    build.item(controller, Category::Condition, "SYSTEM").unwrap();
    build.item(Component::DEVICE, Category::AssetChange, "ASSET_CHANGED").unwrap();
    let built = build.finish().unwrap();
    let model = Model::new(built.words().to_vec(), built.names().to_vec()).unwrap();
    let (observations, assets) =
        (vec![0; mtcore::observation_words(PLACES, 5)], vec![0; mtcore::asset_bytes(CELLS)]);
    let sizes = Sizes { places: PLACES as u64, cells: CELLS as u64, origin: 1 };
    Agent::start(model, observations, assets, sizes, 1000).unwrap()
}

/// The eight calls behind the page's first line.
fn work(mill: &mut Mill) -> Result<(), Refusal> {
    mill.observe(0, 1001, 1001, Value::Event(1))?;
    mill.observe(1, 1002, 1002, Value::Sample(1250))?;
    mill.observe(2, 1003, 1003, Value::Event(2))?;
    mill.observe(1, 1004, 1004, Value::Sample(1260))?;
    mill.store_asset(b"T17", b"drill, 8 mm", 1005)?;
    mill.observe(3, 1006, 1006, Value::Condition(Level::Warning, 77))?;
    mill.store_asset(b"T4", b"mill", 1007)?;
    mill.observe(1, 1008, 1008, Value::Sample(-1)).map(|_| ())
}

fn said(value: Value) -> String {
    match value {
        Value::Unavailable => "Unavailable".to_string(),
        Value::Sample(thousandths) => thousandths.to_string(),
        Value::Event(code) => code.to_string(),
        Value::Condition(level, code) => format!("{level:?} {code}"),
    }
}

fn observation(mill: &Mill, row: Row) -> String {
    let (item, value) = mill.model().checked(row).unwrap();
    format!("{} i{item} {}", row.number, said(value))
}

fn asset(mill: &Mill, row: AssetRow) -> String {
    let id = String::from_utf8_lossy(mill.cell_id(row.cell).unwrap());
    assert_eq!(mill.cell_body(row.cell).map(<[u8]>::len), Some(row.length as usize));
    format!("cell {} {id}, {} bytes", row.cell, row.length)
}

/// The cells of the page's table for a text: refusal, k, sizes, rows.
fn asked(mill: &Mill, text: &str) -> [String; 4] {
    let mut reply = vec![0; mill.reply_words(PLACES)];
    match mill.request(text.as_bytes(), &mut reply) {
        Err(refusal) => [refusal.number().to_string(), String::new(), String::new(), String::new()],
        Ok(Reply::Observations(read)) => {
            let rows: Vec<_> = read.rows().map(|row| observation(mill, row)).collect();
            let sizes = format!("{}, {}, {}", read.first, read.last, read.next);
            ["0".to_string(), read.len().to_string(), sizes, rows.join("; ")]
        }
        Ok(Reply::Assets(read)) => {
            let rows: Vec<_> = read.rows().map(|row| asset(mill, row)).collect();
            let sizes = format!("{} of {} cells", read.used, read.cells);
            ["0".to_string(), read.len().to_string(), sizes, rows.join("; ")]
        }
    }
}

#[test]
fn requests_are_answered_as_the_page_says() {
    let mut mill = mill();
    for (place, row) in table("| text | refusal |").into_iter().enumerate() {
        if place == 1 {
            work(&mut mill).unwrap();
        }
        let text = row[0].trim_matches('`');
        assert_eq!(asked(&mill, text), row[1..], "{text}");
    }
}

/// The numbers of the mill that a row of the page's table of late and early is about: it holds 6 to 13.
fn numbers(row: &str) -> Vec<u64> {
    match row {
        "0" => vec![0],
        "below first" => (1..6).collect(),
        "first to last" => (6..14).collect(),
        "last + 1" => vec![14],
        "above last + 1" => vec![15, 16, 1000, (1 << 63) - 1],
        other => panic!("the page has a row {other}"),
    }
}

#[test]
fn late_and_early_are_as_the_page_says() {
    let mut mill = mill();
    work(&mut mill).unwrap();
    let rows = table("| number | `from` | `at` |");
    assert_eq!(rows.len(), 5);
    for row in rows {
        for (parameter, said) in [("/sample?from=", row[1]), ("/current?at=", row[2])] {
            for number in numbers(row[0]) {
                let text = format!("{parameter}{number}");
                let refusal = match asked(&mill, &text)[0].as_str() {
                    "0" => "accepted",
                    "17" => "17, late",
                    "18" => "18, early",
                    other => panic!("{text} is refused with {other}"),
                };
                assert!(said.starts_with(refusal), "{text}: {refusal}, and the page says {said}");
            }
        }
    }
}

/// A device with one item of this category.
fn one_item(category: Category) -> Mill {
    of_type(category, "Device")
}

/// And of this type, which is the device's too.
fn of_type(category: Category, kind: &str) -> Mill {
    let names = mtcore::names([kind]).unwrap().as_flattened().to_vec();
    let words = vec![1, 1, 0, mtcore::item_word(category, Component::DEVICE, 0)];
    let (observations, assets) =
        (vec![0; mtcore::observation_words(PLACES, 1)], vec![0; mtcore::asset_bytes(CELLS)]);
    let sizes = Sizes { places: PLACES as u64, cells: CELLS as u64, origin: 1 };
    Agent::start(Model::new(words, names).unwrap(), observations, assets, sizes, 1000).unwrap()
}

/// The condition that is said so.
#[track_caller]
fn condition(text: &str) -> Value {
    let levels = [Level::Normal, Level::Warning, Level::Fault];
    let codes = text.split(' ').filter_map(|word| word.parse().ok());
    let conditions = codes.flat_map(|code| levels.map(|level| Value::Condition(level, code)));
    let found = conditions.chain([Value::Unavailable]).find(|&value| said(value) == text);
    found.unwrap_or_else(|| panic!("the page has a condition {text}"))
}

#[test]
fn conditions_are_as_the_page_says() {
    let mut mill = one_item(Category::Condition);
    let rows = table("| observed | answer |");
    assert_eq!(rows[0][..2], ["", ""], "the first line is right behind start");
    for (place, row) in rows.into_iter().enumerate() {
        if place > 0 {
            let answer = match mill.observe(0, 0, 1001, condition(row[0])) {
                Ok(Observed::Recorded(number)) => number.to_string(),
                Ok(Observed::Same) => "Same".to_string(),
                Err(refusal) => format!("refused: {}", refusal.number()),
            };
            assert_eq!(answer, row[1], "{row:?}");
        }
        let shown = asked(&mill, "/current")[3].replace(" i0 ", " ");
        assert_eq!(shown, row[2], "{row:?}");
    }
}

/// The columns of each line of the block that begins with this head, which is a line of its own.
#[track_caller]
fn block(head: &str) -> Vec<Vec<&'static str>> {
    let lines = PAGE.lines().skip_while(|line| !line.trim_start().starts_with(head)).skip(1);
    let rows: Vec<Vec<_>> = lines.take_while(|line| line.starts_with("    ")).map(columns).collect();
    assert!(!rows.is_empty(), "the page has no block {head}");
    rows
}

/// Two blanks and more stand between columns, and one may stand inside.
fn columns(line: &str) -> Vec<&str> {
    line.split("  ").map(str::trim).filter(|column| !column.is_empty()).collect()
}

/// The mill of the page's lines: an item of each category.
fn line_mill() -> Mill {
    let (mut words, mut names) = ([0; mtcore::model_words(1, 5)], [0; mtcore::name_bytes(6)]);
    let mut build = ModelBuilder::new(&mut words, &mut names, "Device").unwrap();
    build.item(Component::DEVICE, Category::Event, "EXECUTION").unwrap();
    build.item(Component::DEVICE, Category::Sample, "POSITION").unwrap();
    build.item(Component::DEVICE, Category::Condition, "SYSTEM").unwrap();
    build.item(Component::DEVICE, Category::Discrete, "PART_COUNT").unwrap();
    build.item(Component::DEVICE, Category::AssetChange, "ASSET_CHANGED").unwrap();
    let built = build.finish().unwrap();
    let model = Model::new(built.words().to_vec(), built.names().to_vec()).unwrap();
    let (observations, assets) =
        (vec![0; mtcore::observation_words(PLACES, 5)], vec![0; mtcore::asset_bytes(CELLS)]);
    let sizes = Sizes { places: PLACES as u64, cells: CELLS as u64, origin: 1 };
    Agent::start(model, observations, assets, sizes, LINES_READ).unwrap()
}

/// 2026-09-14T06:00:01Z, the host time of the page's lines.
const LINES_READ: u64 = 1_789_365_601_000;

/// The columns behind a line that was recorded: its value, and the line that is written of it.
fn recorded(mill: &Mill, number: u64) -> [String; 2] {
    let (text, mut reply) = (format!("/sample?from={number}&count=1"), [0; mtcore::reply_words(1)]);
    let Ok(Reply::Observations(read)) = mill.request(text.as_bytes(), &mut reply) else {
        panic!("{text} is answered");
    };
    let row = read.row(0).unwrap();
    let (item, value) = mill.model().checked(row).unwrap();
    let words = if let Value::Event(code) = value { format!("code {code}") } else { said(value) };
    let mut room = [0; mtcore::LINE_BYTES];
    let line = mill.write_line(item as u64, row.time, value, &mut room).unwrap();
    assert_eq!(line, mtcore::Line::new(item as u64, row.time, value).unwrap().to_string().as_bytes());
    [words, String::from_utf8(line.to_vec()).unwrap()]
}

#[test]
fn lines_are_read_as_the_page_says() {
    let mut mill = line_mill();
    for row in block("line                               answer") {
        match mill.read_line(row[0].as_bytes(), LINES_READ) {
            Ok(Observed::Recorded(number)) => {
                assert_eq!(row[1], number.to_string(), "{row:?}");
                assert_eq!(row[2..], recorded(&mill, number), "{row:?}");
            }
            Ok(Observed::Same) => assert_eq!(row[1..], ["Same"], "{row:?}"),
            Err(refusal) => panic!("{row:?}: {refusal}"),
        }
    }
}

#[test]
fn lines_are_refused_as_the_page_says() {
    let mut mill = line_mill();
    let before = mill.observations().to_vec();
    for row in block("line                                     refusal") {
        let line = row[0].replace("\\r", "\r");
        let refusal = mill.read_line(line.as_bytes(), LINES_READ).err();
        assert_eq!(refusal.map(|refusal| refusal.number().to_string()).as_deref(), Some(row[1]), "{row:?}");
        assert_eq!(mill.observations(), before, "{row:?}");
    }
    assert_eq!(mill.read_line(b"", LINES_READ), Err(Refusal::Line));
}

/// A number of the page, written with commas.
fn figure(text: &str) -> usize {
    text.replace(',', "").parse().unwrap_or_else(|_| panic!("the page has a figure {text}"))
}

#[test]
fn sizes_are_as_the_page_says() {
    let rows = table("| box | N | items |");
    assert_eq!(rows.len(), 3);
    for row in rows {
        let words = mtcore::observation_words(figure(row[1]), figure(row[2]));
        let (said_words, said_bytes) = row[3].split_once(" words, ").unwrap();
        assert_eq!(figure(said_words), words, "{row:?}");
        assert_eq!(figure(said_bytes.trim_end_matches(" bytes")), 8 * words, "{row:?}");
    }
    let largest: Vec<usize> = table("| buffer | size |")
        .into_iter()
        .filter(|row| row[0].starts_with("observation store") || row[0].starts_with("reply"))
        .map(|row| figure(row[2].trim_end_matches(" bytes")))
        .collect();
    let (places, items) = (mtcore::MAX_PLACES, mtcore::MAX_ITEMS);
    let words = [
        mtcore::observation_words(places, items),
        mtcore::sample_words(places, Some(places)),
        mtcore::current_words(items),
        mtcore::assets_words(mtcore::MAX_CELLS),
    ];
    assert_eq!(largest, words.map(|words| 8 * words));
    let lines: Vec<usize> = table("| buffer | size |")
        .into_iter()
        .filter(|row| row[0].starts_with("a line"))
        .map(|row| figure(row[2].trim_end_matches(" bytes")))
        .collect();
    assert_eq!(lines, [mtcore::MAX_LINE + 2, mtcore::LINE_BYTES]);
    let mut documents = table("| buffer | size |").into_iter().filter(|row| row[0] == "a streams document");
    let largest = documents.next().map(|row| figure(row[2].trim_end_matches(" bytes")));
    assert_eq!(largest, Some(mtcore::streams_bytes(mtcore::MAX_COMPONENTS, places)));
}

#[test]
fn sizes_of_documents_are_as_the_page_says() {
    for row in table("| rows | components | bytes |") {
        let rows = figure(row[0].split(", ").next().unwrap());
        assert_eq!(mtcore::streams_bytes(figure(row[1]), rows), figure(row[2]), "{row:?}");
    }
}

/// The document of a request, at time 2000 and of instance 1.
fn document(mill: &Mill, text: &str) -> String {
    let mut reply = vec![0; mill.reply_words(PLACES)];
    let Ok(Reply::Observations(rows)) = mill.request(text.as_bytes(), &mut reply) else {
        panic!("{text} is answered");
    };
    let mut room = vec![0; mill.model().streams_bytes(rows.len())];
    String::from_utf8(mill.streams(&rows, 1, 2000, &mut room).unwrap().to_vec()).unwrap()
}

#[test]
fn the_document_is_the_page_s() {
    let mut mill = mill();
    work(&mut mill).unwrap();
    let (_, behind) = PAGE.split_once("<!-- examples/requests /current -->\n").unwrap();
    let (inside, _) = behind.split_once("<!-- end -->").unwrap();
    let lines: Vec<&str> = inside.lines().filter_map(|line| line.strip_prefix("    ")).collect();
    assert_eq!(document(&mill, "/current").lines().collect::<Vec<_>>(), lines);
}

#[test]
fn elements_are_as_the_page_says() {
    for row in table("| type | element |") {
        let (kind, element) = (row[0].trim_matches('`'), row[1].trim_matches('`'));
        for category in [Category::Sample, Category::Event, Category::Discrete] {
            let written = document(&of_type(category, kind), "/current");
            let line = format!("<{element} dataItemId=\"i0\" ");
            assert!(written.lines().any(|row| row.starts_with(&line)), "{kind}: {element}");
        }
    }
}

/// The errorCodes of the table behind the error document are those of the refusals.
#[test]
fn error_documents_have_the_refusals_codes() {
    let rows = table("| from the core | errorCode |");
    let mut named: Vec<u64> = Vec::new();
    for row in &rows {
        for number in row[0].split(", ").map(|number| number.parse().unwrap()) {
            let code = Refusal::from_number(number).and_then(Refusal::error_code);
            assert_eq!(code, Some(row[1]), "{row:?}");
            named.push(number);
        }
    }
    named.sort_unstable();
    let with_code = |number: &u64| Refusal::from_number(*number).and_then(Refusal::error_code).is_some();
    assert_eq!(named, (1..64).filter(with_code).collect::<Vec<_>>());
}

const KINDS: [(&str, Value); 3] = [
    ("samples", Value::Sample(5)),
    ("events", Value::Event(5)),
    ("conditions", Value::Condition(Level::Fault, 5)),
];

/// Gives the item its value once more, and tells the newest number.
fn repeat(mill: &mut Mill) -> u64 {
    for (_, value) in KINDS {
        assert!(matches!(mill.observe(0, 0, 1001, value), Ok(_) | Err(Refusal::Kind)));
    }
    mill.store_asset(b"T17", b"drill, 8 mm", 1002).unwrap();
    mill.observations()[3]
}

#[test]
fn categories_are_as_the_page_says() {
    let categories =
        [Category::Sample, Category::Event, Category::Condition, Category::AssetChange, Category::Discrete];
    let rows = table("| category |");
    assert_eq!(rows.len(), categories.len());
    for (row, category) in rows.into_iter().zip(categories) {
        assert_eq!(row[0], (category as u8).to_string());
        assert!(row[1].ends_with(&format!("{category:?}`")), "{row:?}");
        let mut mill = one_item(category);
        for (kind, value) in KINDS {
            assert_eq!(mill.observe(0, 0, 1001, value).is_ok(), row[3] == kind, "{row:?}");
        }
        let before = repeat(&mut mill);
        let equal = if repeat(&mut mill) > before { "recorded" } else { "Same" };
        assert_eq!(row[4], equal, "{row:?}");
    }
}

#[test]
fn refusals_have_the_page_s_error_codes() {
    let rows = table("| No. | name |");
    let numbers: Vec<u64> = rows.iter().map(|row| row[0].parse().unwrap()).collect();
    assert_eq!(numbers, (1..=11).chain(13..=21).collect::<Vec<_>>());
    for (row, number) in rows.into_iter().zip(numbers) {
        let refusal = Refusal::from_number(number).unwrap();
        assert!(!matches!(refusal, Refusal::Unknown { .. }), "{number}");
        assert_eq!(refusal.error_code().unwrap_or(""), row[2], "{refusal:?}");
    }
}

/// The page names this version, and the newest entry of the changes is about it.
#[test]
fn the_page_s_version_is_this_one() {
    let (major, minor) = (env!("CARGO_PKG_VERSION_MAJOR"), env!("CARGO_PKG_VERSION_MINOR"));
    let version = format!("{major}.{minor}, layout {}", mtcore::LAYOUT);
    assert!(PAGE.contains(&format!("This is version {version}.")), "{version}");
    let newest = CHANGES.lines().find_map(|line| line.strip_prefix("## "));
    assert_eq!(newest, Some(&version[..]));
}
