//! The C header and the crate say the same numbers, and declare the same functions.

use mtcore::{Category, Level, Refusal};

const HEADER: &str = include_str!("../../../include/mtcore.h");
const FFI: &str = include_str!("../src/ffi.rs");

/// The number of a `#define NAME number`, or of an enum's `NAME = number`.
#[track_caller]
fn number(name: &str) -> u64 {
    let named = |line: &&str| line.split_whitespace().any(|word| word == name);
    let line = HEADER.lines().filter(named).find(|line| line.starts_with("#define") || line.contains(" = "));
    let behind =
        line.and_then(|line| line.split_once(name)).map(|(_, behind)| behind.trim_start_matches([' ', '=']));
    let digits = behind.and_then(|behind| behind.split(|c: char| !c.is_ascii_digit()).next());
    digits
        .and_then(|digits| digits.parse().ok())
        .unwrap_or_else(|| panic!("mtcore.h has no number for {name}"))
}

/// `InvalidUri` is `MTCORE_INVALID_URI`.
fn c_name(rust: &str) -> String {
    let parts =
        rust.chars()
            .map(|c| if c.is_ascii_uppercase() { format!("_{c}") } else { c.to_uppercase().collect() });
    format!("MTCORE{}", parts.collect::<String>())
}

/// Each has its number in the header, and 12 is none's.
#[test]
fn refusals() {
    let numbers: Vec<u64> = (1..=11).chain(13..=21).collect();
    for &number_here in &numbers {
        let refusal = Refusal::from_number(number_here).unwrap();
        assert_eq!(number(&c_name(&format!("{refusal:?}"))), number_here);
    }
    let body = HEADER.split_once("enum mtcore_refusal {").unwrap().1.split_once("};").unwrap().0;
    assert_eq!(body.matches(" = ").count(), numbers.len(), "a refusal of the header has no name here");
}

#[test]
fn categories_and_levels() {
    let categories =
        [Category::Sample, Category::Event, Category::Condition, Category::AssetChange, Category::Discrete];
    for category in categories {
        let name = c_name(&format!("{category:?}")).replacen("MTCORE", "MTCORE_CATEGORY", 1);
        assert_eq!(number(&name), category as u64);
    }
    let body = HEADER.split_once("enum mtcore_category {").unwrap().1.split_once("};").unwrap().0;
    assert_eq!(body.matches(" = ").count(), categories.len(), "a category of the header has no name here");
    for level in [Level::Normal, Level::Warning, Level::Fault] {
        assert_eq!(number(&c_name(&format!("{level:?}"))), level as u64);
    }
}

/// The crate's version is the header's, and the layout of stores is one.
#[test]
fn version_and_layout() {
    let version =
        [env!("CARGO_PKG_VERSION_MAJOR"), env!("CARGO_PKG_VERSION_MINOR")].map(|part| part.parse().unwrap());
    assert_eq!([number("MTCORE_VERSION_MAJOR"), number("MTCORE_VERSION_MINOR")], version);
    assert_eq!(number("MTCORE_LAYOUT"), u64::from(mtcore::LAYOUT));
}

#[test]
fn limits() {
    let limits = [
        ("MTCORE_MAX_N", mtcore::MAX_PLACES),
        ("MTCORE_MAX_A", mtcore::MAX_CELLS),
        ("MTCORE_MAX_BODY", mtcore::MAX_BODY),
        ("MTCORE_MAX_ID", mtcore::MAX_ID),
        ("MTCORE_MAX_TEXT", mtcore::MAX_TEXT),
        ("MTCORE_MAX_NAMED", mtcore::MAX_NAMED),
        ("MTCORE_DEFAULT_COUNT", mtcore::DEFAULT_COUNT),
        ("MTCORE_MAX_BATCH", mtcore::MAX_BATCH),
        ("MTCORE_MAX_ACTIVE", mtcore::MAX_ACTIVE),
        ("MTCORE_LINE_BYTES", mtcore::LINE_BYTES),
        ("MTCORE_MAX_LINE", mtcore::MAX_LINE),
        ("MTCORE_NAME", mtcore::NAME_BYTES),
    ];
    for (name, limit) in limits {
        assert_eq!(number(name), limit as u64, "{name}");
    }
    let stamp = format!("#define MTCORE_MAX_STAMP UINT64_C({})", mtcore::MAX_STAMP);
    assert!(HEADER.lines().any(|line| line == stamp), "{stamp}");
}

/// The bytes of a document around its components, of a component and of a row.
#[test]
fn sizes_of_documents() {
    let around = mtcore::streams_bytes(0, 0);
    let (component, row) = (mtcore::streams_bytes(1, 0) - around, mtcore::streams_bytes(0, 1) - around);
    let sum = format!("({around} + {component} * (size_t)(components) + {row} * (size_t)(rows))");
    let define = format!("#define MTCORE_STREAMS_BYTES(components, rows) {sum}");
    assert!(HEADER.lines().any(|line| line == define), "{define}");
}

/// Of every function declared, its name and its arguments' names. A mention in a comment declares nothing.
fn declared(text: &str, argument: fn(&str) -> &str) -> Vec<Vec<&str>> {
    let read = |(at, _)| {
        let (name, rest) = text.split_at(at).1.split_once('(')?;
        let (arguments, behind) = rest.split_once(')')?;
        let plain = name.chars().all(|c| c.is_ascii_lowercase() || c == '_');
        if !plain || !(behind.starts_with(';') || behind.starts_with(" -> ")) {
            return None;
        }
        let parts = arguments.split(',').map(str::trim).filter(|part| !part.is_empty());
        Some([name].into_iter().chain(parts.map(argument)).collect())
    };
    text.match_indices("mtcore_").filter_map(read).collect()
}

/// The header's calls are those of `ffi::raw`, with the same arguments in the same order.
#[test]
fn functions() {
    let calls = HEADER.split_once("} mtcore_answer;").unwrap().1;
    let c = declared(calls, |part| part.rsplit([' ', '*']).next().unwrap_or(part));
    let raw = FFI.split_once("extern \"C\" {").unwrap().1.split_once("\n}\n").unwrap().0;
    let rust = declared(raw, |part| part.split(':').next().unwrap_or(part));
    assert_eq!(c.len(), 9, "{c:?}");
    assert_eq!(c, rust);
}

/// A record's fields stand in the same order on both sides; `mtcore::Record` has C's layout.
#[test]
fn records() {
    let before = HEADER.split_once("} mtcore_record;").unwrap().0;
    let fields = before.rsplit_once("typedef struct {").unwrap().1;
    let words = fields.lines().filter_map(|line| line.trim().strip_prefix("uint64_t ")?.split_once(';'));
    assert_eq!(words.map(|(name, _)| name).collect::<Vec<_>>(), ["item", "time", "value"]);
    let record = mtcore::Record { item: 1, time: 2, value: 3 };
    assert_eq!(format!("{record:?}"), "Record { item: 1, time: 2, value: 3 }");
}
