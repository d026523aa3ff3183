//! Streams documents: whole ones written out, names, values, times and numbers at their bounds, what is refused and
//! in which order, and the room they need.

use differential::by_hand::ByHand;
use differential::call::{Answer, Call, Start};
use differential::documents::{self, packed, reply, Row};
use differential::fixture::{begin, core, names, start, Tested, UNWRITTEN};
use differential::pair::Pair;
use differential::rng::Rng;
use differential::settings;
use differential::under_test::UnderTest;
use reference::calendar::LAST_TIME;
use reference::model::Model;
use reference::streams::Given;
use reference::{Clean, Value};

const GIVEN: Given = Given { n: 3, instance_id: 1, creation_time: 2000 };

/// The session of a model, with one of the names for each item and component.
fn session<'c>(core: &'c UnderTest, model: &[u32], list: &[&str]) -> Tested<'c> {
    begin(core, &start(model, &names(list), [3, 1, 1], 1000))
}

fn row(number: u64, time: u64, item: u64, kind: u64, low: u64) -> Row {
    Row { number, time, packed: packed(item, kind, low) }
}

/// The lines, each ended by a line feed.
fn lines(lines: &[&str]) -> String {
    lines.iter().flat_map(|line| [line, "\n"]).collect()
}

const DECLARATION: &str = r#"<?xml version="1.0" encoding="UTF-8"?>"#;
const ROOT: &str = r#"<MTConnectStreams xmlns="urn:mtconnect.org:MTConnectStreams:1.2">"#;

/// The document of a reply with sizes 2, 4 and 5, whose device's lines are these.
fn whole(device: &[&str]) -> String {
    let header = "<Header creationTime=\"1970-01-01T00:00:02.000Z\" sender=\"box\" instanceId=\"1\" \
                  bufferSize=\"3\" version=\"1.2\" nextSequence=\"5\" firstSequence=\"2\" lastSequence=\"4\"/>";
    let (front, back) = ([DECLARATION, ROOT, header, "<Streams>"], ["</Streams>", "</MTConnectStreams>"]);
    lines(&[&front[..], device, &back].concat())
}

/// The lines of a document that begin so.
fn beginning<'a>(document: &'a str, front: &str) -> Vec<&'a str> {
    document.lines().filter(|line| line.starts_with(front)).collect()
}

// ---- whole documents

/// The bench case's first request, byte for byte.
#[test]
fn the_bench_case() {
    let expected = r#"<?xml version="1.0" encoding="UTF-8"?>
<MTConnectStreams xmlns="urn:mtconnect.org:MTConnectStreams:1.2">
<Header creationTime="1970-01-01T00:00:02.000Z" sender="box" instanceId="1" bufferSize="3" version="1.2" nextSequence="5" firstSequence="2" lastSequence="4"/>
<Streams>
<DeviceStream name="Device" uuid="Device">
<ComponentStream component="Axes" name="Axes" componentId="c1">
<Samples>
<Position dataItemId="i1" sequence="2" timestamp="1970-01-01T00:00:01.000Z">UNAVAILABLE</Position>
<Position dataItemId="i1" sequence="3" timestamp="1970-01-01T00:00:01.010Z">5</Position>
<Position dataItemId="i1" sequence="4" timestamp="1970-01-01T00:00:01.030Z">-0.001</Position>
</Samples>
</ComponentStream>
</DeviceStream>
</Streams>
</MTConnectStreams>
"#;
    assert_eq!(expected.len(), 750);
    let core = core();
    let list = ["Device", "Axes", "AVAILABILITY", "POSITION"];
    let mut session = session(&core, &[2, 2, 0, 1, 65_538, 259], &list);
    assert_eq!(session.observe(1, 1010, 1010, Value::Sample(5000)), 3);
    assert_eq!(session.observe(1, 1020, 1020, Value::Sample(5000)), 0);
    assert_eq!(session.observe(1, 0, 1030, Value::Sample(-1)), 4);
    let words = session.ask("/sample").unwrap();
    let c1 = [3, 2, 4, 5, 2, 3, 4, 1000, 1_099_511_627_776, 1010, 1_103_806_600_072, 1030, 1_108_101_562_367];
    assert_eq!(words, c1);
    let ((number, bytes), text) = session.streams(&words, GIVEN, 750);
    assert_eq!((number, bytes), (0, 750));
    assert_eq!(String::from_utf8(text).unwrap(), expected);
}

#[test]
fn no_rows() {
    let core = core();
    let mut session = session(&core, &[2, 2, 0, 1, 65_538, 259], &["Device", "Axes", "A", "P"]);
    let header = "<Header creationTime=\"1970-01-01T00:00:02.000Z\" sender=\"box\" instanceId=\"1\" \
                  bufferSize=\"3\" version=\"1.2\" nextSequence=\"5\" firstSequence=\"2\" lastSequence=\"4\"/>";
    let expected = lines(&[DECLARATION, ROOT, header, "<Streams/>", "</MTConnectStreams>"]);
    assert_eq!(session.document(&[0, 2, 4, 5], GIVEN), Ok(expected.clone()));
    // Words behind are no rows.
    assert_eq!(session.document(&[0, 2, 4, 5, 9, u64::MAX, u64::MAX], GIVEN), Ok(expected));
    let words = session.ask("/sample?from=3").unwrap();
    assert_eq!(words[0], 0);
    assert_eq!(beginning(&session.document(&words, GIVEN).unwrap(), "<Streams"), ["<Streams/>"]);
}

/// A sample, an event, a condition, an item of asset changes and a discrete event, on one component.
const EACH: [u32; 8] = [1, 5, 0, 1, 65_538, 131_075, 196_612, 262_149];
const EACH_NAMES: [&str; 6] = ["Device", "POSITION", "EXECUTION", "SYSTEM", "ASSET_CHANGED", "PART_COUNT"];

/// Every category, with its own kind and with Unavailable.
#[test]
fn each_category_and_kind() {
    let core = core();
    let mut session = session(&core, &EACH, &EACH_NAMES);
    let rows = [
        row(10, 1, 0, 1, 5500),
        row(11, 2, 1, 2, 3),
        row(12, 3, 2, 3, 0),
        row(13, 4, 2, 3, 7),
        row(14, 5, 2, 3, (1 << 24) + 77),
        row(15, 6, 2, 3, (2 << 24) + 502),
        row(16, 7, 2, 3, 2 << 24),
        row(17, 8, 3, 2, 0),
        row(18, 9, 4, 2, 1),
        row(20, 0, 0, 0, 0),
        row(21, 0, 1, 0, 0),
        row(22, 0, 2, 0, 0),
        row(23, 0, 3, 0, 0),
        row(24, 0, 4, 0, 0),
    ];
    let expected = whole(&[
        r#"<DeviceStream name="Device" uuid="Device">"#,
        r#"<ComponentStream component="Device" name="Device" componentId="c0">"#,
        r#"<Samples>"#,
        r#"<Position dataItemId="i0" sequence="10" timestamp="1970-01-01T00:00:00.001Z">5.5</Position>"#,
        r#"<Position dataItemId="i0" sequence="20" timestamp="1970-01-01T00:00:00.000Z">UNAVAILABLE</Position>"#,
        r#"</Samples>"#,
        r#"<Events>"#,
        r#"<Execution dataItemId="i1" sequence="11" timestamp="1970-01-01T00:00:00.002Z">3</Execution>"#,
        r#"<AssetChanged dataItemId="i3" sequence="17" timestamp="1970-01-01T00:00:00.008Z">0</AssetChanged>"#,
        r#"<PartCount dataItemId="i4" sequence="18" timestamp="1970-01-01T00:00:00.009Z">1</PartCount>"#,
        r#"<Execution dataItemId="i1" sequence="21" timestamp="1970-01-01T00:00:00.000Z">UNAVAILABLE</Execution>"#,
        r#"<AssetChanged dataItemId="i3" sequence="23" timestamp="1970-01-01T00:00:00.000Z">UNAVAILABLE</AssetChanged>"#,
        r#"<PartCount dataItemId="i4" sequence="24" timestamp="1970-01-01T00:00:00.000Z">UNAVAILABLE</PartCount>"#,
        r#"</Events>"#,
        r#"<Condition>"#,
        r#"<Normal dataItemId="i2" sequence="12" timestamp="1970-01-01T00:00:00.003Z" type="SYSTEM" nativeCode="0"/>"#,
        r#"<Normal dataItemId="i2" sequence="13" timestamp="1970-01-01T00:00:00.004Z" type="SYSTEM" nativeCode="7"/>"#,
        r#"<Warning dataItemId="i2" sequence="14" timestamp="1970-01-01T00:00:00.005Z" type="SYSTEM" nativeCode="77"/>"#,
        r#"<Fault dataItemId="i2" sequence="15" timestamp="1970-01-01T00:00:00.006Z" type="SYSTEM" nativeCode="502"/>"#,
        r#"<Fault dataItemId="i2" sequence="16" timestamp="1970-01-01T00:00:00.007Z" type="SYSTEM" nativeCode="0"/>"#,
        r#"<Unavailable dataItemId="i2" sequence="22" timestamp="1970-01-01T00:00:00.000Z" type="SYSTEM"/>"#,
        r#"</Condition>"#,
        r#"</ComponentStream>"#,
        r#"</DeviceStream>"#,
    ]);
    assert_eq!(session.document(&reply([2, 4, 5], &rows), GIVEN), Ok(expected));
}

/// A device with two linear axes, and a controller below the first of them. Items: a condition and a sample of the
/// second axis, an event of the controller, a sample of the first axis, an event of the device.
const AXES: [u32; 11] = [4, 5, 0, 1, 1, 258, 131_587, 516, 66_308, 260, 65_540];
const AXES_NAMES: [&str; 5] = ["Mill", "Linear", "Controller", "TRAVEL_LIMIT", "POSITION"];

/// Two components of one type are two. A row stands under its own component and not under the one above it, and the
/// components come in the model's order, whatever the reply's is. A component without rows between two that have
/// some is left out, and so is a group.
#[test]
fn components_and_groups() {
    let core = core();
    let mut session = session(&core, &AXES, &AXES_NAMES);
    let rows =
        [row(4, 1000, 2, 2, 9), row(3, 1000, 0, 3, 1 << 24), row(2, 1000, 1, 1, 1), row(1, 1000, 3, 1, 2)];
    let expected = whole(&[
        r#"<DeviceStream name="Mill" uuid="Mill">"#,
        r#"<ComponentStream component="Linear" name="Linear" componentId="c1">"#,
        r#"<Samples>"#,
        r#"<Position dataItemId="i3" sequence="1" timestamp="1970-01-01T00:00:01.000Z">0.002</Position>"#,
        r#"</Samples>"#,
        r#"</ComponentStream>"#,
        r#"<ComponentStream component="Linear" name="Linear" componentId="c2">"#,
        r#"<Samples>"#,
        r#"<Position dataItemId="i1" sequence="2" timestamp="1970-01-01T00:00:01.000Z">0.001</Position>"#,
        r#"</Samples>"#,
        r#"<Condition>"#,
        r#"<Warning dataItemId="i0" sequence="3" timestamp="1970-01-01T00:00:01.000Z" type="TRAVEL_LIMIT" nativeCode="0"/>"#,
        r#"</Condition>"#,
        r#"</ComponentStream>"#,
        r#"<ComponentStream component="Controller" name="Controller" componentId="c3">"#,
        r#"<Events>"#,
        r#"<Position dataItemId="i2" sequence="4" timestamp="1970-01-01T00:00:01.000Z">9</Position>"#,
        r#"</Events>"#,
        r#"</ComponentStream>"#,
        r#"</DeviceStream>"#,
    ]);
    assert_eq!(session.document(&reply([2, 4, 5], &rows), GIVEN), Ok(expected));
    for (items, components) in [
        (&[4, 2][..], &["c0", "c3"][..]),
        (&[3, 2], &["c1", "c3"]),
        (&[2, 4, 1], &["c0", "c2", "c3"]),
        (&[2], &["c3"]),
        (&[2, 1, 3, 4], &["c0", "c1", "c2", "c3"]),
    ] {
        let categories = [2, 0, 1, 0, 1];
        let rows: Vec<Row> =
            items.iter().map(|&item: &u64| row(item, 0, item, categories[item as usize] + 1, 0)).collect();
        let document = session.document(&reply([1, 1, 2], &rows), GIVEN).unwrap();
        let ids: Vec<&str> = beginning(&document, "<ComponentStream")
            .iter()
            .map(|line| line.rsplit('"').nth(1).unwrap())
            .collect();
        assert_eq!(ids, components, "{items:?}");
    }
}

/// Rows of one item and group that the reply has apart, in falling order, and more than once: each is written once
/// for each time, in the reply's order.
#[test]
fn rows_repeated_and_in_any_order() {
    let core = core();
    let mut session = session(&core, &EACH, &EACH_NAMES);
    let (sample, event, fault) = (row(9, 5, 0, 1, 1000), row(8, 4, 1, 2, 8), row(7, 3, 2, 3, 2 << 24));
    let rows = [sample, event, sample, fault, row(6, 2, 0, 1, 2000), event, fault, sample];
    let document = session.document(&reply([2, 4, 5], &rows), GIVEN).unwrap();
    let stated: Vec<&str> = document.lines().skip(5).filter(|line| line.contains("sequence=")).collect();
    let numbers: Vec<&str> = stated.iter().map(|line| line.split('"').nth(3).unwrap()).collect();
    assert_eq!(numbers, ["9", "9", "6", "9", "8", "8", "7", "7"]);
    for group in ["<Samples>", "</Samples>", "<Events>", "</Events>", "<Condition>", "</Condition>"] {
        assert_eq!(beginning(&document, group).len(), 1, "{group}");
    }
}

/// A row of each of 64 items on 64 components, the last item on the last of them and on the first.
#[test]
fn all_items_and_components() {
    let core = core();
    let component = |index: u32| if index == 0 { 0 } else { (index - 1) * 256 };
    for turned in [false, true] {
        let mut model = vec![64, 64];
        model.extend((0..64).map(component));
        model.extend((0..64u32).map(|item| if turned { 63 - item } else { item } * 256 + 1));
        let mut session = session(&core, &model, &["Device", "POSITION"]);
        let rows: Vec<Row> = (0..64).map(|item| row(item, item, item, 1, item)).collect();
        let document = session.document(&reply([2, 4, 5], &rows), GIVEN).unwrap();
        let items = beginning(&document, "<Position").into_iter().map(|line| line.split('"').nth(1).unwrap());
        let expected: Vec<String> =
            (0..64).map(|at| format!("i{}", if turned { 63 - at } else { at })).collect();
        assert_eq!(items.collect::<Vec<_>>(), expected);
        let components = beginning(&document, "<ComponentStream");
        assert_eq!(components.len(), 64);
        assert!(components[63].ends_with(r#"componentId="c63">"#));
        let last = session.document(&reply([2, 4, 5], &rows[63..]), GIVEN).unwrap();
        let id = if turned { r#"componentId="c0">"# } else { r#"componentId="c63">"# };
        assert!(matches!(&beginning(&last, "<ComponentStream")[..], [line] if line.ends_with(id)));
    }
}

// ---- names

/// The element of a type, in the words of the paper and at the edges of its rule.
#[test]
fn elements_of_types() {
    let core = core();
    for (name, element) in [
        ("PATH_FEEDRATE", "PathFeedrate"),
        ("x9Y", "X9y"),
        ("3D_x", "T3dX"),
        ("_", "T"),
        ("__a", "A"),
        ("POSITION", "Position"),
        ("Position", "Position"),
        ("position", "Position"),
        ("pOSITION", "Position"),
        ("a", "A"),
        ("Z", "Z"),
        ("0", "T0"),
        ("9a", "T9a"),
        ("_9a", "T9a"),
        ("A_9A", "A9a"),
        ("a_b_c", "ABC"),
        ("a__b", "AB"),
        ("a_", "A"),
        ("A_B_", "AB"),
        ("__", "T"),
        ("t", "T"),
        ("T_", "T"),
        ("_t1", "T1"),
        ("AZaz09", "Azaz09"),
        ("AZ_az_09", "AzAz09"),
        ("9_9", "T99"),
        ("________________________", "T"),
        ("1_3_5_7_9_1_3_5_7_9_1_3_", "T135791357913"),
        ("ABCDEFGHIJKLMNOPQRSTUVWX", "Abcdefghijklmnopqrstuvwx"),
        ("012345678901234567890123", "T012345678901234567890123"),
    ] {
        assert_eq!(documents::pascal(name.as_bytes()), element, "{name}");
        let mut session = session(&core, &[1, 2, 0, 1, 131_073], &["Device", name]);
        let rows = [row(1, 0, 0, 1, 0), row(2, 0, 1, 3, 0), row(3, 0, 1, 0, 0)];
        let document = session.document(&reply([2, 4, 5], &rows), GIVEN).unwrap();
        let stamp = r#"timestamp="1970-01-01T00:00:00.000Z""#;
        let line = format!(r#"<{element} dataItemId="i0" sequence="1" {stamp}>0</{element}>"#);
        assert!(document.lines().any(|one| one == line), "{line} in {document}");
        // A condition has its type as it stands.
        for line in [
            format!(r#"<Normal dataItemId="i1" sequence="2" {stamp} type="{name}" nativeCode="0"/>"#),
            format!(r#"<Unavailable dataItemId="i1" sequence="3" {stamp} type="{name}"/>"#),
        ] {
            assert!(document.lines().any(|one| one == line), "{line} in {document}");
        }
    }
}

/// A device's and a component's type stand as they are.
#[test]
fn names_of_components() {
    let core = core();
    for name in ["_", "3D_x", "__a", "x9Y", "AZ_az_09", "ABCDEFGHIJKLMNOPQRSTUVWX"] {
        let mut session = session(&core, &[2, 1, 0, 1, 258], &[name, "b_C", "X"]);
        let document = session.document(&reply([2, 4, 5], &[row(1, 0, 0, 1, 0)]), GIVEN).unwrap();
        let device = format!(r#"<DeviceStream name="{name}" uuid="{name}">"#);
        assert_eq!(beginning(&document, "<DeviceStream"), [device]);
        let component = r#"<ComponentStream component="b_C" name="b_C" componentId="c1">"#;
        assert_eq!(beginning(&document, "<ComponentStream"), [component]);
    }
}

// ---- values, times, numbers

/// Values are written as in lines.
#[test]
fn texts_of_values() {
    let core = core();
    let mut session = session(&core, &EACH, &EACH_NAMES);
    for (item, kind, low, text) in [
        (0, 1, 0, "0"),
        (0, 1, 1, "0.001"),
        (0, 1, 10, "0.01"),
        (0, 1, 120, "0.12"),
        (0, 1, 999, "0.999"),
        (0, 1, 1000, "1"),
        (0, 1, 5050, "5.05"),
        (0, 1, 10_000, "10"),
        (0, 1, 0xffff_ffff, "-0.001"),
        (0, 1, (1 << 32) - 500, "-0.5"),
        (0, 1, (1 << 32) - 10_000, "-10"),
        (0, 1, (1 << 31) - 1, "2147483.647"),
        (0, 1, 1 << 31, "-2147483.648"),
        (0, 0, 0, "UNAVAILABLE"),
        (1, 2, 0, "0"),
        (1, 2, 10, "10"),
        (3, 2, 127, "127"),
        (3, 2, (1 << 32) - 1, "4294967295"),
        (4, 2, (1 << 32) - 1, "4294967295"),
    ] {
        let document = session.document(&reply([2, 4, 5], &[row(1, 0, item, kind, low)]), GIVEN).unwrap();
        let line = document.lines().find(|line| line.contains("dataItemId")).unwrap();
        assert_eq!(line.split(['>', '<']).nth(2), Some(text), "{line}");
    }
    let largest = row(1, 0, 2, 3, (3 << 24) - 1);
    let document = session.document(&reply([2, 4, 5], &[largest]), GIVEN).unwrap();
    assert!(document.contains(r#" type="SYSTEM" nativeCode="16777215"/>"#), "{document}");
}

/// Time 0 in full, the last millisecond of 2099, and the one behind it, which is refused wherever it stands.
#[test]
fn times() {
    let core = core();
    let mut session = session(&core, &EACH, &EACH_NAMES);
    for (time, stamp) in [
        (0, "1970-01-01T00:00:00.000Z"),
        (1, "1970-01-01T00:00:00.001Z"),
        (951_825_600_000, "2000-02-29T12:00:00.000Z"),
        (946_684_799_999, "1999-12-31T23:59:59.999Z"),
        (1_794_957_300_250, "2026-11-17T23:15:00.250Z"),
        (4_102_444_799_999, "2099-12-31T23:59:59.999Z"),
    ] {
        for item in [0, 1, 2] {
            let rows = reply([2, 4, 5], &[row(1, time, item, item + 1, 0)]);
            let document = session.document(&rows, Given { creation_time: time, ..GIVEN }).unwrap();
            assert_eq!(document.matches(stamp).count(), 2, "{time}: {document}");
        }
    }
    for late in [4_102_444_800_000, 4_102_444_800_001, 1 << 63, u64::MAX] {
        let creation = Given { creation_time: late, ..GIVEN };
        assert_eq!(session.document(&[0, 2, 4, 5], creation), Err(21), "{late}");
        let mut rows: Vec<Row> = (0..5).map(|at| row(at, LAST_TIME, at % 2, at % 2 + 1, 0)).collect();
        assert_eq!(session.document(&reply([2, 4, 5], &rows), creation), Err(21), "{late}");
        for at in 0..5 {
            let time = std::mem::replace(&mut rows[at].time, late);
            assert_eq!(session.document(&reply([2, 4, 5], &rows), GIVEN), Err(21), "{late} in row {at}");
            rows[at].time = time;
        }
        assert!(session.document(&reply([2, 4, 5], &rows), GIVEN).is_ok());
    }
}

/// Every number is written as it comes, up to the largest, and what the reply says of first, last and next is not
/// tested.
#[test]
fn numbers() {
    let core = core();
    let mut session = session(&core, &EACH, &EACH_NAMES);
    for number in [0, 1, 9, 10, 99, 100, 131_072, (1 << 63) - 1, 1 << 63, 10u64.pow(19), u64::MAX] {
        let rows = [row(number, 0, 0, 1, 0), row(number, 0, 2, 3, 0)];
        let [n, instance_id, next, first, last] = [3, 1, 5, 2, 4];
        for place in 0..6 {
            let at = |here: usize, otherwise: u64| if here == place { number } else { otherwise };
            let given = Given { n: at(0, n), instance_id: at(1, instance_id), creation_time: 2000 };
            let words = reply([at(2, first), at(3, last), at(4, next)], &rows);
            let document = session.document(&words, given).unwrap();
            let header = format!(
                "<Header creationTime=\"1970-01-01T00:00:02.000Z\" sender=\"box\" instanceId=\"{}\" \
                 bufferSize=\"{}\" version=\"1.2\" nextSequence=\"{}\" firstSequence=\"{}\" lastSequence=\"{}\"/>",
                at(1, instance_id),
                at(0, n),
                at(4, next),
                at(2, first),
                at(3, last)
            );
            assert_eq!(beginning(&document, "<Header"), [header]);
            assert_eq!(document.matches(&format!(" sequence=\"{number}\" ")).count(), 2);
        }
    }
}

// ---- refusals

/// Every length short of the rows, and longer ones: words behind the rows are not read.
#[test]
fn lengths_of_replies() {
    let core = core();
    let mut session = session(&core, &EACH, &EACH_NAMES);
    for k in 0..4 {
        let rows: Vec<Row> = (0..k).map(|at| row(at, 1, 0, 1, at)).collect();
        let words = reply([2, 4, 5], &rows);
        let whole = session.document(&words, GIVEN).unwrap();
        for length in 0..words.len() {
            assert_eq!(session.document(&words[..length], GIVEN), Err(2), "{length} of {words:?}");
        }
        for behind in [&[0][..], &[u64::MAX], &[0; 3], &[u64::MAX; 3], &[7, u64::MAX, packed(5, 0, 0), 1]] {
            let longer = [&words[..], behind].concat();
            assert_eq!(session.document(&longer, GIVEN), Ok(whole.clone()), "{behind:?}");
        }
    }
}

/// Numbers of rows that the reply has no words for: those near the largest, and all of which 4 + 3k is no more than
/// the reply has where it wraps.
#[test]
fn numbers_of_rows_near_a_wrap() {
    let core = core();
    let mut session = session(&core, &EACH, &EACH_NAMES);
    let words = reply([2, 4, 5], &(0..6).map(|at| row(at, 1, 0, 1, at)).collect::<Vec<_>>());
    let mut tried = 0;
    for length in 4..=words.len() {
        let near = [u64::MAX, u64::MAX - 1, u64::MAX / 2, 1 << 63, 1 << 62, 1 << 61, 1 << 32, 7];
        let wrapping = (0..=length as u64).flat_map(|sum| {
            let less = i128::from(sum) - 4;
            [less, less + (1 << 64), less + (2 << 64)]
        });
        let wrapping = wrapping.filter(|&thrice| thrice >= 0 && thrice % 3 == 0);
        let wrapping = wrapping.filter_map(|thrice| u64::try_from(thrice / 3).ok());
        for k in wrapping.chain(near) {
            let mut words = words[..length].to_vec();
            words[0] = k;
            let there = u128::from(k) * 3 + 4 <= length as u128;
            tried += u64::from(!there && k > 7);
            let number = session.streams(&words, GIVEN, 4000).0 .0;
            assert!(there || number == 2, "{k} rows of {length} words: {number}");
        }
    }
    assert!(tried > 300, "{tried}");
}

/// Of each category: every kind, every level, and low words at their bounds.
#[test]
fn packed_values_that_no_item_can_have() {
    let core = core();
    let mut session = session(&core, &EACH, &EACH_NAMES);
    let (before, behind) = (row(1, 0, 0, 1, 0), row(3, 0, 1, 2, 0));
    let mut answer = |packed: u64| {
        let rows = [before, Row { number: 2, time: 0, packed }, behind];
        session.streams(&reply([2, 4, 5], &rows), GIVEN, 2000).0 .0
    };
    for item in 0..5 {
        let own = [1, 2, 3, 2, 2][item as usize];
        for kind in 0..256 {
            for low in [0, 1, (1 << 24) - 1, 1 << 24, (3 << 24) - 1, 3 << 24, 1 << 31, (1 << 32) - 1] {
                let right = match kind {
                    0 => low == 0,
                    3 => own == 3 && low < 3 << 24,
                    _ => kind == own,
                };
                let expected = if right { 0 } else { 2 };
                assert_eq!(answer(packed(item, kind, low)), expected, "item {item} kind {kind} low {low:#x}");
            }
        }
    }
    for level in 0..256 {
        for code in [0, 1, (1 << 24) - 1] {
            let expected = if level <= 2 { 0 } else { 2 };
            assert_eq!(answer(packed(2, 3, (level << 24) + code)), expected, "level {level} code {code}");
        }
    }
    for item in (5..300).chain([1 << 16, (1 << 16) + 2, 1 << 23, (1 << 24) - 1]) {
        for kind in 0..4 {
            assert_eq!(answer(packed(item, kind, 0)), 2, "item {item} kind {kind}");
        }
    }
    assert_eq!([u64::MAX, 1 << 63, (1 << 63) + 1].map(answer), [2; 3]);
}

/// The item behind the last, for every number of items.
#[test]
fn the_item_behind_the_last() {
    let core = core();
    for m in 1..=64 {
        let model: Vec<u32> = [1, m, 0].into_iter().chain((0..m).map(|_| 0)).collect();
        let mut session = session(&core, &model, &["Device"]);
        let m = u64::from(m);
        let mut answer =
            |item| session.streams(&reply([2, 4, 5], &[row(1, 0, item, 1, 0)]), GIVEN, 2000).0 .0;
        assert_eq!([answer(m - 1), answer(m), answer(m + 1), answer(m + 255)], [0, 2, 2, 2], "{m}");
    }
}

/// The model, the reply, the times, the room: each comes before those behind it, wherever its row stands.
#[test]
fn where_two_refusals_meet() {
    let core = core();
    let mut session = session(&core, &EACH, &EACH_NAMES);
    let late = LAST_TIME + 1;
    let creation = Given { creation_time: late, ..GIVEN };
    let (good, old, bad) = (row(1, 0, 0, 1, 0), row(2, late, 0, 1, 0), row(3, 0, 0, 2, 0));
    let both = row(4, late, 5, 0, 0);
    let short = |mut words: Vec<u64>| {
        words.pop();
        words
    };
    for (words, given, room, expected) in [
        (reply([2, 4, 5], &[good]), GIVEN, 2000, 0),
        (reply([2, 4, 5], &[good]), GIVEN, 0, 15),
        (reply([2, 4, 5], &[good]), creation, 0, 21),
        (reply([2, 4, 5], &[good]), creation, 2000, 21),
        (reply([2, 4, 5], &[old]), GIVEN, 0, 21),
        (reply([2, 4, 5], &[old, good]), GIVEN, 2000, 21),
        (reply([2, 4, 5], &[good, old]), GIVEN, 0, 21),
        (reply([2, 4, 5], &[bad]), GIVEN, 0, 2),
        (reply([2, 4, 5], &[bad]), creation, 0, 2),
        (reply([2, 4, 5], &[old, bad]), GIVEN, 2000, 2),
        (reply([2, 4, 5], &[bad, old]), GIVEN, 2000, 2),
        (reply([2, 4, 5], &[old, good, bad]), creation, 0, 2),
        (reply([2, 4, 5], &[both]), creation, 0, 2),
        (reply([2, 4, 5], &[old, old, old, both]), GIVEN, 0, 2),
        (short(reply([2, 4, 5], &[old])), GIVEN, 0, 2),
        (short(reply([2, 4, 5], &[old, good])), creation, 2000, 2),
        (vec![0, 2, 4, 5], creation, 0, 21),
        (vec![0, 2, 4, 5], GIVEN, 0, 15),
        (vec![0, 2, 4], creation, 0, 2),
        (vec![], creation, 0, 2),
    ] {
        let ((number, bytes), text) = session.streams(&words, given, room);
        assert_eq!(number, expected, "{words:?} {given:?} into {room}");
        assert!(number == 0 || (bytes == 0 && text == vec![UNWRITTEN; room]));
    }
    let sound = start(&EACH, &names(&EACH_NAMES), [3, 1, 1], 1000);
    let spoilt: [fn(&mut Start); 4] = [
        |start| start.names[0] = b'-',
        |start| start.model[1] = 4,
        |start| start.model[3] = 5 * 65_536,
        |start| start.model.clear(),
    ];
    for spoil in spoilt {
        let mut by_hand = ByHand::new(sound.clone());
        spoil(&mut by_hand.start);
        for words in [reply([2, 4, 5], &[good]), reply([2, 4, 5], &[both]), vec![0, 2, 4], vec![]] {
            assert_eq!(by_hand.streams(&words, creation, 0), (1, 0));
            assert_eq!(by_hand.streams(&words, GIVEN, 2000), (1, 0));
        }
    }
}

// ---- room

/// Rows of every group.
fn some_rows() -> Vec<Row> {
    vec![
        row(1, 1, 0, 1, 5500),
        row(2, 2, 1, 2, 3),
        row(3, 3, 2, 3, 1 << 24),
        row(4, 4, 2, 0, 0),
        row(5, 5, 4, 2, 0),
    ]
}

/// One byte too few and none is written; exactly enough; the bytes behind a document stay.
#[test]
fn every_room() {
    let core = core();
    let mut session = session(&core, &EACH, &EACH_NAMES);
    for words in [vec![0, 2, 4, 5], reply([2, 4, 5], &some_rows()[..1]), reply([2, 4, 5], &some_rows())] {
        let document = session.document(&words, GIVEN).unwrap().into_bytes();
        for room in 0..document.len() + 9 {
            let (pair, text) = session.streams(&words, GIVEN, room);
            let mut expected = vec![UNWRITTEN; room];
            if room < document.len() {
                assert_eq!(pair, (15, 0), "{room} of {}", document.len());
            } else {
                assert_eq!(pair, (0, document.len() as u64), "{room} of {}", document.len());
                expected[..document.len()].copy_from_slice(&document);
            }
            assert_eq!(text, expected, "{room} of {}", document.len());
        }
    }
}

/// Exactly the room of a document and the words of a reply, against a page that may not be touched on either side.
#[cfg(target_os = "linux")]
#[test]
fn documents_against_a_fence() {
    let core = differential::fenced::Fenced::new(core());
    let mut pair = Pair::over(&core, start(&EACH, &names(&EACH_NAMES), [3, 1, 1], 1000));
    for k in 0..=some_rows().len() {
        let words = reply([2, 4, 5], &some_rows()[..k]);
        let call = |length: usize, room: usize| Call::Streams {
            reply: words[..length].to_vec(),
            given: GIVEN,
            text: vec![UNWRITTEN; room],
        };
        let Ok(Answer::Pair(0, bytes)) = pair.call(&call(words.len(), 4000)) else {
            panic!("{words:?}");
        };
        for length in [0, 3, words.len() - 1, words.len()] {
            for room in [0, 1, bytes as usize - 1, bytes as usize] {
                // Once against each side.
                for _ in 0..2 {
                    let call = call(length, room);
                    pair.call(&call).unwrap_or_else(|what| panic!("{call:?}: {what}"));
                }
            }
        }
    }
}

// ---- large ones

/// The longest lines there are: names of 24 bytes that a digit begins, the largest numbers and values. So many bytes
/// are the most that a document of so many components and rows can have.
#[test]
fn the_longest_documents() {
    let core = core();
    let longest = "012345678901234567890123";
    for (c, k) in [(1u32, 0), (1, 1), (64, 192), (64, 300)] {
        let mut model = vec![c, 64];
        model.extend((0..c).map(|component| component.saturating_sub(1) * 256));
        model.extend((0..64).map(|item| (item % c) * 256));
        let mut session = session(&core, &model, &[longest]);
        let low = u64::from(1u32 << 31);
        let rows: Vec<Row> = (0..k).map(|at| row(u64::MAX, LAST_TIME, 63 - at % 54, 1, low)).collect();
        let given = Given { n: u64::MAX, instance_id: u64::MAX, creation_time: LAST_TIME };
        let document = session.document(&reply([u64::MAX; 3], &rows), given).unwrap();
        let around = 495 + 189 * u64::from(c) + 154 * k;
        assert!(document.len() as u64 <= around, "{} of {c} components and {k} rows", document.len());
    }
}

/// So many components, and 64 items of every category but asset changes, spread over them.
fn mixed_model(components: u32) -> Vec<u32> {
    let mut model = vec![components, 64];
    model.extend((0..components).map(|component| component.saturating_sub(1) * 256));
    model.extend(
        (0..64u32).map(|item| [0, 1, 2, 4][item as usize % 4] * 65_536 + item % components * 256 + 1),
    );
    model
}

/// Rows of such a model's items, in a mixed order.
fn mixed_rows(rng: &mut Rng, rows: u64) -> Vec<Row> {
    let drawn = |number| {
        let item = rng.below(64);
        let low = rng.below(3 << 24);
        row(number, rng.below(LAST_TIME + 1), item, [1, 2, 3, 2][item as usize % 4], low)
    };
    (0..rows).map(drawn).collect()
}

/// Few and many rows, where the core finds a group's rows in another way, and texts that are too short, just long
/// enough, a byte short of what any document may take, and as long as that.
#[test]
fn rows_and_rooms_at_their_bounds() {
    let core = core();
    let mut rng = Rng::new(settings::seed());
    let model = mixed_model(8);
    let mut pair = Pair::over(&core, start(&model, &names(&["Device", "3D_x"]), [3, 1, 1], 1000));
    for k in [100, 254, 255, 256, 257, 1000] {
        let words = reply([1, k, k + 1], &mixed_rows(&mut rng, k));
        let mut document = |room: usize| {
            let call = Call::Streams { reply: words.clone(), given: GIVEN, text: vec![UNWRITTEN; room] };
            pair.call(&call).unwrap_or_else(|what| panic!("{k} rows, {room} bytes: {what}"))
        };
        let most = 495 + 189 * 8 + 154 * k as usize;
        let Answer::Pair(0, bytes) = document(most) else {
            panic!("{k} rows refused");
        };
        assert_eq!(document(most - 1), Answer::Pair(0, bytes));
        assert_eq!(document(bytes as usize), Answer::Pair(0, bytes));
        assert_eq!(document(bytes as usize - 1), Answer::Pair(15, 0));
    }
}

/// As many rows as a ring has places, of every category, all read back.
#[test]
fn the_most_rows() {
    let core = core();
    let mut rng = Rng::new(settings::seed());
    let model = mixed_model(64);
    let names = names(&["Device", "PATH_FEEDRATE"]);
    let words = reply([1, 131_072, 131_073], &mixed_rows(&mut rng, 131_072));
    let mut pair = Pair::over(&core, start(&model, &names, [3, 1, 1], 1000));
    let call = Call::Streams { reply: words.clone(), given: GIVEN, text: vec![UNWRITTEN; 20_197_679] };
    let Ok(Answer::Pair(0, bytes)) = pair.call(&call) else {
        panic!("refused");
    };
    let checked = Model::check(&model, &names, Clean).unwrap();
    documents::gives_back(&checked, &words, GIVEN, &pair.text[..bytes as usize]).unwrap();
}
