//! Adapter lines, read: what each says written out, the bounds of every field, and where refusals meet.

use differential::by_hand::ByHand;
use differential::call::{Call, Start};
use differential::dates::last_day;
use differential::fixture::{begin, core, names, start, Tested};
use differential::pair::Pair;
use differential::rng::Rng;
use differential::settings;
use differential::under_test::UnderTest;
use reference::machine::Observation;
use reference::{Level, Value};

const END: u64 = 1 << 63;
const HOST: u64 = 1030;

/// A sample, an event, a condition, an item of asset changes and a discrete event.
const MODEL: [u32; 8] = [1, 5, 0, 0, 65_536, 2 * 65_536, 3 * 65_536, 4 * 65_536];
const ITEMS: u64 = 5;

fn beginning(places: u64, origin: u64) -> Start {
    start(&MODEL, &names(&["Device"]), [places, 1, origin], 500)
}

fn session(core: &UnderTest) -> Tested<'_> {
    begin(core, &beginning(4, 1))
}

/// What a line leads to behind a start: what was recorded, or the refusal's number.
fn read(line: impl AsRef<[u8]>) -> Result<Observation, u64> {
    let core = core();
    let mut session = session(&core);
    let word = session.line(line, HOST);
    session.compare_contents().unwrap();
    let recorded = *session.machine.history().last().expect("a start records");
    match word.checked_sub(END) {
        None => {
            assert_eq!((word, recorded.number), (ITEMS + 1, ITEMS + 1));
            Ok(recorded)
        }
        Some(refusal) => {
            assert_eq!(recorded.number, ITEMS);
            Err(refusal)
        }
    }
}

/// The refusal's number, 0 for a line that was recorded.
fn refusal(line: impl AsRef<[u8]>) -> u64 {
    read(line).err().unwrap_or(0)
}

/// The value read for an item, or the refusal's number.
fn value(item: u64, text: &str) -> Result<Value, u64> {
    read(format!("|{item}|{text}")).map(|row| row.value)
}

fn fault(code: u32) -> Value {
    Value::Condition(Level::Fault, code)
}

/// Lines with what they say.
const GOOD: [(&str, usize, u64, Value); 20] = [
    ("1970-01-01T00:00:01.010Z|0|5", 0, 1010, Value::Sample(5000)),
    ("|0|-0.001", 0, HOST, Value::Sample(-1)),
    ("1970-01-01T00:00:00.000Z|0|5", 0, HOST, Value::Sample(5000)),
    ("1970-01-01T00:00:00.001Z|0|5.05", 0, 1, Value::Sample(5050)),
    ("2026-11-17T23:15:00.250Z|0|12.5", 0, 1_794_957_300_250, Value::Sample(12_500)),
    ("2000-02-29T12:00:00.000Z|1|3", 1, 951_825_600_000, Value::Event(3)),
    ("1999-12-31T23:59:59.999Z|2|WARNING:77", 2, 946_684_799_999, Value::Condition(Level::Warning, 77)),
    ("2000-01-01T00:00:00.000Z|4|1", 4, 946_684_800_000, Value::Event(1)),
    ("2099-12-31T23:59:59.999Z|2|FAULT:502", 2, 4_102_444_799_999, Value::Condition(Level::Fault, 502)),
    ("1972-02-29T00:00:00.000Z|0|-1234567.891", 0, 68_169_600_000, Value::Sample(-1_234_567_891)),
    ("2096-02-29T06:30:00.000Z|1|4294967295", 1, 3_981_335_400_000, Value::Event(u32::MAX)),
    ("2038-01-19T03:14:08.000Z|0|2147483.647", 0, 2_147_483_648_000, Value::Sample(i32::MAX)),
    ("1970-12-31T00:00:00.000Z|0|-2147483.648", 0, 31_449_600_000, Value::Sample(i32::MIN)),
    ("2024-03-01T00:00:00.000Z|2|NORMAL:0", 2, 1_709_251_200_000, Value::Condition(Level::Normal, 0)),
    ("|4|UNAVAILABLE", 4, HOST, Value::Unavailable),
    ("|0000000000|0000000001.5", 0, HOST, Value::Sample(1500)),
    ("|1|0000000000", 1, HOST, Value::Event(0)),
    ("|0000000002|FAULT:0016777215", 2, HOST, Value::Condition(Level::Fault, (1 << 24) - 1)),
    ("|0|-0", 0, HOST, Value::Sample(0)),
    ("|0|-0.5", 0, HOST, Value::Sample(-500)),
];

#[test]
fn good_lines_and_what_they_say() {
    for (line, item, time, value) in GOOD {
        assert_eq!(read(line), Ok(Observation { number: ITEMS + 1, item, time, value }), "{line}");
    }
}

/// The bench case's third observation, as a line.
#[test]
fn the_bench_case_by_a_line() {
    let core = core();
    let names = names(&["Device", "Axes", "AVAILABILITY", "POSITION"]);
    let mut session = begin(&core, &start(&[2, 2, 0, 1, 65_538, 259], &names, [3, 1, 1], 1000));
    assert_eq!(session.line("1970-01-01T00:00:01.010Z|1|5", 1), 3);
    assert_eq!(session.line("1970-01-01T00:00:01.020Z|1|5", 1), 0);
    assert_eq!(session.line("|1|-0.001", 1030), 4);
    assert_eq!(session.ask("/sample?from=4").unwrap(), [1, 2, 4, 5, 4, 1030, 1_108_101_562_367]);
}

/// What a sample's text says in thousandths.
#[test]
fn samples_at_their_bounds() {
    let good = [
        ("0", 0),
        ("-0.0", 0),
        ("-0.000", 0),
        ("5.0", 5000),
        ("5.5", 5500),
        ("5.50", 5500),
        ("5.05", 5050),
        ("5.005", 5005),
        ("0.05", 50),
        ("-0.5", -500),
        ("-0.05", -50),
        ("-1.5", -1500),
        ("-1.050", -1050),
        ("0.001", 1),
        ("-0.001", -1),
        ("999.999", 999_999),
        ("2147483.647", i32::MAX),
        ("-2147483.648", i32::MIN),
        ("-2147483.647", -i32::MAX),
        ("0002147483.647", i32::MAX),
        ("-0002147483.648", i32::MIN),
        ("0000000005.000", 5000),
    ];
    for (text, sample) in good {
        assert_eq!(value(0, text), Ok(Value::Sample(sample)), "{text}");
    }
    let large = [
        "2147483.648",
        "-2147483.649",
        "2147484",
        "4294967.296",
        "4294967.301",
        "-4294967.296",
        "9999999999",
        "-9999999999.999",
        "1234567890.5",
    ];
    for text in large {
        assert_eq!(value(0, text), Err(5), "{text}");
    }
}

#[test]
fn codes_at_their_bounds() {
    for item in [1, 4] {
        for (text, code) in [("0", 0), ("7", 7), ("0000000007", 7), ("4294967295", u32::MAX)] {
            assert_eq!(value(item, text), Ok(Value::Event(code)), "{text}");
        }
        // Too large, or in the form of a sample.
        for text in ["4294967296", "4294967297", "9999999999", "-5", "-0", "5.0", "0.000", "-0.5", "5.5"] {
            assert_eq!(value(item, text), Err(5), "{text}");
        }
    }
    for (text, code) in [("FAULT:0", 0), ("FAULT:16777215", (1 << 24) - 1), ("FAULT:0000000007", 7)] {
        assert_eq!(value(2, text), Ok(fault(code)), "{text}");
    }
    for code in ["16777216", "16777217", "33554432", "4294967295", "4294967296", "9999999999"] {
        for level in ["NORMAL", "WARNING", "FAULT"] {
            assert_eq!(value(2, &format!("{level}:{code}")), Err(5), "{level}:{code}");
        }
    }
}

/// A value of another category's form is no value of the item; it is well formed all the same.
#[test]
fn values_of_other_categories() {
    for text in ["5", "-5", "5.5"] {
        assert_eq!([2, 3].map(|item| value(item, text)), [Err(5); 2], "{text}");
    }
    for text in ["NORMAL:0", "WARNING:1", "FAULT:2"] {
        assert_eq!([0, 1, 3, 4].map(|item| value(item, text)), [Err(5); 4], "{text}");
    }
    // Asset changes are store-asset's alone.
    assert_eq!(value(3, "UNAVAILABLE"), Err(5));
}

/// For every item, one that isn't there too: the form comes first.
#[test]
fn malformed_values() {
    let texts = [
        "",
        "-",
        "--5",
        "+5",
        "+0",
        "5.",
        ".5",
        "-.5",
        ".",
        "-.",
        "5.0000",
        "5.12345",
        "5..5",
        "5.5.5",
        "5,5",
        "5e3",
        "0x5",
        "5-",
        "5.-5",
        " 5",
        "5 ",
        "5\r",
        "5\n",
        "5\0",
        "5|",
        "5|5",
        "|5",
        "00000000005",
        "12345678901",
        "12345678901.5",
        "-00000000005",
        "NORMAL",
        "NORMAL:",
        "NORMAL:-1",
        "NORMAL:+1",
        "NORMAL:1.0",
        "NORMAL: 1",
        "NORMAL 1",
        "NORMAL::1",
        "NORMAL:00000000001",
        "NORMAL:1|",
        "normal:1",
        "Normal:1",
        "WARNING",
        "WARNING:",
        "WARN:1",
        "WARNINGS:1",
        "FAULT",
        "FAULT:",
        "FAULT:x",
        "FAULT1",
        "XFAULT:1",
        ":1",
        "unavailable",
        "Unavailable",
        "UNAVAILABL",
        "UNAVAILABLE ",
        " UNAVAILABLE",
        "UNAVAILABLE\r",
        "UNAVAILABLE\r\n",
        "UNAVAILABLEE",
        "UNAVAILABLE:1",
        "UNAVAILABLE|",
        "U",
        "N",
        "W",
        "F",
        "x",
        "\u{662}",
        "\u{7f}",
    ];
    for text in texts {
        for item in 0..=ITEMS {
            assert_eq!(refusal(format!("|{item}|{text}")), 20, "{item} {text:?}");
        }
    }
}

/// One to ten digits, each of which counts.
#[test]
fn items_at_their_bounds() {
    for item in ["0", "00", "0000000000"] {
        assert_eq!(read(format!("|{item}|5")).map(|row| row.item), Ok(0), "{item}");
    }
    assert_eq!(read("|0000000004|5").map(|row| row.item), Ok(4));
    for item in ["5", "64", "256", "65536", "4294967295", "4294967296", "4294967300", "9999999999"] {
        assert_eq!(refusal(format!("|{item}|5")), 4, "{item}");
    }
    for item in ["", "-1", "+1", " 1", "1 ", "1.0", "x", "00000000000", "00000000004", "18446744073709551616"]
    {
        assert_eq!(refusal(format!("|{item}|5")), 20, "{item}");
    }
}

#[test]
fn bars_and_ends() {
    for line in
        ["", "|", "||", "|||", "0|5", "|0", "|0|", "||5", "|0|5|", "|0|5||", " |0|5", "|0|5\r", "|0|5\n"]
    {
        assert_eq!(refusal(line), 20, "{line:?}");
    }
    assert_eq!(refusal("|0|5"), 0);
}

fn with_stamp(stamp: &str) -> Result<u64, u64> {
    read(format!("{stamp}|0|5")).map(|row| row.time)
}

/// Every month's last day and the one behind it, in an ordinary year and in leap years.
#[test]
fn the_ends_of_months() {
    for year in [1970, 1999, 2000, 2096, 2099] {
        for month in 1..=12 {
            for day in 28..=32 {
                let stamp = format!("{year}-{month:02}-{day:02}T00:00:00.000Z");
                let expected = if day <= last_day(year, month) { 0 } else { 21 };
                assert_eq!(with_stamp(&stamp).err().unwrap_or(0), expected, "{stamp}");
            }
        }
    }
}

/// February 29 in the years divisible by four, and in no other.
#[test]
fn leap_days() {
    for year in 1970..=2099 {
        let stamp = format!("{year}-02-29T23:59:59.999Z");
        assert_eq!(with_stamp(&stamp).is_ok(), year % 4 == 0, "{stamp}");
    }
    let stamps = ["1972-02-29", "2000-02-29", "2096-02-29"].map(|day| format!("{day}T00:00:00.000Z"));
    let times = [68_169_600_000, 951_782_400_000, 3_981_312_000_000];
    assert_eq!(stamps.map(|stamp| with_stamp(&stamp)), times.map(Ok));
    assert_eq!(with_stamp("2099-02-29T00:00:00.000Z"), Err(21));
    assert_eq!(with_stamp("2100-02-29T00:00:00.000Z"), Err(21));
}

#[test]
fn stamps_at_their_bounds() {
    assert_eq!(with_stamp("2099-12-31T23:59:59.999Z"), Ok(4_102_444_799_999));
    assert_eq!(with_stamp("1970-01-01T23:59:59.999Z"), Ok(86_399_999));
    let unreal = [
        "1969-12-31T23:59:59.999Z",
        "2100-01-01T00:00:00.000Z",
        "0000-01-01T00:00:00.000Z",
        "9999-12-31T23:59:59.999Z",
        "2000-00-01T00:00:00.000Z",
        "2000-13-01T00:00:00.000Z",
        "2000-99-01T00:00:00.000Z",
        "2000-01-00T00:00:00.000Z",
        "2000-01-32T00:00:00.000Z",
        "2000-01-01T24:00:00.000Z",
        "2000-01-01T00:60:00.000Z",
        "2000-01-01T00:00:60.000Z",
        "2016-12-31T23:59:60.000Z",
        "2000-01-01T99:99:99.999Z",
        "0000-00-00T00:00:00.000Z",
    ];
    for stamp in unreal {
        assert_eq!(with_stamp(stamp), Err(21), "{stamp}");
    }
}

/// A digit or the one byte that stands there; all else is malformed.
#[test]
fn every_byte_of_a_stamp() {
    let good = b"2000-01-01T00:00:00.000Z|0|5";
    let form = b"dddd-dd-ddTdd:dd:dd.dddZ";
    let core = core();
    for (at, &wanted) in form.iter().enumerate() {
        let mut session = session(&core);
        for byte in 0..=255 {
            let mut line = *good;
            line[at] = byte;
            let malformed = if wanted == b'd' { !byte.is_ascii_digit() } else { byte != wanted };
            assert_eq!(session.line(line, HOST) == END + 20, malformed, "{byte} at {at}");
        }
    }
}

#[test]
fn malformed_stamps() {
    let stamps = [
        "                        ",
        "2000-01-01T00:00:00.000",
        "2000-01-01T00:00:00.000ZZ",
        "2000-01-01T00:00:00Z",
        "2000-01-01T00:00:00.0000Z",
        "2000-01-01 00:00:00.000Z",
        "2000-01-01t00:00:00.000Z",
        "2000-01-01T00:00:00.000z",
        "2000-01-01T00:00:00,000Z",
        "2000/01/01T00:00:00.000Z",
        "+200-01-01T00:00:00.000Z",
        "2000-1-01T000:00:00.000Z",
        "20000101T000000.000Z",
        "0",
        " ",
        "-",
        "Z",
        "2000-01-01T00:00:00.000+",
        "12000-01-01T00:00:00.000Z",
    ];
    for stamp in stamps {
        assert_eq!(with_stamp(stamp), Err(20), "{stamp:?}");
    }
}

/// The host's time stands for an empty stamp and for one that gives 0, and for no other.
#[test]
fn host_times() {
    let core = core();
    for host in [0, 1, 99, u64::MAX] {
        let mut session = session(&core);
        for (stamp, time) in [("", host), ("1970-01-01T00:00:00.000Z", host), ("1970-01-01T00:00:00.001Z", 1)]
        {
            session.line(format!("{stamp}|4|1"), host);
            assert_eq!(session.machine.history().last().unwrap().time, time);
        }
        session.compare_contents().unwrap();
    }
}

/// The form, the date, the item, the value: each comes before those behind it.
#[test]
fn where_two_refusals_meet() {
    let unreal = "2001-02-29T00:00:00.000Z";
    for (line, expected) in [
        (format!("{unreal}|9|5."), 20),
        (format!("{unreal}|x|5"), 20),
        (format!("{unreal}|0|5\r"), 20),
        ("|9|5.".into(), 20),
        (format!("{unreal}|9|5"), 21),
        (format!("{unreal}|9|FAULT:16777216"), 21),
        (format!("{unreal}|0|FAULT:1"), 21),
        (format!("{unreal}|3|UNAVAILABLE"), 21),
        (format!("{unreal}|0|9999999999"), 21),
        ("|9|FAULT:1".into(), 4),
        ("|9|9999999999".into(), 4),
        ("|4294967296|-5".into(), 4),
        ("|0|FAULT:1".into(), 5),
    ] {
        assert_eq!(refusal(&line), expected, "{line}");
    }
}

/// A wrong model and a wrong head come before the line's own refusals.
#[test]
fn model_and_head_come_first() {
    let lines = ["", "|0|5", "|0|5.", "|9|5", "2001-02-29T00:00:00.000Z|0|5", "|0|FAULT:1"];
    let mut by_hand = ByHand::new(beginning(4, 1));
    // The start's words are not stores yet: their head is wrong.
    assert_eq!(lines.map(|line| by_hand.line(line)), [END + 2; 6]);
    by_hand.start.names[0] = b'-';
    assert_eq!(lines.map(|line| by_hand.line(line)), [END + 1; 6]);
    let mut by_hand = ByHand::new(begun(4, 1));
    by_hand.start.observations.pop();
    assert_eq!(lines.map(|line| by_hand.line(line)), [END + 2; 6]);
}

/// The stores behind a start.
fn begun(places: u64, origin: u64) -> Start {
    let core = core();
    let start = beginning(places, origin);
    let session = begin(&core, &start);
    Start { observations: session.pair.expected_observations.clone(), ..start }
}

/// Damaged entries of a condition item, and a damaged entry about to be overwritten: in observe's places.
#[test]
fn damaged_entries_come_in_their_places() {
    let mut by_hand = ByHand::new(begun(4, 1));
    // The time of an unused entry of item 2.
    let latest = 4 + 2 * 4 + 8 * 5;
    by_hand.start.observations[latest + 8 * 2 + 1] = 7;
    assert_eq!(
        ["|2|5.", "|2|5", "|2|FAULT:1", "|2|UNAVAILABLE"].map(|line| by_hand.line(line)),
        [20, 5, 2, 2].map(|n| END + n)
    );
    assert_eq!(by_hand.line("|0|5"), 6);
    // Number 2 stands at place 1, and number 6 will.
    let mut by_hand = ByHand::new(begun(4, 1));
    by_hand.start.observations[4 + 4 + 1] = 5 << 40;
    assert_eq!(
        ["|0|5", "|0|UNAVAILABLE", "|9|5", "|0|5."].map(|line| by_hand.line(line)),
        [END + 2, 0, END + 4, END + 20]
    );
}

/// Same, a ninth code and the last number, as by observe.
#[test]
fn stories_by_lines() {
    let core = core();
    let mut session = begin(&core, &beginning(4, END - 14));
    let first = END - 14 + ITEMS;
    assert_eq!(session.line("|0|UNAVAILABLE", HOST), 0);
    assert_eq!(session.line("|4|UNAVAILABLE", HOST), first);
    for code in 0..8 {
        let line = format!("|2|WARNING:{code}");
        assert_eq!([session.line(&line, HOST), session.line(&line, HOST)], [first + 1 + code, 0]);
    }
    assert_eq!(session.machine.last(), END - 1);
    assert_eq!(session.line("|2|WARNING:8", HOST), END + 19);
    assert_eq!(session.line("|2|NORMAL:8", HOST), 0);
    assert_eq!(session.line("|2|FAULT:0", HOST), END + 6);
    assert_eq!(session.line("|0|5", HOST), END + 6);
    assert_eq!(session.line("|0|5.", HOST), END + 20);
    session.compare_contents().unwrap();
}

/// Every byte of twenty lines changed to each other one, deleted, and each byte inserted at every place.
#[test]
fn every_change_of_one_byte() {
    let core = core();
    for (good, ..) in GOOD {
        let good = good.as_bytes();
        let mut session = session(&core);
        for at in 0..=good.len() {
            let (front, behind) = good.split_at(at);
            for byte in 0..=255 {
                session.line([front, &[byte], behind].concat(), HOST);
                if let [_, rest @ ..] = behind {
                    session.line([front, &[byte], rest].concat(), HOST);
                }
            }
            session.line([front, &behind[behind.len().min(1)..]].concat(), HOST);
        }
        session.compare_contents().unwrap();
    }
}

/// Bytes of any kind, and those that lines have, of every length up to 300.
#[test]
fn random_bytes() {
    let mut rng = Rng::new(settings::seed());
    let core = core();
    let mut pair = Pair::over(&core, begun(4, 1));
    for length in 0..=300 {
        for turn in 0..24 {
            let any = |rng: &mut Rng| rng.word() as u8;
            let some = |rng: &mut Rng| *rng.pick(b"|||-.:TZ0123456789NUAFW");
            let line =
                (0..length).map(|_| if turn % 2 == 0 { any(&mut rng) } else { some(&mut rng) }).collect();
            let call = Call::ReadLine { line, host: HOST };
            pair.call(&call).unwrap_or_else(|what| panic!("{call:?}: {what}"));
        }
    }
}

/// Ten million bytes are no line either.
#[test]
fn long_lines() {
    const LENGTH: usize = 10_000_000;
    let core = core();
    let mut pair = Pair::over(&core, begun(4, 1));
    let long = |byte: u8| vec![byte; LENGTH];
    let lines = [
        long(b'0'),
        long(b'|'),
        long(b' '),
        [b"|", &long(b'0')[..], b"|5"].concat(),
        [b"|0|", &long(b'0')[..]].concat(),
        [b"|0|-", &long(b'9')[..]].concat(),
        [b"|0|5.", &long(b'0')[..]].concat(),
        [b"|2|NORMAL:", &long(b'0')[..]].concat(),
        [b"|0|UNAVAILABLE", &long(b'E')[..]].concat(),
        [b"2000-01-01T00:00:00.000Z|0|5", &long(b' ')[..]].concat(),
        [b"2001-02-29T00:00:00.000Z", &long(b'|')[..]].concat(),
    ];
    for line in lines {
        let call = Call::ReadLine { line, host: HOST };
        let answer = pair.call(&call).unwrap_or_else(|what| panic!("{call:?}: {what}"));
        assert_eq!(answer.refusal(), 20, "{call:?}");
    }
}

/// Lines and all their fronts, against a page that may not be touched on either side.
#[cfg(target_os = "linux")]
#[test]
fn fronts_against_a_fence() {
    let core = differential::fenced::Fenced::new(core());
    for (good, ..) in GOOD {
        let mut pair = Pair::over(&core, begun(4, 1));
        for end in (0..=good.len()).chain([good.len()]) {
            // Once against each side.
            for _ in 0..2 {
                let call = Call::ReadLine { line: good.as_bytes()[..end].to_vec(), host: HOST };
                pair.call(&call).unwrap_or_else(|what| panic!("{call:?}: {what}"));
            }
        }
    }
}
