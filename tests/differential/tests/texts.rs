//! Request texts: the ones whose answer is laid down by name, and whole families of them around
//! every edge of the grammar.

use differential::fixture::{begin, core, names, start, Tested};
use differential::rng::Rng;
use differential::settings;
use differential::texts::{self, Scene};
use differential::under_test::UnderTest;
use reference::Value;

/// Components Device, Axes, Linear, Linear (twice below Axes) and an empty Coolant; numbers 5 to 14
/// held of 1 to 14; assets T1 and a 32-byte id.
fn prepared(core: &UnderTest) -> Tested<'_> {
    let names = names(&[
        "Device",
        "Axes",
        "Linear",
        "Coolant",
        "POSITION",
        "AVAILABILITY",
        "ASSET_CHANGED",
        "Linear",
    ]);
    let model = [5, 4, 0, 1, 256 + 2, 256 + 7, 3, 2 * 256 + 4, 3 * 256 + 4, 65_536 + 5, 3 * 65_536 + 6];
    let mut session = begin(core, &start(&model, &names, [10, 3, 1], 1000));
    for value in 1..=6 {
        session.observe(0, 0, 2000 + value, Value::Sample(value as i32));
    }
    session.observe(1, 0, 2000, Value::Sample(-7));
    session.observe(2, 0, 2000, Value::Event(1));
    session.store(b"T1", b"drill", 3000);
    session.store(&[b'L'; 32], b"mill", 3001);
    assert_eq!((session.machine.first(), session.machine.last()), (5, 14));
    session
}

/// A text and the refusal's number, 0 where it is accepted.
const LAID_DOWN: &[(&str, u64)] = &[
    // Length, bytes, first byte.
    ("", 7),
    ("sample", 7),
    ("/sample?from=1 ", 7),
    ("/sample\r", 7),
    ("/sample\u{7f}", 7),
    // The word.
    ("/", 8),
    ("//sample", 8),
    ("/Sample", 8),
    ("/sample/", 8),
    ("/samples", 8),
    ("/sampl", 8),
    ("/asset", 8),
    ("/asset/", 8),
    ("/asset?T1", 8),
    ("/assets/", 8),
    ("/assets?", 8),
    ("/assets?x", 8),
    ("/probe", 9),
    ("/probe/", 9),
    ("/probe?x", 9),
    ("/probes", 8),
    ("/sample", 0),
    ("/current", 0),
    ("/assets", 0),
    // Parameters.
    ("/sample?", 8),
    ("/sample?&", 8),
    ("/sample?from=5&", 8),
    ("/sample?&from=5", 8),
    ("/sample?from=5&&count=1", 8),
    ("/sample?from", 8),
    ("/sample?=5", 8),
    ("/sample?from=5&from=5", 8),
    ("/sample?path=//Axes&path=//Axes", 8),
    ("/sample?From=5", 8),
    ("/sample?at=5", 8),
    ("/current?from=5", 8),
    ("/current?count=1", 8),
    ("/sample?count=1&from=5", 0),
    ("/sample?from=5&count=1", 0),
    // Numbers.
    ("/sample?from=", 8),
    ("/sample?from=x", 8),
    ("/sample?from=-5", 8),
    ("/sample?from=+5", 8),
    ("/sample?from=5=", 8),
    ("/sample?from=0", 0),
    ("/sample?from=000", 0),
    ("/sample?from=0000000000000000005", 0),
    ("/sample?from=00000000000000000005", 8),
    ("/sample?from=9223372036854775807", 18),
    ("/sample?from=9223372036854775808", 8),
    ("/sample?from=9999999999999999999", 8),
    ("/sample?from=18446744073709551621", 8),
    ("/sample?count=0", 8),
    ("/sample?count=000", 8),
    ("/sample?count=10", 0),
    ("/sample?count=11", 10),
    ("/sample?count=9223372036854775807", 10),
    ("/current?at=0", 17),
    // Interval.
    ("/sample?interval=5", 9),
    ("/sample?interval=0", 9),
    ("/sample?interval=x", 8),
    ("/sample?interval=", 8),
    ("/sample?interval=5&count=11", 9),
    ("/sample?interval=5&count=0", 8),
    ("/sample?interval=5&path=x", 9),
    ("/current?interval=5", 9),
    ("/current?interval=5&at=3", 8),
    ("/current?at=3&interval=5", 8),
    ("/current?at=1&interval=5", 8),
    // Paths.
    ("/sample?path=", 11),
    ("/sample?path=//", 11),
    ("/sample?path=/Axes", 11),
    ("/sample?path=Axes", 11),
    ("/sample?path=//Axes", 0),
    ("/sample?path=//Axe", 11),
    ("/sample?path=//Axess", 11),
    ("/sample?path=//axes", 11),
    ("/sample?path=//Axes/", 11),
    ("/sample?path=//Axes//", 11),
    ("/sample?path=//Axes//DataItem", 11),
    ("/sample?path=//Coolant", 0),
    ("/sample?path=//Coolant//DataItem[@type=\"POSITION\"]", 11),
    ("/sample?path=//Linear//DataItem[@type=\"POSITION\"]", 0),
    ("/sample?path=//Axes//DataItem[@type=\"POSITION\"]", 0),
    ("/sample?path=//Axes//DataItem[@type=\"POSITIO\"]", 11),
    ("/sample?path=//Axes//DataItem[@type=\"AVAILABILITY\"]", 11),
    ("/sample?path=//Axes//DataItem[@type=\"\"]", 11),
    ("/sample?path=//Axes//DataItem[@type=\"]", 11),
    ("/sample?path=//Axes//DataItem[@type=\"POSITION\"", 11),
    ("/sample?path=//Axes//DataItem[@type=\"POSITION]", 11),
    ("/sample?path=//Axes//DataItem[@type=\"POSITION\"]]", 11),
    ("/sample?path=//Axes//DataItem[@type=\"POSITION\"]/", 11),
    ("/sample?path=//Axes//DataItem[@type='POSITION']", 11),
    ("/sample?path=//Axes//DataItem[@type=%22POSITION%22]", 11),
    ("/sample?path=//Axes/DataItem[@type=\"POSITION\"]", 11),
    ("/sample?path=//DataItem[@type=\"POSITION\"]", 11),
    ("/sample?path=//POSITION", 11),
    ("/sample?path=//Axes?", 11),
    ("/sample?path=//Axes=", 11),
    // The order of the refusals.
    ("/sample?path=x&count=11", 10),
    ("/sample?path=x&from=1", 11),
    ("/current?path=x&at=1", 11),
    ("/sample?count=11&from=1", 10),
    // Ranges.
    ("/sample?from=1", 17),
    ("/sample?from=4", 17),
    ("/sample?from=5", 0),
    ("/sample?from=14", 0),
    ("/sample?from=15", 0),
    ("/sample?from=16", 18),
    ("/current?at=4", 17),
    ("/current?at=5", 0),
    ("/current?at=14", 0),
    ("/current?at=15", 18),
    // Assets.
    ("/asset/T1", 0),
    ("/asset/T1;T1", 0),
    ("/asset/T1;", 8),
    ("/asset/;T1", 8),
    ("/asset/T1;;T1", 8),
    ("/asset/T1/", 8),
    ("/asset/T1?", 8),
    ("/asset/T", 13),
    ("/asset/T11", 13),
    ("/asset/T1;T", 13),
    ("/asset/T&=", 13),
    ("/asset/LLLLLLLLLLLLLLLLLLLLLLLLLLLLLLLL", 0),
    ("/asset/LLLLLLLLLLLLLLLLLLLLLLLLLLLLLLL", 13),
    ("/asset/LLLLLLLLLLLLLLLLLLLLLLLLLLLLLLLLL", 13),
];

#[test]
fn answers_laid_down_by_name() {
    let core = core();
    let mut session = prepared(&core);
    for &(text, expected) in LAID_DOWN {
        let answer = session.ask(text).err().unwrap_or(0);
        assert_eq!(answer, expected, "{text}");
    }
}

/// Every selection of the parameters, in every order, each with several texts.
#[test]
fn every_combination_and_order_of_parameters() {
    let core = core();
    let mut session = prepared(&core);
    let parts = [
        ["path=//Axes", "path=//Axes//DataItem[@type=\"POSITION\"]", "path=//No", "path="],
        ["from=8", "from=0", "from=1", "from=x"],
        ["count=2", "count=10", "count=11", "count=0"],
        ["interval=5", "interval=0", "interval=x", "interval="],
        ["at=8", "at=15", "at=1", "at=9223372036854775808"],
    ];
    for word in ["/sample", "/current", "/assets", "/probe"] {
        orders(parts.len(), &mut Vec::new(), &mut |order| {
            for variant in 0..4u32.pow(order.len().min(3) as u32) {
                let mut text = word.to_string();
                for (index, &part) in order.iter().enumerate() {
                    let choice = variant / 4u32.pow(index.min(2) as u32) % 4;
                    text.push(if index == 0 { '?' } else { '&' });
                    text.push_str(parts[part][choice as usize]);
                }
                let _ = session.ask(text);
            }
        });
    }
}

/// Every sequence of different indices.
fn orders(indices: usize, chosen: &mut Vec<usize>, visit: &mut impl FnMut(&[usize])) {
    visit(chosen);
    for index in 0..indices {
        if !chosen.contains(&index) {
            chosen.push(index);
            orders(indices, chosen, visit);
            chosen.pop();
        }
    }
}

const BASES: &[&str] = &[
    "/sample",
    "/sample?from=8&count=2",
    "/sample?count=10&path=//Axes",
    "/sample?path=//Axes//DataItem[@type=\"POSITION\"]&from=6",
    "/current",
    "/current?at=8",
    "/current?path=//Linear&at=13",
    "/current?interval=5&at=8",
    "/assets",
    "/asset/T1;T1",
    "/probe?x",
];

/// Every byte at every place; every byte dropped, doubled or put between; every cut.
#[test]
fn every_change_of_one_byte() {
    let core = core();
    let mut session = prepared(&core);
    for base in BASES {
        let base = base.as_bytes();
        for at in 0..=base.len() {
            let _ = session.ask(&base[..at]);
            for byte in 0..=255u8 {
                let _ = session.ask([&base[..at], &[byte], &base[at..]].concat());
                if at < base.len() {
                    let _ = session.ask([&base[..at], &[byte], &base[at + 1..]].concat());
                }
            }
            if at < base.len() {
                let _ = session.ask([&base[..at], &base[at + 1..]].concat());
            }
        }
    }
}

#[test]
fn every_length_around_the_bounds() {
    let core = core();
    let mut session = prepared(&core);
    let fill = |front: &str, byte: u8, length: usize| {
        let mut text = front.as_bytes().to_vec();
        text.resize(length, byte);
        text
    };
    for length in [0, 1, 2, 254, 255, 256, 257, 258, 1000, 65_536] {
        for front in [
            "",
            "/",
            "/sample?path=//",
            "/sample?from=",
            "/asset/",
            "/assets",
            "/probe",
            "/current?at=8&path=",
        ] {
            for byte in *b"A0/;!~ \x7f\x00" {
                let _ = session.ask(fill(front, byte, length));
            }
        }
    }
    assert_eq!(session.ask(fill("/asset/", b'L', 256)), Err(13));
    assert_eq!(session.ask(fill("/asset/", b'L', 257)), Err(7));
    assert_eq!(session.ask(fill("/sample?path=//", b'A', 256)), Err(11));
    assert_eq!(session.ask(fill("/sample?path=//", b'A', 257)), Err(7));
}

/// 125 ids fill a text; each is a row.
#[test]
fn an_id_repeated_as_often_as_a_text_holds() {
    let core = core();
    let mut session = prepared(&core);
    assert_eq!(session.store(b"t", b"tap", 4000), 2);
    let text = format!("/asset/{}", vec!["t"; 125].join(";"));
    assert_eq!(text.len(), 256);
    let reply = session.ask(&text).unwrap();
    assert_eq!(reply[..5], [125, 3, 3, 0, 2]);
    assert_eq!(reply.len(), 4 + 250);
}

/// Every number of digits, with and without zeros in front, around every bound.
#[test]
fn digits_at_the_bounds() {
    let core = core();
    let mut session = prepared(&core);
    let edge = 1u128 << 63;
    let mut values: Vec<u128> =
        vec![0, 1, 4, 5, 9, 10, 11, 14, 15, 16, edge - 1, edge, edge + 1, 1 << 64, (1 << 64) + 5];
    values.extend((0..21).flat_map(|power| [10u128.pow(power) - 1, 10u128.pow(power)]));
    for value in values {
        for width in 1..=22 {
            for front in [
                "/sample?from=",
                "/sample?count=",
                "/current?at=",
                "/sample?interval=",
                "/current?path=//Axes&at=",
            ] {
                let _ = session.ask(format!("{front}{value:0width$}"));
            }
        }
    }
}

/// Texts drawn by the grammar, over one state.
#[test]
fn drawn_texts() {
    let core = core();
    let mut session = prepared(&core);
    let types = |list: &[&str]| list.iter().map(|name| name.as_bytes().to_vec()).collect::<Vec<_>>();
    let scene = Scene {
        first: session.machine.first(),
        last: session.machine.last(),
        origin: 1,
        n: 10,
        component_types: &types(&["Device", "Axes", "Linear", "Coolant"]),
        item_types: &types(&["POSITION", "AVAILABILITY", "ASSET_CHANGED"]),
        ids: &[b"T1".to_vec(), vec![b'L'; 32], b"T".to_vec()],
    };
    let mut rng = Rng::new(settings::seed());
    for _ in 0..60_000 {
        let text = texts::text(&mut rng, &scene);
        let _ = session.ask(text);
    }
}
