//! The bytes that may stand in a text, a name, an id and a number. Each set is written out here, so that what
//! passes is held against it and not only against the second implementation.

use differential::call::{Answer, Call};
use differential::fixture::{begin, core, names, plain_model, start, Tested};
use differential::pair::Pair;
use differential::session::Session;
use differential::under_test::UnderTest;
use reference::{Clean, Record, Value};

const END: u64 = 1 << 63;
/// Bytes of a name's cell.
const CELL: usize = 24;

const IN_TEXTS: &[u8] = b"!\"#$%&'()*+,-./0123456789:;<=>?@ABCDEFGHIJKLMNOPQRSTUVWXYZ[\\]^_`\
    abcdefghijklmnopqrstuvwxyz{|}~";
const IN_IDS: &[u8] = b"!\"#$%&'()*+,-.0123456789:<=>@ABCDEFGHIJKLMNOPQRSTUVWXYZ[\\]^_`\
    abcdefghijklmnopqrstuvwxyz{|}~";
const IN_NAMES: &[u8] = b"0123456789ABCDEFGHIJKLMNOPQRSTUVWXYZ_abcdefghijklmnopqrstuvwxyz";
const DIGITS: &[u8] = b"0123456789";

/// Neighbours of the names' bytes, and what is far from them.
const WRONG: [u8; 9] = [31, 47, 58, 64, 91, 96, 123, 128, 255];

/// The sets above by their numbers: no byte is missing, none is there twice.
#[test]
fn the_sets_are_written_out_rightly() {
    let texts: Vec<u8> = (33..=126).collect();
    assert_eq!(IN_TEXTS, texts);
    let ids: Vec<u8> = texts.iter().copied().filter(|byte| ![47, 59, 63].contains(byte)).collect();
    assert_eq!(IN_IDS, ids);
    let names: Vec<u8> = (48..=57).chain(65..=90).chain([95]).chain(97..=122).collect();
    assert_eq!(IN_NAMES, names);
    assert_eq!(DIGITS, &names[..10]);
}

// Texts.

/// Numbers 1 to 120 of one item, all held, and the assets `t` and `T1`.
fn prepared(core: &UnderTest) -> Tested<'_> {
    let mut session = begin(core, &start(&plain_model(1, false), &names(&["Device"]), [128, 2, 1], 1000));
    for number in 2..=120 {
        assert_eq!(session.observe(0, 0, 1000, Value::Sample(number)), number as u64);
    }
    session.store(b"t", b"tap", 1000);
    session.store(b"T1", b"drill", 1000);
    session
}

/// Every byte at every place of texts that are accepted, a longest one among them.
#[test]
fn every_byte_of_a_text() {
    let core = core();
    let mut session = prepared(&core);
    let longest = format!("/asset/{}", ["t"; 125].join(";"));
    assert_eq!(longest.len(), 256);
    let texts = [
        "/sample",
        "/assets",
        "/current?at=8",
        "/asset/T1;t",
        "/sample?path=//Device//DataItem[@type=\"Device\"]&from=6&count=20",
        &longest,
    ];
    for text in texts {
        assert!(session.ask(text).is_ok(), "{text}");
        for at in 0..text.len() {
            for byte in 0..=255 {
                let mut changed = text.as_bytes().to_vec();
                changed[at] = byte;
                let passes = if at == 0 { byte == b'/' } else { IN_TEXTS.contains(&byte) };
                let refused = session.ask_into(&changed, 4 + 2 * 125) == 7;
                assert_eq!(refused, !passes, "{}", changed.escape_ascii());
            }
        }
    }
}

/// Every byte alone, and alone behind the first one.
#[test]
fn every_byte_of_the_shortest_texts() {
    let core = core();
    let mut session = prepared(&core);
    for byte in 0..=255 {
        assert_eq!(session.ask([byte]), Err(if byte == b'/' { 8 } else { 7 }), "{byte}");
        assert_eq!(session.ask([b'/', byte]), Err(if IN_TEXTS.contains(&byte) { 8 } else { 7 }), "{byte}");
    }
}

// Names.

/// The answer to a start with these names.
fn answer_to(core: &UnderTest, names: &[u8]) -> u64 {
    let start = start(&plain_model(1, false), names, [1, 1, 1], 0);
    let begun = Tested::start(core, &start, Clean).unwrap_or_else(|what| panic!("{start:?}: {what}"));
    begun.err().unwrap_or(0)
}

/// So many cells, each with so many letters.
fn cells_of(cells: usize, letters: usize) -> Vec<u8> {
    let cell: Vec<u8> = (b'a'..).take(letters).chain([0; CELL]).take(CELL).collect();
    cell.repeat(cells)
}

/// Whether a cell with so many letters is a name when a byte is put to a place of it.
fn is_name(letters: usize, at: usize, byte: u8) -> bool {
    match byte {
        0 => at + 1 >= letters && letters > 0 && at > 0,
        _ => at <= letters && IN_NAMES.contains(&byte),
    }
}

/// Every byte at every place of names that fill their cells, over whole and broken blocks of 32 bytes.
#[test]
fn every_byte_of_full_names() {
    let core = core();
    for cells in [1, 2, 3, 4, 5, 8, 9] {
        let mut names = cells_of(cells, CELL);
        assert_eq!(answer_to(&core, &names), 0);
        for at in 0..names.len() {
            for byte in 0..=255 {
                let sound = std::mem::replace(&mut names[at], byte);
                let last = at % CELL == CELL - 1;
                let passes = IN_NAMES.contains(&byte) || (byte == 0 && last);
                assert_eq!(answer_to(&core, &names), u64::from(!passes), "{byte} at {at} of {cells} cells");
                names[at] = sound;
            }
        }
    }
}

/// Every byte at every place of one cell: in a name, right behind it, and behind its zeros.
#[test]
fn every_byte_of_a_short_name() {
    let core = core();
    for at in 0..CELL {
        for byte in 0..=255 {
            for letters in [0, 1, at, at + 1, CELL - 1] {
                let mut cell = cells_of(1, letters);
                cell[at] = byte;
                let refused = u64::from(!is_name(letters, at, byte));
                assert_eq!(answer_to(&core, &cell), refused, "{byte} at {at} of {letters}");
            }
        }
    }
}

/// A zero, a letter and a wrong byte at every place of up to nine cells, with names of every length.
#[test]
fn every_place_of_names_of_every_length() {
    let core = core();
    for cells in 2..=9 {
        for letters in 1..=CELL {
            let mut names = cells_of(cells, letters);
            for at in 0..names.len() {
                for byte in [0, b'Z', WRONG[at % WRONG.len()]] {
                    let sound = std::mem::replace(&mut names[at], byte);
                    let refused = u64::from(!is_name(letters, at % CELL, byte));
                    assert_eq!(
                        answer_to(&core, &names),
                        refused,
                        "{byte} at {at} of {cells}, {letters} each"
                    );
                    names[at] = sound;
                }
            }
        }
    }
}

/// The most names, and one less: a wrong byte at every place, and a right one.
#[test]
fn every_place_of_the_most_names() {
    let core = core();
    for cells in [255, 256] {
        let mut names = cells_of(cells, CELL);
        for at in 0..names.len() {
            let (right, wrong) = (IN_NAMES[at % IN_NAMES.len()], WRONG[at % WRONG.len()]);
            names[at] = wrong;
            assert_eq!(answer_to(&core, &names), 1, "{wrong} at {at} of {cells} cells");
            names[at] = right;
            if at % 32 == 0 {
                assert_eq!(answer_to(&core, &names), 0, "{right} at {at} of {cells} cells");
            }
        }
        assert_eq!(answer_to(&core, &names), 0);
    }
}

/// Wrong bytes do not make up for each other: two in every two places of a block, and every byte wrong.
#[test]
fn several_wrong_bytes() {
    let core = core();
    for cells in [1, 2, 5] {
        for (first, second) in [(b'-', b'-'), (64, 91), (96, 255), (128, 128), (31, 193)] {
            for at in 0..CELL * cells {
                for beside in 1..32.min(CELL * cells - at) {
                    let mut names = cells_of(cells, CELL);
                    (names[at], names[at + beside]) = (first, second);
                    assert_eq!(answer_to(&core, &names), 1, "{first} at {at}, {second} {beside} behind it");
                }
            }
            assert_eq!(answer_to(&core, &vec![first; CELL * cells]), 1);
        }
    }
}

/// A name's wrong byte is refused by every call that takes names.
#[test]
fn every_call_looks_at_every_name() {
    let core = core();
    let calls = [
        Call::Observe { item: 0, time: 1, host: 1, value: 0 },
        Call::ObserveBatch {
            records: vec![Record { item: 0, time: 1, value: 0 }],
            host: 1,
            answers: vec![9; 2],
        },
        Call::StoreAsset { id: b"T".to_vec(), body: b"b".to_vec(), host: 1 },
        Call::Request { text: b"/sample".to_vec(), reply: vec![9; 8] },
    ];
    for cells in [1, 2, 3, 4, 5] {
        let start = start(&plain_model(1, false), &cells_of(cells, CELL), [1, 1, 1], 0);
        let mut pair = Pair::start(&core, &start).unwrap().0;
        for at in 0..CELL * cells {
            for byte in [start.names[at], WRONG[at % WRONG.len()]] {
                pair.expected_names[at] = byte;
                pair.reload();
                let refusal = u64::from(byte != start.names[at]);
                for call in &calls {
                    let answer = pair.call(call).unwrap_or_else(|what| panic!("{call:?}, {at}: {what}"));
                    assert_eq!(answer.refusal(), refusal, "{call:?}, {byte} at {at} of {cells} cells");
                }
            }
            pair.expected_names[at] = start.names[at];
        }
    }
}

/// Names, texts and ids of every length, against a page that may not be touched, behind and before them.
#[cfg(target_os = "linux")]
#[test]
fn nothing_beside_the_bytes_is_touched() {
    let core = differential::fenced::Fenced::new(core());
    let begin = |cells: usize| {
        let start = start(&plain_model(1, false), &cells_of(cells, CELL), [1, 1, 1], 0);
        Session::start(&core, &start, Clean).unwrap().map_err(|number| panic!("{cells} cells: {number}"))
    };
    for cells in 1..=256 {
        begin(cells).unwrap();
        let mut session = begin(cells).unwrap();
        let text = [&b"/"[..], &vec![b'~'; cells - 1]].concat();
        let id = vec![b'~'; cells.min(33)];
        // An odd number of calls to a turn, as the side changes with each: both turns together meet both.
        for _ in 0..2 {
            let reply = vec![9; 4];
            let asked = session.call(&Call::Request { text: text.clone(), reply }).unwrap();
            assert_eq!(asked, Answer::Pair(8, 0));
            let stored = session.call(&Call::StoreAsset { id: id.clone(), body: vec![7], host: 1 }).unwrap();
            assert_eq!(stored.refusal(), if id.len() > 32 { 14 } else { 0 });
            let body = session.call(&Call::Body { id: id.clone() }).unwrap();
            assert_eq!(body.is_refused(), id.len() > 32);
        }
    }
}

// Ids.

/// Ids of 1, 2 and 32 bytes, with every byte in front, in the middle and at the end.
fn ids() -> impl Iterator<Item = (Vec<u8>, usize)> {
    let places = [(1, 0), (2, 0), (2, 1), (32, 0), (32, 16), (32, 31)];
    places.into_iter().flat_map(|(length, at)| {
        (0..=255).map(move |byte| {
            let mut id = vec![b'L'; length];
            id[at] = byte;
            (id, at)
        })
    })
}

/// An id with a byte outside the class is not stored and has no body; in a request the text's rules decide,
/// and `;` parts two ids.
#[test]
fn every_byte_of_an_id() {
    let core = core();
    for (id, at) in ids() {
        let byte = id[at];
        let shown = id.escape_ascii();
        let mut session = begin(&core, &start(&plain_model(1, false), &names(&["Device"]), [4, 2, 1], 1));
        session.store(b"other", b"other", 1);
        let plain = IN_IDS.contains(&byte);
        assert_eq!(session.store(&id, b"body", 1), if plain { 1 } else { END + 14 }, "{shown}");
        assert_eq!(session.body(&id), if plain { &b"body"[..] } else { b"" }, "{shown}");
        let within = at > 0 && at + 1 < id.len();
        let expected = match byte {
            b';' if within => Err(13),
            b';' | b'/' | b'?' => Err(8),
            _ if plain => Ok(vec![1, 2, 2, 0, 1, 4]),
            _ => Err(7),
        };
        assert_eq!(session.ask([b"/asset/", &id[..]].concat()), expected, "{shown}");
    }
}

/// Body gives nothing for a wrong id, although a cell holds these very bytes.
#[test]
fn a_wrong_id_in_the_store_has_no_body() {
    let core = core();
    let start = start(&plain_model(1, false), &names(&["Device"]), [4, 1, 1], 1);
    let mut pair = Pair::start(&core, &start).unwrap().0;
    pair.call(&Call::StoreAsset { id: b"T".to_vec(), body: b"body".to_vec(), host: 1 }).unwrap();
    for (id, at) in ids() {
        pair.expected_assets[2..34].fill(0);
        pair.expected_assets[2..2 + id.len()].copy_from_slice(&id);
        pair.reload();
        let part = if IN_IDS.contains(&id[at]) { Answer::Part(2 + 32 + 2, 4) } else { Answer::Part(0, 0) };
        assert_eq!(pair.call(&Call::Body { id: id.clone() }), Ok(part), "{}", id.escape_ascii());
    }
}

// Numbers.

/// What a number does as a parameter: the word of the reply that shows it, or a refusal. Numbers 1 to 120 are
/// held, of at most 128.
type Meaning = fn(u64) -> Result<u64, u64>;

const PARAMETERS: [(&str, usize, Meaning); 4] = [
    ("/sample?count=1&from=", 3, |from| match from {
        0 => Ok(2),
        1..=121 => Ok((from + 1).min(121)),
        _ => Err(18),
    }),
    ("/sample?count=", 3, |count| match count {
        0 => Err(8),
        1..=128 => Ok((1 + count).min(121)),
        _ => Err(10),
    }),
    ("/current?at=", 4, |at| match at {
        0 => Err(17),
        1..=120 => Ok(at),
        _ => Err(18),
    }),
    ("/sample?interval=", 0, |_| Err(9)),
];

/// Every byte at every place of numbers of one, two and the most digits.
#[test]
fn every_byte_of_a_number() {
    let core = core();
    let mut session = prepared(&core);
    for (front, word, meaning) in PARAMETERS {
        for number in ["5", "42", "0000000000000000042"] {
            for at in 0..number.len() {
                for byte in 0..=255 {
                    let mut digits = number.as_bytes().to_vec();
                    digits[at] = byte;
                    let expected = match byte {
                        _ if DIGITS.contains(&byte) => meaning(value_of(&digits)),
                        _ if IN_TEXTS.contains(&byte) => Err(8),
                        _ => Err(7),
                    };
                    let text = [front.as_bytes(), &digits].concat();
                    let given = session.ask(&text).map(|reply| reply[word]);
                    assert_eq!(given, expected, "{}", text.escape_ascii());
                }
            }
        }
    }
}

fn value_of(digits: &[u8]) -> u64 {
    digits.iter().fold(0, |value, &digit| value * 10 + u64::from(digit - 48))
}
