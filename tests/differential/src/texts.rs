//! Request texts that know the grammar: well formed ones about what is there, at the edges of
//! every rule, and damaged ones.

use crate::rng::Rng;

const LARGEST: u64 = (1 << 63) - 1;

/// Words enough for every reply of a list: 64 items with eight rows each.
pub const AMPLE: usize = 4 + 3 * 8 * 64;

/// What a text can speak of.
pub struct Scene<'a> {
    pub first: u64,
    pub last: u64,
    pub origin: u64,
    pub n: u64,
    pub component_types: &'a [Vec<u8>],
    pub item_types: &'a [Vec<u8>],
    pub ids: &'a [Vec<u8>],
}

pub fn text(rng: &mut Rng, scene: &Scene) -> Vec<u8> {
    let mut text = match rng.weighted(&[40, 30, 14, 5, 3, 8]) {
        0 => query(rng, scene, b"/sample", &[b"path", b"from", b"count"]),
        1 => query(rng, scene, b"/current", &[b"path", b"at"]),
        2 => asset_text(rng, scene),
        3 => b"/assets".to_vec(),
        4 => rng.pick(PROBES).to_vec(),
        _ => rng.pick(FIXED).to_vec(),
    };
    if rng.percent(9) {
        damage(rng, &mut text);
    }
    if rng.percent(3) {
        resize(rng, &mut text);
    }
    text
}

const PROBES: &[&[u8]] = &[b"/probe", b"/probe?x", b"/probe/", b"/probe/a?b", b"/probe?interval=1"];

/// Texts at the edges of the word and its query.
const FIXED: &[&[u8]] = &[
    b"",
    b"/",
    b"//sample",
    b"/Sample",
    b"/sample/",
    b"/sample/x?from=1",
    b"/sample?",
    b"/sample?&",
    b"/sample?from=1&",
    b"/sample?from=1&&count=1",
    b"/sample?from",
    b"/sample?=1",
    b"/sample?from=",
    b"/sample?path=",
    b"/sample?path",
    b"/sample?at=1",
    b"/sample?count=0",
    b"/sample?count=000",
    b"/sample?from=000",
    b"/sample?from=0",
    b"/sample?from=-1",
    b"/sample?from=+1",
    b"/sample?from=1.0",
    b"/sample?interval=5",
    b"/sample?interval=x",
    b"/sample?interval=",
    b"/sample?interval=5&count=0",
    b"/sample?interval=5&path=x",
    b"/sample?interval=5&interval=5",
    b"/samples",
    b"/sampl",
    b"/current",
    b"/current/",
    b"/current?",
    b"/current?from=1",
    b"/current?count=1",
    b"/current?at=0",
    b"/current?interval=5&at=3",
    b"/current?at=3&interval=5",
    b"/current?at=3&interval=x",
    b"/current?interval=0",
    b"/asset",
    b"/asset/",
    b"/asset?",
    b"/asset/;",
    b"/asset/a;",
    b"/asset/;a",
    b"/asset/a;;b",
    b"/asset/a/b",
    b"/asset/a?b",
    b"/assets/",
    b"/assets?",
    b"/assets?x",
    b"/assetsx",
    b"probe",
    b"sample",
    b"?",
];

/// Names that may not stand there, or not twice.
const STRAY_NAMES: &[&[u8]] = &[b"path", b"from", b"count", b"at", b"interval", b"At", b"pat", b"paths", b""];

fn query(rng: &mut Rng, scene: &Scene, word: &[u8], known: &[&[u8]]) -> Vec<u8> {
    let mut names: Vec<&[u8]> = known.iter().copied().filter(|_| rng.percent(50)).collect();
    if rng.percent(4) {
        names.push(b"interval");
    }
    if rng.percent(3) {
        names.push(*rng.pick(STRAY_NAMES));
    }
    if let (true, false) = (rng.percent(3), names.is_empty()) {
        names.push(names[0]);
    }
    rng.shuffle(&mut names);
    let mut text = word.to_vec();
    for (index, name) in names.into_iter().enumerate() {
        text.push(if index == 0 { b'?' } else { b'&' });
        text.extend_from_slice(name);
        if !rng.percent(1) {
            text.push(b'=');
        }
        text.extend(parameter(rng, scene, name));
    }
    text
}

fn parameter(rng: &mut Rng, scene: &Scene, name: &[u8]) -> Vec<u8> {
    match name {
        b"path" => path(rng, scene),
        b"count" => {
            let count = count(rng, scene);
            digits(rng, count)
        }
        b"from" | b"at" => {
            let number = sequence(rng, scene);
            digits(rng, number)
        }
        _ => digits(rng, 5),
    }
}

fn count(rng: &mut Rng, scene: &Scene) -> u64 {
    let n = scene.n;
    match rng.weighted(&[40, 30, 20, 10]) {
        0 => rng.between(1, n),
        1 => *rng.pick(&[1, 2, n]),
        2 => *rng.pick(&[n + 1, 99, 100, 101, n.max(2) - 1]),
        _ => *rng.pick(&[0, n + (1 << 32), 131_072, 131_073, LARGEST, LARGEST + 1]),
    }
}

fn sequence(rng: &mut Rng, scene: &Scene) -> u64 {
    let Scene { first, last, origin, .. } = *scene;
    match rng.weighted(&[45, 20, 20, 7, 8]) {
        0 => rng.between(first, last),
        // Around both bounds of what may be asked for.
        1 => rng.between(first.saturating_sub(2), first + 1),
        2 => rng.between(last - 1, last + 3),
        3 => *rng.pick(&[0, 1, 2, origin, origin - 1, first + (1 << 32), first.max(1 << 32) - (1 << 32)]),
        _ => *rng.pick(&[LARGEST, LARGEST + 1, LARGEST - 1, 10_000_000_000_000_000_000 - 1, u64::MAX]),
    }
}

/// A number's digits, sometimes behind zeros, up to and over the most digits allowed.
fn digits(rng: &mut Rng, number: u64) -> Vec<u8> {
    let plain = number.to_string().into_bytes();
    let width = match rng.weighted(&[87, 2, 4, 4, 2, 1]) {
        0 => plain.len(),
        1 => plain.len() + 1,
        2 => 19,
        3 => 20,
        4 => return rng.pick(BAD_NUMBERS).to_vec(),
        _ => 21,
    };
    let mut text = vec![b'0'; width.saturating_sub(plain.len())];
    text.extend(plain);
    text
}

const BAD_NUMBERS: &[&[u8]] = &[
    b"",
    b"-1",
    b"+1",
    b"1a",
    b"0x1",
    b"1.0",
    b"1=2",
    b"/1",
    b"1:",
    b":",
    b"1/",
    b"9223372036854775807",
    b"9223372036854775808",
    b"18446744073709551616",
    b"18446744073709551617",
    b"9999999999999999999",
    b"99999999999999999999",
];

/// Both forms, about names that are there, nearly there, or not; and damaged forms.
fn path(rng: &mut Rng, scene: &Scene) -> Vec<u8> {
    let component = name(rng, scene.component_types);
    if rng.percent(45) {
        return [b"//", &component[..]].concat();
    }
    let item = if rng.percent(75) { rng.pick(scene.item_types).clone() } else { name(rng, scene.item_types) };
    if rng.percent(75) {
        return [b"//", &component[..], b"//DataItem[@type=\"", &item, b"\"]"].concat();
    }
    let (before, between, behind) = *rng.pick(DAMAGED_FORMS);
    [before, &component[..], between, &item, behind].concat()
}

type Form = (&'static [u8], &'static [u8], &'static [u8]);
const DAMAGED_FORMS: &[Form] = &[
    (b"//", b"//DataItem[@type=\"", b"\""),
    (b"//", b"//DataItem[@type=\"", b"]"),
    (b"//", b"//DataItem[@type=\"", b""),
    (b"//", b"//DataItem[@type=\"", b"\"]]"),
    (b"//", b"//DataItem[@type=\"", b"\"]x"),
    (b"//", b"//DataItem[@type=\"", b"\"\"]"),
    (b"//", b"//DataItem[@type=\"", b"\"]//DataItem[@type=\"POSITION\"]"),
    (b"//", b"//DataItem[@type='", b"']"),
    (b"//", b"//DataItem[@type=%22", b"%22]"),
    (b"//", b"//DataItem[@type=", b"]"),
    (b"//", b"//DataItem[@Type=\"", b"\"]"),
    (b"//", b"//DataItem[type=\"", b"\"]"),
    (b"//", b"//dataItem[@type=\"", b"\"]"),
    (b"//", b"/DataItem[@type=\"", b"\"]"),
    (b"//", b"DataItem[@type=\"", b"\"]"),
    (b"//", b"//", b""),
    (b"//", b"//DataItem", b""),
    (b"//", b"/", b""),
    (b"/", b"//DataItem[@type=\"", b"\"]"),
    (b"", b"//DataItem[@type=\"", b"\"]"),
    (b"///", b"//DataItem[@type=\"", b"\"]"),
    (b"//DataItem[@type=\"", b"", b"\"]"),
    (b"//*", b"", b""),
    (b"//", b"?", b""),
    (b"//", b"=", b""),
];

/// A name that is there, or one close to it.
fn name(rng: &mut Rng, names: &[Vec<u8>]) -> Vec<u8> {
    let mut name = rng.pick(names).clone();
    match rng.weighted(&[80, 6, 5, 3, 3, 3]) {
        0 => {}
        1 => name.truncate(rng.index(name.len() + 1)),
        2 => name.push(*rng.pick(b"x_0\"]")),
        3 => name.make_ascii_lowercase(),
        4 => name = b"Nothing".to_vec(),
        _ => name.resize(25, b'x'),
    }
    name
}

fn asset_text(rng: &mut Rng, scene: &Scene) -> Vec<u8> {
    let mut text = b"/asset/".to_vec();
    let ids = rng.weighted(&[1, 50, 25, 14, 5, 3, 2]);
    for index in 0..ids {
        if index > 0 {
            text.push(b';');
        }
        text.extend(id(rng, scene));
    }
    text
}

fn id(rng: &mut Rng, scene: &Scene) -> Vec<u8> {
    let mut id = rng.pick(scene.ids).clone();
    match rng.weighted(&[84, 5, 3, 3, 5]) {
        0 => {}
        1 => id.truncate(rng.index(id.len() + 1)),
        2 => id.push(b'x'),
        3 => id.make_ascii_lowercase(),
        _ => id.resize(*rng.pick(&[32, 33, 40]), b'y'),
    }
    id
}

/// One byte dropped, doubled, added or replaced, or the text cut.
pub fn damage(rng: &mut Rng, text: &mut Vec<u8>) {
    let byte = *rng.pick(b"\x20\x21\x7e\x7f\x00\x0a\x0d\x80\xff/?&=;[]\"@%0");
    if text.is_empty() {
        text.push(byte);
        return;
    }
    let at = rng.index(text.len());
    match rng.below(6) {
        0 => {
            text.remove(at);
        }
        1 => text.insert(at, text[at]),
        2 => text.insert(at, byte),
        3 => text[at] = byte,
        4 => text.truncate(at),
        _ => text.push(byte),
    }
}

/// To the lengths around the most bytes allowed.
fn resize(rng: &mut Rng, text: &mut Vec<u8>) {
    let length = *rng.pick(&[255, 256, 257, 258, 300, 1]);
    let filler = *rng.pick(b"Aa0;&");
    text.resize(length, filler);
    if text.len() > 40 && text.starts_with(b"/asset/") {
        // Ids short enough to be stored.
        text.iter_mut().skip(40).step_by(7).for_each(|byte| *byte = b';');
    }
}
