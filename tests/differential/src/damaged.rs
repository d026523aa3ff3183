//! Calls over damaged stores, models and names. The machine has no part in these: the core is
//! compared with the reference's store layer, and a refusal has to leave every byte alone.

use crate::call::{Answer, Call, Start};
use crate::entries::{self, Table};
use crate::offers::Offers;
use crate::pair::Pair;
use crate::rng::Rng;
use crate::texts::{self, Scene};
use crate::{batches, documents, lines, lists, settings, worlds, Counts, Difference};
use reference::model::Model;
use reference::{Clean, Core, Record};

const HEAD: usize = 4;

/// Runs the list of a seed: a start, some ordinary calls, then rounds of damage and calls.
pub fn run<C: Core>(core: &C, seed: u64, counts: &mut Counts) -> Result<(), Difference> {
    let mut rng = Rng::new(seed);
    let start = worlds::start(&mut rng);
    let fail = |place: String, what: String| Difference { seed, place, what };
    let (mut pair, answer) = Pair::start(core, &start).map_err(|what| fail(format!("{start:?}"), what))?;
    counts.start(answer.refusal());
    let tracing = settings::tracing();
    let draw = Draw::new(&mut rng, &start);
    for _ in 0..rng.below(60) {
        let call = draw.call(&mut rng, &pair, 25);
        let answer =
            step(&mut pair, &call).map_err(|what| fail(format!("{call:?} after {start:?}"), what))?;
        counts.call(&call, answer, &pair.reply);
    }
    let sound = copy(&pair, &start);
    for _ in 0..rng.between(8, 24) {
        restore(&mut pair, &sound);
        for _ in 0..rng.between(1, 3) {
            damage(&mut rng, &mut pair, &draw.ids);
        }
        pair.reload();
        for _ in 0..rng.between(1, 6) {
            let call = draw.call(&mut rng, &pair, 55);
            let before = copy(&pair, &start);
            let answer = step(&mut pair, &call).map_err(|what| {
                let Start { observations, assets, .. } = &before;
                let contents = format!("observations {observations:?}\n  assets {}", assets.escape_ascii());
                fail(format!("{call:?} over {before:?}\n  {contents}"), what)
            })?;
            counts.call(&call, answer, &pair.reply);
            if tracing {
                println!("{call:?}: {answer:?}");
            }
        }
    }
    Ok(())
}

/// One call, and that a refusal changed nothing.
fn step<C: Core>(pair: &mut Pair<C>, call: &Call) -> Result<Answer, String> {
    let observations = pair.expected_observations.clone();
    let assets = pair.expected_assets.clone();
    let answer = pair.call(call)?;
    if !answer.is_refused() && !matches!(answer, Answer::Word(0)) {
        return Ok(answer);
    }
    let kept = pair.expected_observations == observations && pair.expected_assets == assets;
    let reply_kept = match call {
        Call::Request { reply: words, .. } | Call::ObserveBatch { answers: words, .. } => {
            pair.reply == *words
        }
        Call::WriteLine { text, .. } | Call::Streams { text, .. } => pair.text == *text,
        _ => true,
    };
    // Store-asset's cell 0 is the one accepted answer that looks like Same.
    let stored = matches!((call, answer), (Call::StoreAsset { .. }, Answer::Word(0)));
    let unchanged = kept && reply_kept;
    if !stored && !unchanged {
        return Err("a call that adds nothing changed a store, the reply or the text".into());
    }
    Ok(answer)
}

fn copy<C: Core>(pair: &Pair<C>, start: &Start) -> Start {
    Start {
        model: pair.expected_model.clone(),
        names: pair.expected_names.clone(),
        observations: pair.expected_observations.clone(),
        assets: pair.expected_assets.clone(),
        ..*start
    }
}

fn restore<C: Core>(pair: &mut Pair<C>, sound: &Start) {
    pair.expected_model.clone_from(&sound.model);
    pair.expected_names.clone_from(&sound.names);
    pair.expected_observations.clone_from(&sound.observations);
    pair.expected_assets.clone_from(&sound.assets);
}

fn damage<C: Core>(rng: &mut Rng, pair: &mut Pair<C>, ids: &[Vec<u8>]) {
    match rng.weighted(&[55, 30, 6, 5, 4]) {
        0 => damage_observations(rng, &mut pair.expected_observations),
        1 => damage_assets(rng, &mut pair.expected_assets, ids),
        2 => worlds::spoil_model(rng, &mut pair.expected_model),
        3 => worlds::spoil_names(rng, &mut pair.expected_names),
        // Another sound model, mostly with other items.
        _ => {
            let other = worlds::start(rng);
            pair.expected_model = other.model;
            pair.expected_names = other.names;
        }
    }
}

pub fn damage_observations(rng: &mut Rng, words: &mut Vec<u64>) {
    if words.len() < HEAD {
        return;
    }
    let (n, m) = (words[0] as usize, words[1]);
    let room = words.len() - HEAD;
    let sound = (1..=64).contains(&m) && (1..=room).contains(&n) && 2 * n + Table::words(m as usize) <= room;
    if !sound {
        let at = rng.index(words.len());
        words[at] = rng.word();
        return;
    }
    match rng.weighted(&[20, 25, 10, 21, 22, 2]) {
        0 => damage_head(rng, words),
        1 => {
            let at = HEAD + n + rng.index(n);
            words[at] = entries::packed(rng, m);
        }
        2 => {
            let at = HEAD + n + rng.index(n);
            words[at] = entries::packed_there(rng, m);
        }
        3 => entries::damage(rng, words, Table::latest(n, m as usize)),
        4 => entries::damage(rng, words, Table::checkpoint(n, m as usize)),
        _ => {
            let length = *rng.pick(&[0, 1, 2, 3, 4, words.len() - 1, words.len() + 1]);
            words.resize(length, 0);
        }
    }
}

fn damage_head(rng: &mut Rng, words: &mut [u64]) {
    let (n, m, b, last) = (words[0], words[1], words[2], words[3]);
    let near = b.wrapping_add(m);
    let choices: [&[u64]; 4] = [
        &[
            0,
            n.wrapping_add(1),
            n.wrapping_sub(1),
            131_072,
            131_073,
            n.wrapping_add(1 << 32),
            1 << 63,
            u64::MAX,
        ],
        &[0, m.wrapping_add(1), m.wrapping_sub(1), 64, m.wrapping_add(1 << 32), u64::MAX],
        &[
            0,
            1,
            b.wrapping_add(1),
            last,
            last.wrapping_sub(m),
            last.wrapping_sub(m).wrapping_add(1),
            last.wrapping_sub(m).wrapping_add(2),
            1 << 63,
            u64::MAX,
            u64::MAX - 1,
            // B + m - 1 is 2^64.
            1u64.wrapping_sub(m),
        ],
        &[
            0,
            b,
            near.wrapping_sub(1),
            near.wrapping_sub(2),
            last.wrapping_add(1),
            last.wrapping_sub(1),
            last.wrapping_add(n),
            (1 << 63) - 1,
            (1 << 63) - 2,
            1 << 63,
            u64::MAX,
        ],
    ];
    let word = rng.weighted(&[3, 3, 4, 6]);
    words[word] = *rng.pick(choices[word]);
}

fn damage_assets(rng: &mut Rng, bytes: &mut Vec<u8>, ids: &[Vec<u8>]) {
    let cells = bytes.first().map_or(0, |&cells| usize::from(cells));
    if cells == 0 || bytes.len() < 2 + 544 * cells {
        bytes.push(1);
        return;
    }
    let (a, u) = (bytes[0], bytes[1]);
    let cell = rng.index(cells.min(usize::from(u) + 1));
    let id_at = 2 + 32 * cell;
    let body_at = 2 + 32 * cells + 512 * cell;
    match rng.weighted(&[8, 14, 36, 34, 4, 4]) {
        0 => bytes[0] = *rng.pick(&[0, 128, 129, 255, a.wrapping_add(1), a - 1]),
        1 => bytes[1] = *rng.pick(&[0, a, a.wrapping_add(1), 255, u.wrapping_add(1), u.wrapping_sub(1)]),
        2 => {
            let length: u16 = *rng.pick(&[0, 1, 255, 256, 509, 510, 511, 511, 512, 513, 65_535]);
            bytes[body_at..body_at + 2].copy_from_slice(&length.to_be_bytes());
        }
        3 => {
            let id = rng.pick(ids);
            bytes[id_at..id_at + 32].fill(0);
            bytes[id_at..id_at + id.len()].copy_from_slice(id);
        }
        // Any byte of an id cell: padding broken, or the id cut.
        4 => bytes[id_at + rng.index(32)] = *rng.pick(b"\x00TL1x"),
        _ => {
            let length =
                *rng.pick(&[0, 1, 2, bytes.len() - 1, bytes.len() + 1, bytes.len() - 544, bytes.len() + 544]);
            bytes.resize(length, 0);
        }
    }
}

/// What the calls draw from: fixed by the start, since the stores may say anything.
struct Draw {
    component_types: Vec<Vec<u8>>,
    item_types: Vec<Vec<u8>>,
    offers: Offers,
    ids: Vec<Vec<u8>>,
}

impl Draw {
    fn new(rng: &mut Rng, start: &Start) -> Draw {
        let model = Model::check(&start.model, &start.names, Clean).expect("the start is acceptable");
        Draw {
            component_types: (0..model.components()).map(|c| model.component_type(c).to_vec()).collect(),
            item_types: (0..model.items()).map(|item| model.item_type(item).to_vec()).collect(),
            offers: Offers::new(rng, &model),
            ids: lists::ids(rng, start.a as usize),
        }
    }

    fn call<C: Core>(&self, rng: &mut Rng, pair: &Pair<C>, requests: u64) -> Call {
        match rng.weighted(&[100 - requests, 12, requests, 6, 12, 20, 4, 6]) {
            0 => {
                let Record { item, time, value } = batches::record(rng, &self.offers);
                Call::Observe { item, time, host: worlds::time(rng), value }
            }
            1 => {
                let length = rng.between(1, 30) as usize;
                Call::StoreAsset {
                    id: rng.pick(&self.ids).clone(),
                    body: vec![b'b'; length],
                    host: worlds::time(rng),
                }
            }
            2 => {
                let text = texts::text(rng, &self.scene(pair));
                let words = if rng.percent(65) { texts::AMPLE } else { rng.between(0, 16) as usize };
                Call::Request { text, reply: worlds::garbage(rng, words) }
            }
            4 => batches::draw(rng, &self.offers),
            5 => {
                let record = batches::record(rng, &self.offers);
                Call::ReadLine { line: lines::draw(rng, record), host: worlds::time(rng) }
            }
            6 => {
                let record = batches::record(rng, &self.offers);
                lines::write(rng, &pair.expected_model, &pair.expected_names, record)
            }
            7 => documents::draw(rng, &pair.expected_model, &pair.expected_names, None),
            _ => {
                let mut id = rng.pick(&self.ids).clone();
                if rng.percent(10) {
                    lists::spoil_id(rng, &mut id);
                }
                Call::Body { id }
            }
        }
    }

    /// Numbers near those of the head, whatever stands there.
    fn scene<'a, C: Core>(&'a self, pair: &Pair<C>) -> Scene<'a> {
        let word = |at: usize| pair.expected_observations.get(at).copied().unwrap_or(1);
        let last = word(3).clamp(1, u64::MAX >> 1);
        let n = word(0).clamp(1, 1 << 20);
        let origin = word(2).clamp(1, last);
        let first = (last + 1).saturating_sub(n).max(origin).min(last);
        Scene {
            first,
            last,
            origin,
            n,
            component_types: &self.component_types,
            item_types: &self.item_types,
            ids: &self.ids,
        }
    }
}
