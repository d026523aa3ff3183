//! Random deliveries of many observations, and the rule that a delivery is its single observes.

use crate::call::{Answer, Call, Start};
use crate::offers::Offers;
use crate::pair::same;
use crate::rng::Rng;
use crate::{damaged, worlds, Counts, Difference};
use reference::model::Model;
use reference::{Clean, Core, Record};

/// How many records: mostly few, since the most that are allowed turn every ring of the lists over.
pub fn count(rng: &mut Rng) -> usize {
    match rng.weighted(&[8, 14, 36, 38, 2, 2]) {
        0 => 0,
        1 => 1,
        2 => 3,
        3 => 8,
        4 => *rng.pick(&[255, 256, 256, 256]),
        _ => *rng.pick(&[257, 257, 257, 258, 512, 513]),
    }
}

/// A record whose item or value is refused now and then.
pub fn record(rng: &mut Rng, offers: &Offers) -> Record {
    let (item, value) = offers.draw(rng);
    Record { item, time: worlds::time(rng), value }
}

/// A delivery of such records.
pub fn draw(rng: &mut Rng, offers: &Offers) -> Call {
    let records = (0..count(rng)).map(|_| record(rng, offers)).collect();
    let host = worlds::time(rng);
    call(rng, records, host)
}

/// The delivery of the records, some of them made to repeat an earlier one but for its time.
pub fn call(rng: &mut Rng, mut records: Vec<Record>, host: u64) -> Call {
    for at in 1..records.len() {
        if rng.percent(15) {
            let earlier = if rng.percent(60) { at - 1 } else { rng.index(at) };
            records[at] = Record { time: records[at].time, ..records[earlier] };
        }
    }
    let room = room(rng, records.len());
    Call::ObserveBatch { records, host, answers: worlds::garbage(rng, room) }
}

/// Words of the answer buffer: exact, longer, shorter.
fn room(rng: &mut Rng, records: usize) -> usize {
    match rng.weighted(&[50, 30, 20]) {
        0 => records,
        1 => records + *rng.pick(&[1, 2, 7]),
        _ => *rng.pick(&[0, records / 2, records.saturating_sub(1), records.saturating_sub(1)]),
    }
}

/// Deliveries after a start, some over a damaged store, beside the core's own single observes of
/// their records.
pub fn run<C: Core>(core: &C, seed: u64, counts: &mut Counts) -> Result<(), Difference> {
    let mut rng = Rng::new(seed);
    let mut start = worlds::start(&mut rng);
    let Start { n, a, b, host, .. } = start;
    let (words, bytes) = (&mut start.observations, &mut start.assets);
    let answer = core.start(&start.model, &start.names, words, bytes, n, a, b, host);
    assert_eq!(answer, (0, 0), "{start:?}");
    let model = Model::check(&start.model, &start.names, Clean).expect("the start was accepted");
    let offers = Offers::new(&mut rng, &model);
    for _ in 0..rng.between(4, 24) {
        let mut store = start.observations.clone();
        let damage = rng.percent(40);
        if damage {
            damaged::damage_observations(&mut rng, &mut store);
        }
        let call = draw(&mut rng, &offers);
        let before = store.clone();
        let place = || format!("{call:?} after {start:?}\n  observations {before:?}");
        let (answer, buffer) = beside_singles(core, &start, &mut store, &call)
            .map_err(|what| Difference { seed, place: place(), what })?;
        counts.call(&call, answer, &buffer);
        if !damage {
            start.observations = store;
        }
    }
    Ok(())
}

/// Runs the delivery over the store, and its single observes over a copy. Answers the pair and the
/// buffer left.
fn beside_singles<C: Core>(
    core: &C,
    start: &Start,
    store: &mut [u64],
    call: &Call,
) -> Result<(Answer, Vec<u64>), String> {
    let (Call::ObserveBatch { records, host, answers }, Start { model, names, .. }) = (call, start) else {
        return Err("no delivery".into());
    };
    let (mut buffer, mut expected) = (answers.clone(), answers.clone());
    let mut copy = store.to_vec();
    let (number, count) = core.observe_batch(model, names, store, records, *host, &mut buffer);
    if number == 0 {
        same("count", &[count], &[records.len() as u64])?;
        for (word, &Record { item, time, value }) in expected.iter_mut().zip(records) {
            *word = core.observe(model, names, &mut copy, item, time, *host, value);
        }
    }
    same("answer word beside the single observes", &buffer, &expected)?;
    same("store word beside the single observes", store, &copy)?;
    Ok((Answer::Pair(number, count).in_use(&buffer)?, buffer))
}
