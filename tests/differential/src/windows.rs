//! The rule about windows, as it is stated: choose any of a list's accepted samples that carry
//! one path and of which each begins at the next number of the one before. What they delivered,
//! joined, is the matching part of the machine's record. Whose requests they were does not matter.

use crate::call::Answer;
use crate::pair::Pair;
use crate::rng::Rng;
use reference::model::Model;
use reference::text::{self, Request};
use reference::{path, Clean, Core, FaultSet, Machine};

/// One accepted sample.
struct Sample {
    path: Option<Vec<u8>>,
    start: u64,
    next: u64,
    /// Number, time and packed value.
    rows: Vec<[u64; 3]>,
}

/// The accepted samples of a list, in its order.
#[derive(Default)]
pub struct Windows(Vec<Sample>);

/// Choices tried at the end of a list.
const CHOICES: usize = 6;

impl Windows {
    /// Notes an answered request, if it is an accepted sample.
    pub fn take(&mut self, text: &[u8], answer: Answer, reply: &[u64]) {
        let (Answer::Pair(0, k), Ok(Request::Sample { path, from, .. })) = (answer, text::read(text, Clean))
        else {
            return;
        };
        let (first, next) = (reply[1], reply[3]);
        let start = from.filter(|&from| from != 0).unwrap_or(first);
        let k = k as usize;
        let (numbers, pairs) = reply[4..4 + 3 * k].split_at(k);
        let rows = numbers.iter().zip(pairs.chunks(2)).map(|(&number, pair)| [number, pair[0], pair[1]]);
        self.0.push(Sample { path: path.map(<[u8]>::to_vec), start, next, rows: rows.collect() });
    }

    /// Draws chains of samples and checks each. Answers how many had more than one.
    pub fn check<C: Core, F: FaultSet>(
        &self,
        rng: &mut Rng,
        pair: &Pair<C>,
        machine: &Machine<F>,
    ) -> Result<u64, String> {
        let model = Model::check(&pair.expected_model, &pair.expected_names, Clean).ok_or("no model")?;
        let mut joined = 0;
        for _ in 0..CHOICES.min(self.0.len()) {
            let chain = self.chain(rng);
            joined += u64::from(chain.len() > 1);
            let (begin, end) = (chain[0], chain[chain.len() - 1]);
            let selected =
                path::select(&model, begin.path.as_deref(), Clean).ok_or("an accepted path selects")?;
            let matching = machine
                .history()
                .iter()
                .filter(|row| (begin.start..end.next).contains(&row.number) && selected >> row.item & 1 == 1)
                .map(|row| [row.number, row.time, row.value.packed(row.item as u64, Clean)]);
            if !chain.iter().flat_map(|sample| sample.rows.iter().copied()).eq(matching) {
                let ends = (begin.start, end.next);
                return Err(format!("{} windows over {ends:?} do not join", chain.len()));
            }
        }
        Ok(joined)
    }

    /// A sample, then later ones that go on from it, some passed over.
    fn chain(&self, rng: &mut Rng) -> Vec<&Sample> {
        let begin = rng.index(self.0.len());
        let mut chain = vec![&self.0[begin]];
        for sample in &self.0[begin + 1..] {
            let before = chain[chain.len() - 1];
            if sample.path == before.path && sample.start == before.next && rng.percent(80) {
                chain.push(sample);
            }
        }
        chain
    }
}
