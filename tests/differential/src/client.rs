//! A client that polls with one path, each time from the next number of the poll before, and sleeps
//! now and then. The rows delivered to it, joined, have to be the machine's matching observations,
//! each once, in order.

use crate::call::Answer;
use crate::polls::LATE;
use crate::rng::Rng;
use reference::{Clean, FaultSet, Machine, LARGEST};

pub struct Client {
    path: Option<Vec<u8>>,
    selected: u64,
    count: Option<u64>,
    /// The window that the polls so far add up to: its first number, and the next to ask for.
    window: Option<(u64, u64)>,
    rows: Vec<[u64; 3]>,
    /// Whether it asked for current last, to begin a window with its next number.
    asks_current: bool,
    /// Turns to poll that it will let pass.
    asleep: u64,
    /// Windows checked.
    pub windows: u64,
}

impl Client {
    pub fn new(path: Option<Vec<u8>>, selected: u64, count: Option<u64>) -> Client {
        Client {
            path,
            selected,
            count,
            window: None,
            rows: Vec::new(),
            asks_current: false,
            asleep: 0,
            windows: 0,
        }
    }

    /// Whether it lets this turn to poll pass.
    pub fn sleeps(&mut self, rng: &mut Rng) -> bool {
        if self.asleep == 0 && rng.percent(6) {
            self.asleep = rng.between(1, 30);
        }
        let asleep = self.asleep > 0;
        self.asleep = self.asleep.saturating_sub(1);
        asleep
    }

    /// The text of the next poll. The count may change from poll to poll, the path not.
    pub fn text(&mut self, rng: &mut Rng) -> Vec<u8> {
        self.asks_current = self.window.is_none() && rng.percent(50);
        let mut parts = Vec::new();
        if let Some((_, next)) = self.window {
            parts.push(format!("from={next}").into_bytes());
        }
        if let (Some(count), false) = (self.count, self.asks_current) {
            let count = if rng.percent(20) { rng.between(1, count) } else { count };
            parts.push(format!("count={count}").into_bytes());
        }
        if let Some(path) = &self.path {
            parts.push([b"path=", &path[..]].concat());
        }
        rng.shuffle(&mut parts);
        let mut text = if self.asks_current { b"/current".to_vec() } else { b"/sample".to_vec() };
        for (index, part) in parts.into_iter().enumerate() {
            text.push(if index == 0 { b'?' } else { b'&' });
            text.extend(part);
        }
        text
    }

    /// Takes the answer of a poll. Its text is well formed, its path selects and its count is not
    /// above N, so it is refused for want of space alone, or where the next number has been
    /// overwritten or is none that a text can give. The last two end the window.
    pub fn take<F: FaultSet>(
        &mut self,
        answer: Answer,
        reply: &[u64],
        machine: &Machine<F>,
    ) -> Result<(), String> {
        let lost = |(_, next)| answer == Answer::Pair(if next > LARGEST { 8 } else { LATE }, 0);
        match answer {
            Answer::Pair(0, _) if self.asks_current => {
                self.window = Some((reply[3], reply[3]));
                Ok(())
            }
            Answer::Pair(0, k) => self.accept(k as usize, reply, machine),
            Answer::Pair(15, _) => Ok(()),
            _ if self.window.is_some_and(lost) => {
                self.finish(machine)?;
                self.window = None;
                Ok(())
            }
            _ => Err(format!("the poll of a client is answered {answer:?}")),
        }
    }

    fn accept<F: FaultSet>(&mut self, k: usize, reply: &[u64], machine: &Machine<F>) -> Result<(), String> {
        let (sizes, rest) = reply.split_at(4);
        if sizes[0] != k as u64 {
            return Err(format!("{k} rows answered, {} written", sizes[0]));
        }
        let begun = self.window.map_or(sizes[1], |(begun, _)| begun);
        for row in 0..k {
            self.rows.push([rest[row], rest[k + 2 * row], rest[k + 2 * row + 1]]);
        }
        self.window = Some((begun, sizes[3]));
        if machine.last() < sizes[3] {
            // Level with the machine: a good moment to check.
            return self.compare(machine);
        }
        Ok(())
    }

    /// Checks the window and forgets its rows.
    pub fn finish<F: FaultSet>(&mut self, machine: &Machine<F>) -> Result<(), String> {
        self.compare(machine)?;
        self.windows += u64::from(self.window.is_some());
        self.rows.clear();
        Ok(())
    }

    fn compare<F: FaultSet>(&self, machine: &Machine<F>) -> Result<(), String> {
        let Some((begun, next)) = self.window else {
            return Ok(());
        };
        let mut expected = machine
            .history()
            .iter()
            .filter(|row| (begun..next).contains(&row.number) && self.selected >> row.item & 1 == 1)
            .map(|row| [row.number, row.time, row.value.packed(row.item as u64, Clean)]);
        let joined = self.rows.iter().copied().eq(expected.by_ref());
        if !joined {
            return Err(format!(
                "windows from {begun} up to {next} do not join to the matching observations"
            ));
        }
        Ok(())
    }
}
