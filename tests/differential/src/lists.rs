//! Random lists of calls after a start, with clients that poll among them.

use crate::call::{Answer, Call, Start};
use crate::client::Client;
use crate::offers::Offers;
use crate::polls::Polls;
use crate::rng::Rng;
use crate::session::Session;
use crate::texts::{self, Scene};
use crate::windows::Windows;
use crate::{batches, documents, lines, settings, worlds, Counts, Difference};
use reference::machine::Observation;
use reference::model::Model;
use reference::{Clean, Core, FaultSet, Record};

/// What the calls of one list draw from.
struct Script {
    rng: Rng,
    clock: u64,
    offers: Offers,
    component_types: Vec<Vec<u8>>,
    item_types: Vec<Vec<u8>>,
    ids: Vec<Vec<u8>>,
    /// The item and value offered last.
    offered: (u64, u64),
    /// The words of the last observation reply, and whether it is of the call before.
    replied: Vec<u64>,
    fresh: bool,
    clients: Vec<Client>,
    windows: Windows,
    polls: Polls,
}

/// Rings of which every snapshot is compared amid a list too, and not at its end alone.
const SMALL: u64 = 16;

/// Runs the list of a seed. The machine takes the faults given; in earnest it has none.
pub fn run<C: Core, F: FaultSet>(
    core: &C,
    faults: F,
    seed: u64,
    counts: &mut Counts,
) -> Result<(), Difference> {
    let mut rng = Rng::new(seed);
    let fail = |place: String, what: String| Difference { seed, place, what };
    for start in attempts(&mut rng) {
        let begun = Session::start(core, &start, faults).map_err(|what| fail(format!("{start:?}"), what))?;
        counts.start(begun.err().unwrap_or(0));
    }
    let start = worlds::start(&mut rng);
    let begun = Session::start(core, &start, faults).map_err(|what| fail(format!("{start:?}"), what))?;
    let mut session = begun.map_err(|number| fail(format!("{start:?}"), format!("refused with {number}")))?;
    counts.start(0);
    let tracing = settings::tracing();
    if tracing {
        println!("{start:?}");
    }
    let mut script = Script::new(&session, rng);
    let length =
        if script.rng.percent(94) { script.rng.between(20, 240) } else { script.rng.between(300, 900) };
    for index in 0..length {
        let (call, client) = script.next(&session);
        let place = |call: &Call| format!("call {index} after {start:?}: {call:?}");
        let answer = session.call(&call).map_err(|what| fail(place(&call), what))?;
        counts.call(&call, answer, &session.pair.reply);
        if tracing {
            println!("{index}: {call:?}: {answer:?}");
        }
        script.note(&session, &call, client, answer).map_err(|what| fail(place(&call), what))?;
        amid(&mut session, index, counts).map_err(|what| fail(place(&call), what))?;
    }
    script.finish(&mut session, counts).map_err(|what| fail(format!("at the end after {start:?}"), what))
}

/// What is compared beside the calls now and then.
fn amid<C: Core, F: FaultSet>(
    session: &mut Session<C, F>,
    index: u64,
    counts: &mut Counts,
) -> Result<(), String> {
    match index % 32 {
        0 => session.compare_contents(),
        16 if session.machine.places() <= SMALL => counts.conditions.compare_all(session),
        _ => Ok(()),
    }
}

/// Starts ahead of the one that counts: spoilt ones, and one with other bytes in its names.
fn attempts(rng: &mut Rng) -> Vec<Start> {
    let spoilt = rng.weighted(&[80, 10, 10]);
    let swapped = usize::from(rng.percent(30));
    let mut starts: Vec<Start> = (0..spoilt + swapped).map(|_| worlds::start(rng)).collect();
    let (to_spoil, to_swap) = starts.split_at_mut(spoilt);
    to_spoil.iter_mut().for_each(|start| worlds::spoil(rng, start));
    to_swap.iter_mut().for_each(|start| worlds::swap_name_bytes(rng, &mut start.names));
    starts
}

impl Script {
    fn new<C: Core, F: FaultSet>(session: &Session<C, F>, mut rng: Rng) -> Script {
        let (words, names) = (&session.pair.expected_model, &session.pair.expected_names);
        let model = Model::check(words, names, Clean).expect("the start was accepted");
        let items = 0..model.items();
        let ids = ids(&mut rng, session.machine.cells());
        let offers = Offers::new(&mut rng, &model);
        let mut script = Script {
            clock: rng.between(1000, 2000),
            offered: offers.draw(&mut rng),
            offers,
            component_types: (0..model.components()).map(|c| model.component_type(c).to_vec()).collect(),
            item_types: items.map(|item| model.item_type(item).to_vec()).collect(),
            ids,
            replied: Vec::new(),
            fresh: false,
            clients: Vec::new(),
            windows: Windows::default(),
            polls: Polls::default(),
            rng,
        };
        for _ in 0..script.rng.between(0, 4) {
            let client = script.client(&model, session.machine.places());
            script.clients.push(client);
        }
        script
    }

    fn client(&mut self, model: &Model, n: u64) -> Client {
        let component = self.rng.pick(&self.component_types).clone();
        let item = self.rng.pick(&self.item_types).clone();
        let path = match self.rng.below(4) {
            0 => None,
            1 => Some([b"//", &component[..]].concat()),
            _ => Some([b"//", &component[..], b"//DataItem[@type=\"", &item, b"\"]"].concat()),
        };
        let selected = reference::path::select(model, path.as_deref(), Clean);
        let count = self.rng.percent(80).then(|| self.rng.between(1, n));
        // A path that selects nothing is refused; such a client asks for all.
        let path = path.filter(|_| selected.is_some());
        Client::new(path, selected.unwrap_or(u64::MAX), count)
    }

    /// The next call, and the client whose poll it is.
    fn next<C: Core, F: FaultSet>(&mut self, session: &Session<C, F>) -> (Call, Option<usize>) {
        if std::mem::take(&mut self.fresh) && self.rng.percent(20) {
            return (self.streams(session), None);
        }
        let polls = if self.clients.is_empty() { 0 } else { 20 };
        match self.rng.weighted(&[40, 9, 30, 6, 6, 15, 6, 3, polls]) {
            0 => (self.observe(), None),
            1 => (self.store_asset(), None),
            2 => (self.request(session), None),
            3 => (self.body(), None),
            4 => (self.observe_batch(), None),
            5 => (self.read_line(), None),
            6 => (self.write_line(session), None),
            7 => (self.streams(session), None),
            _ => {
                let client = self.rng.index(self.clients.len());
                if self.clients[client].sleeps(&mut self.rng) {
                    return (self.observe(), None);
                }
                let text = self.clients[client].text(&mut self.rng);
                let words =
                    if self.rng.percent(95) { texts::AMPLE } else { self.rng.between(0, 40) as usize };
                (Call::Request { text, reply: worlds::garbage(&mut self.rng, words) }, Some(client))
            }
        }
    }

    /// Puts an answered call before the rules about requests, and before the client whose poll it was.
    fn note<C: Core, F: FaultSet>(
        &mut self,
        session: &Session<C, F>,
        call: &Call,
        client: Option<usize>,
        answer: Answer,
    ) -> Result<(), String> {
        let Call::Request { text, .. } = call else {
            return Ok(());
        };
        let (reply, machine) = (&session.pair.reply, &session.machine);
        if accepted(answer) && !text.starts_with(b"/asset") {
            self.replied.clone_from(reply);
            self.fresh = true;
        }
        self.windows.take(text, answer, reply);
        self.polls.take(text, answer, reply, [machine.places(), machine.last()])?;
        client.map_or(Ok(()), |client| self.clients[client].take(answer, reply, machine))
    }

    /// What is checked and counted when the list is over.
    fn finish<C: Core, F: FaultSet>(
        &mut self,
        session: &mut Session<C, F>,
        counts: &mut Counts,
    ) -> Result<(), String> {
        session.compare_contents()?;
        counts.conditions.compare_all(session)?;
        counts.late_polls += self.polls.late;
        counts.polls_in_time += self.polls.in_time;
        counts.windows += self.windows.check(&mut self.rng, &session.pair, &session.machine)?;
        for client in &mut self.clients {
            client.finish(&session.machine)?;
            counts.windows += client.windows;
        }
        let conditions = self.offers.conditions();
        conditions.for_each(|item| counts.conditions.count(session.machine.history(), item));
        counts.repeats += repeats(session.machine.history(), &self.offers.categories);
        Ok(())
    }

    /// Times rise, stand, fall, are missing, or are the largest.
    fn time(&mut self) -> u64 {
        match self.rng.weighted(&[50, 15, 15, 12, 4, 4]) {
            0 => {
                self.clock += self.rng.below(20);
                self.clock
            }
            1 => self.clock,
            2 => self.clock.saturating_sub(self.rng.below(300)),
            3 => 0,
            4 => u64::MAX,
            _ => self.rng.word(),
        }
    }

    fn observe(&mut self) -> Call {
        let Record { item, time, value } = self.record();
        Call::Observe { item, time, host: self.time(), value }
    }

    fn observe_batch(&mut self) -> Call {
        let count = batches::count(&mut self.rng);
        let records = (0..count).map(|_| self.record()).collect();
        let host = self.time();
        batches::call(&mut self.rng, records, host)
    }

    fn read_line(&mut self) -> Call {
        let record = self.record();
        Call::ReadLine { line: lines::draw(&mut self.rng, record), host: self.time() }
    }

    fn write_line<C: Core, F: FaultSet>(&mut self, session: &Session<C, F>) -> Call {
        let record = self.record();
        let (model, names) = (&session.pair.expected_model, &session.pair.expected_names);
        lines::write(&mut self.rng, model, names, record)
    }

    /// The document of the last reply, or of any.
    fn streams<C: Core, F: FaultSet>(&mut self, session: &Session<C, F>) -> Call {
        let (model, names) = (&session.pair.expected_model, &session.pair.expected_names);
        documents::draw(&mut self.rng, model, names, Some(&self.replied))
    }

    /// Now and then what was offered last, so that it is equal.
    fn record(&mut self) -> Record {
        if self.rng.percent(85) {
            self.offered = self.offers.draw(&mut self.rng);
        }
        let (item, value) = self.offered;
        Record { item, time: self.time(), value }
    }

    fn store_asset(&mut self) -> Call {
        let mut id = self.rng.pick(&self.ids).clone();
        if self.rng.percent(8) {
            spoil_id(&mut self.rng, &mut id);
        }
        let length = match self.rng.weighted(&[60, 20, 12, 8]) {
            0 => self.rng.between(1, 12),
            1 => self.rng.between(1, 510),
            2 => *self.rng.pick(&[1, 2, 255, 256, 257, 509, 510]),
            _ => *self.rng.pick(&[0, 511, 512, 513, 766, 1000]),
        };
        let body =
            worlds::garbage(&mut self.rng, length as usize).into_iter().map(|word| word as u8).collect();
        Call::StoreAsset { id, body, host: self.time() }
    }

    fn body(&mut self) -> Call {
        let mut id = self.rng.pick(&self.ids).clone();
        if self.rng.percent(20) {
            spoil_id(&mut self.rng, &mut id);
        }
        Call::Body { id }
    }

    fn request<C: Core, F: FaultSet>(&mut self, session: &Session<C, F>) -> Call {
        let machine = &session.machine;
        let scene = Scene {
            first: machine.first(),
            last: machine.last(),
            origin: machine.origin(),
            n: machine.places(),
            component_types: &self.component_types,
            item_types: &self.item_types,
            ids: &self.ids,
        };
        let text = texts::text(&mut self.rng, &scene);
        let words = match self.rng.weighted(&[60, 25, 15]) {
            0 => texts::AMPLE,
            1 => {
                let (model, names) = (&session.pair.expected_model, &session.pair.expected_names);
                let exact = machine.reply_words(model, names, &text).map_or(4, |words| words.len());
                *self.rng.pick(&[exact - 1, exact, exact, exact + 1])
            }
            _ => *self.rng.pick(&[0, 1, 3, 4, 5, 6, 7, 10, 64]),
        };
        Call::Request { text, reply: worlds::garbage(&mut self.rng, words) }
    }
}

/// Observations of discrete items that equal the item's one before.
fn repeats(history: &[Observation], categories: &[u32]) -> u64 {
    let mut newest = vec![None; categories.len()];
    let mut repeated = 0;
    for row in history {
        let equal = newest[row.item].replace(row.value) == Some(row.value);
        repeated += u64::from(equal && categories[row.item] == 4);
    }
    repeated
}

/// Ids that are prefixes of each other, of every length, with the lowest and highest bytes.
pub fn ids(rng: &mut Rng, cells: usize) -> Vec<Vec<u8>> {
    let mut ids: Vec<Vec<u8>> =
        [&b"T"[..], b"T1", b"T12", b"!", b"~", b"=&[@\"", b"t"].map(<[u8]>::to_vec).into();
    ids.push(vec![b'L'; 32]);
    ids.push(vec![b'L'; 31]);
    rng.shuffle(&mut ids);
    ids.truncate(rng.between(1, 9) as usize);
    for tool in 0..cells.saturating_sub(3) {
        ids.push(format!("tool.{tool}").into_bytes());
    }
    ids
}

pub fn spoil_id(rng: &mut Rng, id: &mut Vec<u8>) {
    match rng.weighted(&[15, 25, 15, 15, 30]) {
        0 => id.clear(),
        1 => id.push(*rng.pick(b"\x00\x20\x7f;/?:.@\x80\xff")),
        2 => id.resize(*rng.pick(&[32, 33, 34, 64]), b'L'),
        3 => id.push(0),
        _ => {
            let at = rng.index(id.len());
            id[at] = *rng.pick(b"\x00\x20\x21\x7e\x7f;/?:<>\x80");
        }
    }
}

/// An answer that hands rows over.
pub fn accepted(answer: Answer) -> bool {
    matches!(answer, Answer::Pair(0, _))
}
