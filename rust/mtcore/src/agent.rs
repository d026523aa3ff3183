//! A model with its names and its two stores, held together.

use crate::sizes::{BODY_CELL, ID_CELL};
use crate::{
    assets_words, calls, cells, current_rows, reply_words, sample_words, Answers, Model, Observations,
    Observed, Record, Refusal, Reply, Sizes, Value,
};

/// A model, its names and its two stores, held together: every call gets the ones that belong together.
///
/// The four buffers are the host's, lent or owned: model words `W` and names `N` are anything that is a
/// slice of them by [`AsRef`] (`&[u32]`, `[u32; 8]`, `Vec<u32>`), the stores `O` and `A` anything that is
/// one by [`AsRef`] and [`AsMut`] (`&mut [u64]`, `[u64; 22]`, `Vec<u64>`). The stores cannot be written
/// but through the agent.
///
/// [`observe`](Agent::observe), [`observe_batch`](Agent::observe_batch), [`read_line`](Agent::read_line),
/// [`store_asset`](Agent::store_asset) and [`restart`](Agent::restart) take the agent by `&mut`; requests,
/// bodies, and lines and documents that are written, only by `&`, so that behind a `RwLock` any number of them
/// run side by side, each with a buffer of its own.
///
/// ```
/// use mtcore::{Agent, Model, Observed, Reply, Sizes, Value};
///
/// let names = mtcore::names(["Device", "POSITION"])?;
/// let model = Model::new([1, 1, 0, 1], names.as_flattened())?;
/// let sizes = Sizes { places: 10, cells: 1, origin: 1 };
/// // Owned stores; `&mut` of a buffer of the host's does as well.
/// let observations = [0; mtcore::observation_words(10, 1)];
/// let assets = [0; mtcore::asset_bytes(1)];
/// let mut agent = Agent::start(model, observations, assets, sizes, 1000)?;
///
/// assert_eq!(agent.observe(0, 1010, 1011, Value::Sample(12_500))?, Observed::Recorded(2));
/// let mut reply = [0; mtcore::reply_words(mtcore::current_rows(1, 0))]; // one item, no conditions
/// let Reply::Observations(current) = agent.request(b"/current", &mut reply)? else { unreachable!() };
/// assert_eq!(current.row(0).and_then(|row| row.value()), Some(Value::Sample(12_500)));
/// # Ok::<(), Box<dyn std::error::Error>>(())
/// ```
#[derive(Clone, Debug)]
pub struct Agent<W, N, O, A> {
    model: Model<W, N>,
    observations: O,
    assets: A,
}

/// An [`Agent`] over buffers that the host lends.
pub type LentAgent<'a> = Agent<&'a [u32], &'a [u8], &'a mut [u64], &'a mut [u8]>;

impl<W, N, O, A> Agent<W, N, O, A>
where
    W: AsRef<[u32]>,
    N: AsRef<[u8]>,
    O: AsRef<[u64]>,
    A: AsRef<[u8]>,
{
    /// An agent over stores that were saved, of the same model and names and of the same
    /// [`LAYOUT`](crate::LAYOUT). Nothing is written: it goes on where the saved one stood.
    ///
    /// # Errors
    ///
    /// [`Refusal::Store`] where a head or a length is wrong or of another number of items, or a body's
    /// length is none. Stores of layout 1 get it for their length: docs/HOST.md, "Stores of layout 1", says
    /// how a start goes on from them. More is not looked at: see [`Model::checked`].
    ///
    /// ```
    /// # use mtcore::{Agent, Model, Refusal, Sizes, Value};
    /// # let names = mtcore::names(["Device", "POSITION"]).unwrap();
    /// # let model = Model::new([1, 1, 0, 1], names.as_flattened()).unwrap();
    /// # let sizes = Sizes { places: 10, cells: 1, origin: 1 };
    /// # let observations = vec![0; mtcore::observation_words(10, 1)];
    /// # let assets = vec![0; mtcore::asset_bytes(1)];
    /// # let agent = Agent::start(model, observations, assets, sizes, 1000).unwrap();
    /// let saved = (agent.observations().to_vec(), agent.assets().to_vec());
    /// let restored = Agent::resume(model, saved.0, saved.1)?;
    /// assert_eq!(restored.observations(), agent.observations());
    /// assert_eq!(Agent::resume(model, vec![0; 30], vec![0; 546]).err(), Some(Refusal::Store));
    /// # Ok::<(), Refusal>(())
    /// ```
    pub fn resume(model: Model<W, N>, observations: O, assets: A) -> Result<Self, Refusal> {
        let agent = Agent { model, observations, assets };
        // With no room for a reply, a request whose text is right gets this far and writes nothing.
        match agent.ask(b"/assets", &mut []) {
            Ok(_) | Err(Refusal::Space) => Ok(agent),
            Err(refusal) => Err(refusal),
        }
    }

    fn ask(&self, text: &[u8], reply: &mut [u64]) -> Result<u64, Refusal> {
        let (model, names) = (self.model.words(), self.model.names());
        calls::request(model, names, self.observations(), self.assets(), text, reply)
    }

    /// Answers a request text into the reply buffer, and gives the reply. What the texts mean and what is
    /// refused is told at [`request`](crate::request).
    ///
    /// # Errors
    ///
    /// As [`request`](crate::request). (Where an archive of another version answers with words that are no
    /// reply: [`Refusal::Unknown`] with number 0.)
    pub fn request<'r>(&self, text: &[u8], reply: &'r mut [u64]) -> Result<Reply<'r>, Refusal> {
        self.ask(text, reply)?;
        Reply::read(reply).ok_or(Refusal::Unknown { number: 0 })
    }

    /// Words that are enough for any reply to a request whose count is at most this; a text without a
    /// count has 100.
    ///
    /// ```
    /// # use mtcore::{Agent, Model, Sizes};
    /// # let names = mtcore::names(["Device", "POSITION"]).unwrap();
    /// # let model = Model::new([1, 1, 0, 1], names.as_flattened()).unwrap();
    /// # let sizes = Sizes { places: 1000, cells: 1, origin: 1 };
    /// # let observations = vec![0; mtcore::observation_words(1000, 1)];
    /// # let assets = vec![0; mtcore::asset_bytes(1)];
    /// # let agent = Agent::start(model, observations, assets, sizes, 1000).unwrap();
    /// let mut reply = vec![0; agent.reply_words(500)];
    /// assert!(agent.request(b"/sample?count=500", &mut reply).is_ok());
    /// assert_eq!(agent.reply_words(usize::MAX), mtcore::sample_words(1000, Some(1000)));
    /// ```
    pub fn reply_words(&self, count: usize) -> usize {
        let items = self.model.items();
        let cells = self.assets().len() / (ID_CELL + BODY_CELL);
        let sample = sample_words(self.places(), Some(count.max(crate::DEFAULT_COUNT)));
        let current = reply_words(current_rows(items, self.model.conditions()));
        sample.max(current).max(assets_words(cells))
    }

    /// Ring places (N), by the store's length.
    fn places(&self) -> usize {
        let others = crate::observation_words(0, self.model.items());
        self.observations().len().saturating_sub(others) / 2
    }

    /// Writes the streams document of a reply, see [`Model::streams`], with this agent's ring places as its
    /// bufferSize. The reply is one that [`request`](Agent::request) gave: what has been recorded since is not in
    /// the document.
    ///
    /// # Errors
    ///
    /// As [`Model::streams`].
    ///
    /// ```
    /// # use mtcore::{Agent, Model, Sizes, Value};
    /// # type Mill = Agent<[u32; 4], Vec<u8>, Vec<u64>, Vec<u8>>;
    /// # let names = mtcore::names(["Device", "POSITION"]).unwrap();
    /// # let model = Model::new([1, 1, 0, 1], names.as_flattened().to_vec()).unwrap();
    /// # let sizes = Sizes { places: 1000, cells: 1, origin: 1 };
    /// # let observations = vec![0; mtcore::observation_words(1000, 1)];
    /// # let assets = vec![0; mtcore::asset_bytes(1)];
    /// # let mut mill = Agent::start(model, observations, assets, sizes, 1000).unwrap();
    /// use mtcore::{Refusal, Reply};
    ///
    /// const INSTANCE: u64 = 1_789_365_600; // the second at which the numbers began
    ///
    /// /// The body of a response of type text/xml.
    /// fn answer(mill: &Mill, text: &[u8], now: u64) -> Result<Vec<u8>, Refusal> {
    ///     let mut reply = vec![0; mill.reply_words(100)];
    ///     match mill.request(text, &mut reply)? {
    ///         Reply::Observations(rows) => {
    ///             let mut text = vec![0; mill.model().streams_bytes(rows.len())];
    ///             Ok(mill.streams(&rows, INSTANCE, now, &mut text)?.to_vec())
    ///         }
    ///         Reply::Assets(_) => Err(Refusal::Unsupported), // an MTConnectAssets document is the host's
    ///     }
    /// }
    ///
    /// // A client takes the state, and goes on from nextSequence.
    /// let now = 1_789_365_600_000;
    /// let current = answer(&mill, b"/current", now)?;
    /// let header = r#" bufferSize="1000" version="1.2" nextSequence="2" "#;
    /// assert!(String::from_utf8_lossy(&current).contains(header));
    /// let level = answer(&mill, b"/sample?from=2", now + 500)?;
    /// assert!(level.ends_with(b"<Streams/>\n</MTConnectStreams>\n"));
    /// mill.observe(0, now + 700, now + 700, Value::Sample(12_500))?;
    /// let news = answer(&mill, b"/sample?from=2", now + 1000)?;
    /// assert!(String::from_utf8_lossy(&news).contains(">12.5</Position>"));
    /// // What is refused gets an MTConnectError document, which is the host's too.
    /// assert_eq!(answer(&mill, b"/sample?from=4", now + 1500), Err(Refusal::Early));
    /// # Ok::<(), Refusal>(())
    /// ```
    pub fn streams<'t>(
        &self,
        reply: &Observations<'_>,
        instance_id: u64,
        creation_time: u64,
        text: &'t mut [u8],
    ) -> Result<&'t [u8], Refusal> {
        self.model.streams(reply, self.places() as u64, instance_id, creation_time, text)
    }

    /// Writes an observation as an adapter's line, see [`Model::write_line`]. Only the model is asked, not what
    /// is recorded.
    ///
    /// # Errors
    ///
    /// As [`Model::write_line`].
    pub fn write_line<'t>(
        &self,
        item: u64,
        time: u64,
        value: Value,
        text: &'t mut [u8],
    ) -> Result<&'t [u8], Refusal> {
        self.model.write_line(item, time, value, text)
    }

    /// An asset's body, see [`body`](crate::body).
    pub fn body(&self, id: &[u8]) -> Option<&[u8]> {
        calls::body(self.assets(), id)
    }

    /// The id of the asset in a cell, see [`cell_id`](crate::cell_id).
    pub fn cell_id(&self, cell: u64) -> Option<&[u8]> {
        cells::cell_id(self.assets(), cell)
    }

    /// The body of the asset in a cell, see [`cell_body`](crate::cell_body).
    pub fn cell_body(&self, cell: u64) -> Option<&[u8]> {
        cells::cell_body(self.assets(), cell)
    }

    /// The model with its names.
    pub fn model(&self) -> &Model<W, N> {
        &self.model
    }

    /// The observation store, to be saved: it holds no pointers.
    pub fn observations(&self) -> &[u64] {
        self.observations.as_ref()
    }

    /// The asset store, to be saved: it holds no pointers.
    pub fn assets(&self) -> &[u8] {
        self.assets.as_ref()
    }

    /// Gives back what the agent was made of.
    pub fn into_parts(self) -> (Model<W, N>, O, A) {
        (self.model, self.observations, self.assets)
    }
}

impl<W, N, O, A> Agent<W, N, O, A>
where
    W: AsRef<[u32]>,
    N: AsRef<[u8]>,
    O: AsRef<[u64]> + AsMut<[u64]>,
    A: AsRef<[u8]> + AsMut<[u8]>,
{
    /// An agent over stores that are written afresh, see [`start`](crate::start).
    ///
    /// # Errors
    ///
    /// [`Refusal::Size`].
    pub fn start(
        model: Model<W, N>,
        observations: O,
        assets: A,
        sizes: Sizes,
        host: u64,
    ) -> Result<Self, Refusal> {
        let mut agent = Agent { model, observations, assets };
        agent.restart(sizes, host)?;
        Ok(agent)
    }

    /// Writes both stores afresh once more, see [`start`](crate::start).
    ///
    /// # Errors
    ///
    /// [`Refusal::Size`]. The stores stay as they were then.
    pub fn restart(&mut self, sizes: Sizes, host: u64) -> Result<(), Refusal> {
        let (model, names) = (self.model.words(), self.model.names());
        calls::start(model, names, self.observations.as_mut(), self.assets.as_mut(), sizes, host)
    }

    /// Records a value of an item unless it is Same; see [`observe`](crate::observe).
    ///
    /// # Errors
    ///
    /// As [`observe`](crate::observe).
    pub fn observe(&mut self, item: u64, time: u64, host: u64, value: Value) -> Result<Observed, Refusal> {
        let (model, names) = (self.model.words(), self.model.names());
        calls::observe(model, names, self.observations.as_mut(), item, time, host, value)
    }

    /// Records a delivery of observations, up to [`MAX_BATCH`](crate::MAX_BATCH) of them, and gives the
    /// answer of each; see [`observe_batch`](crate::observe_batch).
    ///
    /// # Errors
    ///
    /// As [`observe_batch`](crate::observe_batch).
    ///
    /// ```
    /// # use mtcore::{Agent, Model, Sizes};
    /// # let names = mtcore::names(["Device", "POSITION"]).unwrap();
    /// # let model = Model::new([1, 1, 0, 1], names.as_flattened()).unwrap();
    /// # let sizes = Sizes { places: 10, cells: 1, origin: 1 };
    /// # let observations = vec![0; mtcore::observation_words(10, 1)];
    /// # let assets = vec![0; mtcore::asset_bytes(1)];
    /// # let mut agent = Agent::start(model, observations, assets, sizes, 1000).unwrap();
    /// use mtcore::{Observed, Record, Refusal, Value, MAX_BATCH};
    ///
    /// // One buffer for all deliveries; of each the front is used.
    /// let mut words = [0; MAX_BATCH];
    /// let scan = [
    ///     Record::new(0, 1010, Value::Sample(12_500)),
    ///     Record::new(1, 1010, Value::Sample(7)), // no such item: the others are recorded all the same
    ///     Record::new(0, 1011, Value::Sample(12_501)),
    /// ];
    /// let mut recorded = 0;
    /// for (record, answer) in scan.iter().zip(agent.observe_batch(&scan, 1020, &mut words)?.iter()) {
    ///     match answer {
    ///         Ok(Observed::Recorded(_)) => recorded += 1,
    ///         Ok(Observed::Same) => {}
    ///         Err(refusal) => eprintln!("item {}: {refusal}", record.item), // a fault of the adapter: log it
    ///     }
    /// }
    /// assert_eq!(recorded, 2);
    /// # Ok::<(), Refusal>(())
    /// ```
    pub fn observe_batch<'r>(
        &mut self,
        records: &[Record],
        host: u64,
        answers: &'r mut [u64],
    ) -> Result<Answers<'r>, Refusal> {
        let (model, names) = (self.model.words(), self.model.names());
        calls::observe_batch(model, names, self.observations.as_mut(), records, host, answers)
    }

    /// Records what an adapter's line says; see [`read_line`](crate::read_line). The line comes without its
    /// line feed and without the carriage return before it.
    ///
    /// # Errors
    ///
    /// As [`read_line`](crate::read_line).
    ///
    /// ```
    /// # use mtcore::{Agent, Model, Sizes};
    /// # let names = mtcore::names(["Device", "POSITION"]).unwrap();
    /// # let model = Model::new([1, 1, 0, 1], names.as_flattened()).unwrap();
    /// # let sizes = Sizes { places: 10, cells: 1, origin: 1 };
    /// # let observations = vec![0; mtcore::observation_words(10, 1)];
    /// # let assets = vec![0; mtcore::asset_bytes(1)];
    /// # let mut agent = Agent::start(model, observations, assets, sizes, 1000).unwrap();
    /// use mtcore::{Observed, Refusal};
    ///
    /// // What a connection brought so far. What stands behind the last line feed is no line yet: it is kept
    /// // until more comes, since half a number is a number too.
    /// let received = b"|0|12.5\r\n2026-09-14T06:00:00.250Z|0|12.6\n|0|twelve\n2026-09-14T06:00:01.25";
    /// let end = received.iter().rposition(|&byte| byte == b'\n').map_or(0, |last| last + 1);
    /// let (lines, kept) = received.split_at(end);
    /// let (mut recorded, mut refused) = (0, Vec::new());
    /// for line in lines.split_inclusive(|&byte| byte == b'\n') {
    ///     let line = line.strip_suffix(b"\n").unwrap_or(line);
    ///     let line = line.strip_suffix(b"\r").unwrap_or(line);
    ///     match agent.read_line(line, 1_789_365_601_000) {
    ///         Ok(Observed::Recorded(_)) => recorded += 1,
    ///         Ok(Observed::Same) => {}
    ///         Err(refusal) => refused.push((refusal, line)), // a fault of the adapter: log it, and read on
    ///     }
    /// }
    /// assert_eq!((recorded, kept), (2, &b"2026-09-14T06:00:01.25"[..]));
    /// assert_eq!(refused, [(Refusal::Line, &b"|0|twelve"[..])]);
    /// ```
    pub fn read_line(&mut self, line: &[u8], host: u64) -> Result<Observed, Refusal> {
        let (model, names) = (self.model.words(), self.model.names());
        calls::read_line(model, names, self.observations.as_mut(), line, host)
    }

    /// Stores an asset as the newest and answers its cell; see [`store_asset`](crate::store_asset).
    ///
    /// # Errors
    ///
    /// As [`store_asset`](crate::store_asset).
    pub fn store_asset(&mut self, id: &[u8], body: &[u8], host: u64) -> Result<u64, Refusal> {
        let (model, names) = (self.model.words(), self.model.names());
        calls::store_asset(model, names, self.observations.as_mut(), self.assets.as_mut(), id, body, host)
    }
}
