//! Streams documents of the core under test for other readers: `documents FOLDER` writes them as `0001.xml` and so
//! on. Beside each stands what the reference says that it has, in `0001.rows`: the device's name, the header's numbers,
//! then a line for each row. `elements` has the names that rows may have.

use differential::documents::{self, packed, pascal, reply, Row};
use differential::fixture::{names, start};
use differential::rng::{list_seed, Rng};
use differential::under_test;
use differential::{batches, offers::Offers, settings, texts, worlds};
use reference::calendar::LAST_TIME;
use reference::model::Model;
use reference::streams::{self, Given, Group};
use reference::{Clean, Core, Level, Value};
use std::collections::BTreeSet;
use std::fmt::Write;
use std::path::PathBuf;
use std::{env, fs};

/// Lists that replies are drawn from.
const LISTS: u64 = 60;

/// The folder, how many documents there are, and the names of their rows' elements.
struct Shelf<C: Core> {
    core: C,
    folder: PathBuf,
    count: u32,
    elements: BTreeSet<String>,
}

fn main() {
    let folder = env::args().nth(1).expect("usage: documents FOLDER");
    let mut shelf =
        Shelf { core: under_test::core(), folder: folder.into(), count: 0, elements: BTreeSet::new() };
    shelf.by_hand();
    for list in 0..LISTS {
        let mut rng = Rng::new(list_seed(settings::seed(), list));
        shelf.of_any_reply(&mut rng);
        shelf.of_requests(&mut rng);
    }
    let elements: String = shelf.elements.iter().flat_map(|name| [name, "\n"]).collect();
    fs::write(shelf.folder.join("elements"), elements).expect("the folder is there");
    println!("{} documents", shelf.count);
}

impl<C: Core> Shelf<C> {
    /// Writes the document of a reply, if it is accepted, and what it has to hold.
    fn put(&mut self, words: &[u32], names: &[u8], reply: &[u64], given: Given) -> bool {
        let mut text = vec![0; documents::ample(reply)];
        let Given { n, instance_id, creation_time } = given;
        let (number, bytes) =
            self.core.streams(words, names, reply, n, instance_id, creation_time, &mut text);
        if number != 0 {
            return false;
        }
        let model = Model::check(words, names, Clean).expect("the document was accepted");
        self.count += 1;
        let name = format!("{:04}", self.count);
        fs::write(self.folder.join(&name).with_extension("xml"), &text[..bytes as usize]).expect("written");
        let rows = self.rows(&model, reply, given);
        fs::write(self.folder.join(&name).with_extension("rows"), rows).expect("written");
        true
    }

    /// The device and the header's numbers, then a line for each row in the document's order: index and type of the
    /// component, group, element, item, a condition's type, number, time and value.
    fn rows(&mut self, model: &Model, reply: &[u64], given: Given) -> String {
        let Given { n, instance_id, creation_time } = given;
        let rows = documents::rows(reply);
        let device = if rows.is_empty() { "" } else { text(model.component_type(0)) };
        let mut lines = format!(
            "{device}\t{creation_time}\t{instance_id}\t{n}\t{}\t{}\t{}\n",
            reply[3], reply[1], reply[2]
        );
        let read = |row: &Row| streams::Row::read(model, row.number, row.time, row.packed, Clean);
        let mut rows: Vec<streams::Row> = rows.iter().map(|row| read(row).expect("accepted")).collect();
        rows.sort_by_key(|row| (row.component(model, Clean), row.group(model, Clean) as usize));
        for row in rows {
            let component = row.component(model, Clean);
            let group = row.group(model, Clean);
            let of = model.item_type(row.item);
            let element = match (group, row.value) {
                (Group::Condition, Value::Condition(level, _)) => format!("{level:?}"),
                (Group::Condition, _) => "Unavailable".into(),
                _ => pascal(of),
            };
            if group != Group::Condition {
                self.elements.insert(element.clone());
            }
            let value = match row.value {
                Value::Unavailable => "unavailable".into(),
                Value::Sample(thousandths) => format!("sample {thousandths}"),
                Value::Event(code) => format!("event {code}"),
                Value::Condition(Level::Normal, code) => format!("normal {code}"),
                Value::Condition(Level::Warning, code) => format!("warning {code}"),
                Value::Condition(Level::Fault, code) => format!("fault {code}"),
            };
            let streams::Row { number, time, item, .. } = row;
            // Only a condition says its item's type.
            let of = if group == Group::Condition { text(of) } else { "-" };
            let under = text(model.component_type(component));
            writeln!(
                lines,
                "{component}\t{under}\t{group:?}\t{element}\t{item}\t{of}\t{number}\t{time}\t{value}"
            )
            .expect("a string takes all");
        }
        lines
    }

    /// What a reader could stumble over. The first has every group and is the one that is then broken.
    fn by_hand(&mut self) {
        let given = Given { n: 131_072, instance_id: 1, creation_time: 2000 };
        let row = |number, time, item, kind, low| Row { number, time, packed: packed(item, kind, low) };
        let list = names(&[
            "Mill",
            "Linear",
            "POSITION",
            "EXECUTION",
            "TRAVEL_LIMIT",
            "ASSET_CHANGED",
            "PART_COUNT",
        ]);
        // Two linear axes and a controller's worth of items, of every category, on the device and its axes.
        let model = [3, 7, 0, 1, 1, 258, 65_795, 131_332, 514, 131_588, 196_613, 262_150];
        let every = [
            row(4, 1000, 0, 1, 5500),
            row(5, 1010, 1, 2, 3),
            row(6, 1020, 2, 3, (1 << 24) + 77),
            row(7, 1030, 2, 3, 0),
            row(8, 1040, 2, 3, (2 << 24) + (1 << 24) - 1),
            row(9, 0, 2, 0, 0),
            row(10, LAST_TIME, 3, 1, u64::from(u32::MAX)),
            row(11, 951_825_600_000, 3, 0, 0),
            row(12, 1, 4, 0, 0),
            row(13, 2, 5, 2, 127),
            row(14, 3, 6, 2, 1),
        ];
        assert!(self.put(&model, &list, &reply([4, 14, 15], &every), given));
        let mut turned = every;
        turned.reverse();
        assert!(self.put(&model, &list, &reply([4, 14, 15], &[every, turned].concat()), given));
        assert!(self.put(&model, &list, &reply([4, 14, 15], &every[10..]), given));
        assert!(self.put(&model, &list, &[0, 1, 2, 3], given));
        let largest = Given { n: u64::MAX, instance_id: u64::MAX, creation_time: LAST_TIME };
        let most: Vec<Row> = every.iter().map(|row| Row { number: u64::MAX, ..*row }).collect();
        assert!(self.put(&model, &list, &reply([u64::MAX; 3], &most), largest));
        let none = Given { n: 0, instance_id: 0, creation_time: 0 };
        assert!(self.put(&model, &list, &reply([0; 3], &every), none));
        for name in
            ["PATH_FEEDRATE", "x9Y", "3D_x", "_", "__a", "012345678901234567890123", "FAULT", "HEADER"]
        {
            let list = names(&[name]);
            let of_each = [1, 5, 0, 0, 65_536, 131_072, 196_608, 262_144];
            let rows: Vec<Row> = [1, 2, 3, 2, 2]
                .iter()
                .zip(0..)
                .map(|(&kind, item)| row(item, item, item, kind, item))
                .collect();
            assert!(self.put(&of_each, &list, &reply([1, 2, 3], &rows), given), "{name}");
        }
    }

    /// Documents of rows that nobody asked for.
    fn of_any_reply(&mut self, rng: &mut Rng) {
        let start = worlds::start(rng);
        for _ in 0..6 {
            if let differential::call::Call::Streams { reply, given, .. } =
                documents::draw(rng, &start.model, &start.names, None)
            {
                self.put(&start.model, &start.names, &reply, given);
            }
        }
    }

    /// Documents of what a core answers.
    fn of_requests(&mut self, rng: &mut Rng) {
        let drawn = worlds::start(rng);
        let mut start = start(&drawn.model, &drawn.names, [rng.between(1, 128), 1, 1], 1000);
        let (model, names) = (&start.model, &start.names);
        let (words, bytes) = (&mut start.observations, &mut start.assets);
        assert_eq!(self.core.start(model, names, words, bytes, start.n, 1, 1, 1000), (0, 0));
        let offers = Offers::new(rng, &Model::check(model, names, Clean).expect("accepted"));
        for _ in 0..rng.below(200) {
            let record = batches::record(rng, &offers);
            let time = rng.below(LAST_TIME + 1);
            self.core.observe(model, names, words, record.item, time, 1000, record.value);
        }
        let given = Given { n: start.n, instance_id: rng.word(), creation_time: rng.below(LAST_TIME + 1) };
        for request in [&b"/sample"[..], b"/current"] {
            let mut reply = vec![0; texts::AMPLE];
            assert_eq!(self.core.request(model, names, words, bytes, request, &mut reply).0, 0);
            assert!(self.put(model, names, &reply, given));
        }
    }
}

fn text(name: &[u8]) -> &str {
    std::str::from_utf8(name).expect("a name is text")
}
