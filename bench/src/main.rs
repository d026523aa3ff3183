//! One table: what each call costs in the core and in the reference's store layer, on the same
//! inputs, in one run. Printed as Markdown.
//!
//! `bench [ROUNDS [WORDS]]`: each row is the best of so many rounds, 200 unless given. With words,
//! only the calls that have them in their name, and not how their cost grows.

mod calls;
mod clock;
mod cold;
mod floor;
mod growth;
mod row;
mod sides;
mod stack;
mod stage;
mod table;

use calls::Call;
use row::{Documented, Row, Scanned};
use stage::{Shape, Stage};
use std::env;

const ROUNDS: usize = 200;

/// Few names and the most: every observe tests them all, a delivery tests them once.
const NAME_CELLS: [usize; 2] = [16, 256];

fn main() {
    let mut words = env::args().skip(1);
    let rounds = words.next().map_or(ROUNDS, |word| word.parse().expect("usage: bench [ROUNDS [WORDS]]"));
    let wanted = words.next();
    println!("{}\n", about(rounds));
    let rows = calls_of_a_full_box(rounds, wanted.as_deref().unwrap_or(""));
    table::print_calls(&rows);
    table::print_deliveries(&rows, &NAME_CELLS);
    table::print_conditions(&rows);
    table::print_lines(&rows);
    table::print_scans(&lines_of_a_delivery(rounds, wanted.as_deref().unwrap_or("")));
    table::print_documents(&documents_by_rows(rounds, wanted.as_deref().unwrap_or("")));
    table::print_floors(&rows);
    table::print_cold(&longest_calls(wanted.as_deref().unwrap_or("")));
    if wanted.is_none() {
        growth::print(rounds);
    }
}

/// What the figures are.
fn about(rounds: usize) -> String {
    let core = if cfg!(feature = "archive") {
        "libmtcore.a"
    } else {
        "the reference itself (no archive: the ratios say how steady the machine is)"
    };
    format!(
        "Core: {core}. Nanoseconds for one call, the best of {rounds} rounds; core and reference take turns \
         within each round. Caches are warm: a round repeats its call. Neither the stores nor the reply buffer \
         are cleared between calls. Stack: bytes written below the caller's frame, the wrapper's frame included."
    )
}

/// Every call on the largest stores.
fn calls_of_a_full_box(rounds: usize, wanted: &str) -> Vec<Row> {
    let mut rows = Rows { rounds, wanted, rows: Vec::new() };
    for cells in NAME_CELLS {
        let stage = Stage::new(Shape { cells, ..Shape::LARGEST });
        rows.add(&calls::observe_changed(&stage), &stage);
        rows.add(&calls::observe_same(&stage), &stage);
        let discrete = stage.with_discrete_items();
        rows.add(&calls::observe_equal_discrete(&discrete), &discrete);
        rows.add(&calls::delivery(&stage), &stage);
        rows.add(&calls::one_by_one(&stage), &stage);
    }
    let stage = Stage::new(Shape::LARGEST);
    rows.add(&calls::sample(&stage), &stage);
    rows.add(&calls::sample_by_path(&stage), &stage);
    rows.add(&calls::sample_all(&stage), &stage);
    rows.add(&calls::sample_all_by_path(&stage), &stage);
    rows.add(&calls::current(&stage), &stage);
    rows.add(&calls::current_at(&stage), &stage);
    rows.add(&calls::current_at_last(&stage), &stage);
    let conditions = stage.with_conditions();
    rows.add(&calls::observe_condition(&conditions), &conditions);
    rows.add(&calls::current_conditions(&conditions), &conditions);
    rows.add(&calls::current_at_conditions(&conditions), &conditions);
    let discrete = stage.with_discrete_items();
    for (lines, stage) in [
        (calls::sample_lines(&stage), &stage),
        (calls::event_lines(&stage), &stage),
        (calls::condition_lines(&conditions), &conditions),
        (calls::unavailable_lines(&discrete), &discrete),
    ] {
        lines.iter().for_each(|call| rows.add(call, stage));
    }
    for count in [calls::FEW_ROWS, calls::MOST_ROWS] {
        for (document, stage) in
            [calls::document(&conditions, count), calls::document_with_room(&conditions, count)]
        {
            rows.add(&document, &stage);
        }
    }
    rows.add(&calls::named_assets(), &stage);
    rows.add(&calls::all_assets(), &stage);
    rows.add(&calls::refused_text(), &stage);
    rows.add(&calls::late_sample(&stage), &stage);
    rows.add(&calls::early_at(&stage), &stage);
    rows.add(&calls::replace(), &stage);
    rows.add(&calls::evict(), &stage);
    rows.add(&calls::append(), &stage);
    rows.add(&calls::body(), &stage);
    rows.add(&calls::start(), &stage);
    rows.rows
}

/// As many lines as a delivery has records, with few names and with the most.
fn lines_of_a_delivery(rounds: usize, wanted: &str) -> Vec<Scanned> {
    let stages = NAME_CELLS.map(|cells| Stage::new(Shape { cells, ..Shape::LARGEST }));
    let scans = stages.iter().map(|stage| (calls::scan(stage), stage));
    let wanted = scans.filter(|(scan, _)| scan.name().contains(wanted));
    wanted.map(|(scan, stage)| row::measure_scan(&scan, stage, rounds)).collect()
}

/// Streams documents, from few rows to the most.
fn documents_by_rows(rounds: usize, wanted: &str) -> Vec<Documented> {
    let conditions = Stage::new(Shape::LARGEST).with_conditions();
    let rows = [calls::FEW_ROWS, 1000, 10_000, calls::MOST_ROWS];
    let exact = rows.into_iter().map(|rows| calls::document(&conditions, rows));
    let roomy = rows.into_iter().map(|rows| calls::document_with_room(&conditions, rows));
    let documents = exact.chain(roomy);
    let wanted = documents.filter(|(document, _)| document.name().contains(wanted));
    wanted.map(|(document, stage)| row::measure_document(&document, &stage, rounds)).collect()
}

/// The calls that hold a host's lock longest, and some that are frequent, once and with cold caches.
fn longest_calls(wanted: &str) -> Vec<(String, f64)> {
    let stage = Stage::new(Shape::LARGEST);
    let mut times = Vec::new();
    let requests = [
        calls::sample_all(&stage),
        calls::sample_all_by_path(&stage),
        calls::current_at_last(&stage),
        calls::sample(&stage),
        calls::current(&stage),
    ];
    for call in requests.iter().filter(|call| call.name().contains(wanted)) {
        times.push((call.name().into(), cold::best(call, &stage)));
    }
    if calls::start().name().contains(wanted) {
        times.push((calls::start().name().into(), cold::best(&calls::start(), &stage)));
    }
    let delivery = calls::delivery(&stage);
    if delivery.name().contains(wanted) {
        times.push((delivery.name().into(), cold::best(&delivery, &stage)));
    }
    times
}

/// The rows of the calls that are wanted.
struct Rows<'a> {
    rounds: usize,
    wanted: &'a str,
    rows: Vec<Row>,
}

impl Rows<'_> {
    fn add(&mut self, call: &impl Call, stage: &Stage) {
        if call.name().contains(self.wanted) {
            self.rows.push(row::measure(call, stage, self.rounds));
        }
    }
}
