//! How cost grows with the ring, the items and the name cells.

use crate::calls;
use crate::row::{measure, Row};
use crate::stage::{Shape, Stage};
use crate::table;

pub fn print(rounds: usize) {
    let shape = Shape::LARGEST;
    let rings = [1024, 4096, 16_384, 65_536, 131_072].map(|n| (n, Shape { n, ..shape }));
    let items = [8, 16, 32, 64].map(|m| (m, Shape { m, ..shape }));
    let cells = [16, 32, 64, 128, 256].map(|cells| (cells, Shape { cells, ..shape }));
    println!("\nHow cost grows, the other sizes as above; the ratio is core / reference:");
    table::print_growth("N", &grow(&rings, rounds));
    table::print_growth("m", &grow(&items, rounds));
    table::print_growth("name cells", &grow(&cells, rounds));
}

/// Some calls at each size.
fn grow(shapes: &[(usize, Shape)], rounds: usize) -> Vec<(usize, Vec<Row>)> {
    shapes.iter().map(|&(size, shape)| (size, rows(&Stage::new(shape), rounds))).collect()
}

fn rows(stage: &Stage, rounds: usize) -> Vec<Row> {
    vec![
        measure(&calls::observe_changed(stage), stage, rounds),
        measure(&calls::sample(stage), stage, rounds),
        measure(&calls::current(stage), stage, rounds),
        measure(&calls::current_at(stage), stage, rounds),
    ]
}
