//! Tables in Markdown.

use crate::calls::{self, Room};
use crate::row::{Documented, Row, Scanned};

pub fn print_calls(rows: &[Row]) {
    println!("| call | core ns | reference ns | core / reference | core stack | reference stack |");
    println!("|---|---:|---:|---:|---:|---:|");
    for row in rows {
        println!(
            "| {} | {} | {} | {} | {} | {} |",
            row.name,
            nanoseconds(row.core),
            nanoseconds(row.reference),
            ratio(row.core, row.reference),
            thousands(row.core_stack as u64),
            thousands(row.reference_stack as u64),
        );
    }
}

/// What a delivery may take of the time of its single observes, and of the reference's delivery.
const OF_ONE_BY_ONE: f64 = 0.5;
const OF_REFERENCE: f64 = 1.0;

/// Deliveries beside their single observes, where both have a row. A missed aim is said and fails nothing.
pub fn print_deliveries(rows: &[Row], name_cells: &[usize]) {
    let row = |name: String| rows.iter().find(|row| row.name == name);
    let pair = |&cells| Some((cells, row(calls::delivery_name(cells))?, row(calls::one_by_one_name(cells))?));
    let pairs: Vec<_> = name_cells.iter().filter_map(pair).collect();
    if pairs.is_empty() {
        return;
    }
    println!("\nThe core's batch beside the same observations one by one:\n");
    println!("| call | batch ns | one by one ns | batch / one by one | aim | core / reference | aim |");
    println!("|---|---:|---:|---:|---|---:|---|");
    for (cells, batch, single) in pairs {
        println!(
            "| delivery of {}, {cells} name cells | {} | {} | {} | {} | {} | {} |",
            calls::RECORDS,
            nanoseconds(batch.core),
            nanoseconds(single.core),
            ratio(batch.core, single.core),
            aim(batch.core / single.core, OF_ONE_BY_ONE),
            ratio(batch.core, batch.reference),
            aim(batch.core / batch.reference, OF_REFERENCE),
        );
    }
}

/// What `at` over a ring with conditions may take of the time over one without.
const OF_WITHOUT: f64 = 2.0;

/// The calls about conditions, those that have a row. A missed aim is said and fails nothing.
pub fn print_conditions(rows: &[Row]) {
    let about = |row: &&Row| row.name.contains("condition") && !row.name.starts_with(calls::LINE);
    let of_conditions: Vec<&Row> = rows.iter().filter(about).collect();
    if of_conditions.is_empty() {
        return;
    }
    println!("\nConditions, with their aims:\n");
    println!("| call | core ns | core / reference | aim | core / without conditions | aim |");
    println!("|---|---:|---:|---|---:|---|");
    for row in of_conditions {
        let without = rows.iter().find(|other| other.name == calls::AT_LAST);
        let without = without.filter(|_| row.name == calls::AT_CONDITIONS).map(|other| other.core);
        println!(
            "| {} | {} | {} | {} | {} | {} |",
            row.name,
            nanoseconds(row.core),
            ratio(row.core, row.reference),
            aim(row.core / row.reference, OF_REFERENCE),
            without.map_or("–".into(), |without| ratio(row.core, without)),
            without.map_or("–".into(), |without| aim(row.core / without, OF_WITHOUT)),
        );
    }
}

/// The calls about lines, those that have a row. A missed aim is said and fails nothing.
pub fn print_lines(rows: &[Row]) {
    let of_lines: Vec<&Row> = rows.iter().filter(|row| row.name.starts_with(calls::LINE)).collect();
    if of_lines.is_empty() {
        return;
    }
    println!("\nLines, with their aims:\n");
    println!("| call | core ns | reference ns | core / reference | aim |");
    println!("|---|---:|---:|---:|---|");
    for row in of_lines {
        println!(
            "| {} | {} | {} | {} | {} |",
            row.name,
            nanoseconds(row.core),
            nanoseconds(row.reference),
            ratio(row.core, row.reference),
            aim(row.core / row.reference, OF_REFERENCE),
        );
    }
}

/// The lines of a delivery one after the other: how many a second, beside a pass that only finds their bars.
pub fn print_scans(scans: &[Scanned]) {
    if scans.is_empty() {
        return;
    }
    println!(
        "\nLines of a delivery, one after the other, beside a pass that only finds the two bars of each:\n"
    );
    println!("| lines | core ns a line | lines a second | core / reference | aim | finding ns a line | core / finding |");
    println!("|---|---:|---:|---:|---|---:|---:|");
    for scan in scans {
        let line = |time: f64| time / calls::RECORDS as f64;
        println!(
            "| {} | {} | {} | {} | {} | {} | {} |",
            scan.name,
            nanoseconds(line(scan.core)),
            thousands((1e9 / line(scan.core)) as u64),
            ratio(scan.core, scan.reference),
            aim(scan.core / scan.reference, OF_REFERENCE),
            nanoseconds(line(scan.bars)),
            ratio(scan.core, scan.bars),
        );
    }
}

/// What a document of more than few rows may take of the reference's time.
const OF_REFERENCE_LONG: f64 = 1.5;

/// Documents by their rows: what a row takes, and how many bytes a second, beside a copy of as many. A missed aim is
/// said and fails nothing.
pub fn print_documents(documents: &[Documented]) {
    if documents.is_empty() {
        return;
    }
    println!("\nStreams documents by their rows, beside a copy of as many bytes:\n");
    println!(
        "| rows | bytes | room | core ns | core ns a row | reference ns a row | core / reference | aim | \
         core MB a second | copy MB a second | core / copy |"
    );
    println!("|---:|---:|---|---:|---:|---:|---:|---|---:|---:|---:|");
    for document in documents {
        let room = if document.room == Room::Exact { "exact" } else { "for any" };
        let row = |time: f64| nanoseconds(time / document.rows as f64);
        let megabytes = |time: f64| thousands((1000.0 * document.bytes as f64 / time).round() as u64);
        let most = if document.rows <= calls::FEW_ROWS { OF_REFERENCE } else { OF_REFERENCE_LONG };
        println!(
            "| {} | {} | {} | {} | {} | {} | {} | {} | {} | {} | {} |",
            thousands(document.rows as u64),
            thousands(document.bytes as u64),
            room,
            nanoseconds(document.core),
            row(document.core),
            row(document.reference),
            ratio(document.core, document.reference),
            aim(document.core / document.reference, most),
            megabytes(document.core),
            megabytes(document.copy),
            ratio(document.core, document.copy),
        );
    }
}

/// Judged as it is printed, to a hundredth.
fn aim(ratio: f64, most: f64) -> String {
    let kept = if (100.0 * ratio).round() <= 100.0 * most { "kept" } else { "MISSED" };
    format!("{most:.2}, {kept}")
}

/// The calls that read the ring beside a pass over the same words.
pub fn print_floors(rows: &[Row]) {
    if rows.iter().all(|row| row.floor.is_none()) {
        return;
    }
    println!("\nBeside a pass over the ring words that the call has to read:\n");
    println!("| call | core ns | plain pass ns | core / plain | word by word ns | core / word by word |");
    println!("|---|---:|---:|---:|---:|---:|");
    for row in rows {
        let Some(floor) = &row.floor else { continue };
        println!(
            "| {} | {} | {} | {} | {} | {} |",
            row.name,
            nanoseconds(row.core),
            nanoseconds(floor.plain),
            ratio(row.core, floor.plain),
            nanoseconds(floor.stepped),
            ratio(row.core, floor.stepped),
        );
    }
}

/// The core's calls, each once, with cold caches.
pub fn print_cold(times: &[(String, f64)]) {
    if times.is_empty() {
        return;
    }
    println!("\nOnce, with caches that hold other things:\n");
    println!("| call | core ns |");
    println!("|---|---:|");
    for (name, time) in times {
        println!("| {name} | {} |", nanoseconds(*time));
    }
}

/// One line for each size; for each call the core's time and its ratio to the reference's.
pub fn print_growth(what: &str, sizes: &[(usize, Vec<Row>)]) {
    let Some((_, first)) = sizes.first() else { return };
    let heads: Vec<_> = first.iter().map(|row| format!("{} ns | ratio", short(&row.name))).collect();
    println!("\n| {what} | {} |", heads.join(" | "));
    println!("|---:{}|", "|---:|---:".repeat(first.len()));
    for (size, rows) in sizes {
        let cells: Vec<_> = rows
            .iter()
            .map(|row| format!("{} | {}", nanoseconds(row.core), ratio(row.core, row.reference)))
            .collect();
        println!("| {} | {} |", thousands(*size as u64), cells.join(" | "));
    }
}

/// A name up to its first comma.
fn short(name: &str) -> &str {
    name.split(',').next().unwrap_or(name)
}

fn ratio(one: f64, other: f64) -> String {
    format!("{:.2}", one / other)
}

fn nanoseconds(time: f64) -> String {
    if time < 100.0 {
        return format!("{time:.1}");
    }
    thousands(time.round() as u64)
}

/// 131072 as 131,072.
pub fn thousands(number: u64) -> String {
    if number < 1000 {
        return number.to_string();
    }
    format!("{},{:03}", thousands(number / 1000), number % 1000)
}
