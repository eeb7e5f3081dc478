//! Times the proved library and the baseline side by side and writes the tables of docs/BENCHMARKS.md.

mod clock;
mod floors;
mod operations;
mod product;
mod report;
mod size;

use operations::Operation;
use report::Row;
use size::Size;

const SIZES: [Size; 3] = [Size(3), Size(6), Size(12)];

fn row(operations: &[&Operation]) -> Row {
    Row {
        name: operations[0].name,
        times: operations.iter().map(|timed| clock::time(timed)).collect(),
        writes: operations.iter().map(|timed| timed.writes).collect(),
    }
}

/// Each operation by its times at every size.
fn rows(by_size: &[Vec<Operation>], wanted: &str) -> Vec<Row> {
    let mut rows = Vec::new();
    for (number, operation) in by_size[0].iter().enumerate() {
        if operation.name.contains(wanted) {
            let at_each_size = by_size.iter().map(|operations| &operations[number]);
            rows.push(row(&at_each_size.collect::<Vec<_>>()));
        }
    }
    rows
}

/// Changes from clear to clear have all but the writing of records in common with the one that writes none.
fn print_records(timed: Vec<Row>) {
    let clear = timed.into_iter().filter(|row| is_clear_change(row.name));
    let (writing, bare): (Vec<Row>, Vec<Row>) = clear.partition(|row| row.writes[0] > 0);
    if let Some(bare) = bare.first() {
        println!("{}", report::records(&writing, bare));
    }
}

fn is_clear_change(name: &str) -> bool {
    let kinds = ["3", "5", "6", "7", "8", "9"];
    kinds
        .iter()
        .any(|kind| name.starts_with(&format!("change {kind},")))
}

/// An argument is a part of the names of the operations to time; without one all are.
fn main() {
    let wanted = std::env::args().nth(1).unwrap_or_default();
    let timed = rows(&SIZES.map(operations::at), &wanted);
    let queries = rows(&[operations::steel()], &wanted);
    let titles = SIZES.map(|size| format!("{0}×{0}", size.0));
    println!("{}", report::ratios(&titles, &timed));
    println!("{}", report::ratios(&["query".to_string()], &queries));
    println!("{}", report::growth(&SIZES, &timed));
    print_records(timed);
}
