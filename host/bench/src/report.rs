//! What was measured, as tables of markdown.

use crate::clock::Times;
use crate::size::Size;

/// An operation's times at each size.
pub struct Row {
    pub name: &'static str,
    pub times: Vec<Times>,
    /// Records of the table that a call writes at each size.
    pub writes: Vec<usize>,
}

fn line(cells: &[String]) -> String {
    format!("| {} |\n", cells.join(" | "))
}

fn head(cells: &[String]) -> String {
    format!("{}|{}\n", line(cells), "-|".repeat(cells.len()))
}

fn nanoseconds(time: f64) -> String {
    if time < 100.0 {
        format!("{time:.1}")
    } else {
        format!("{time:.0}")
    }
}

/// Ours, the baseline's and their ratio, three columns under each title.
pub fn ratios(titles: &[String], rows: &[Row]) -> String {
    let mut cells = vec!["operation".to_string()];
    for title in titles {
        let columns = ["ours, ns", "Rust, ns", "ratio"];
        cells.extend(columns.map(|column| format!("{title} {column}")));
    }
    let mut text = head(&cells);
    for row in rows {
        let mut cells = vec![row.name.to_string()];
        for Times { ours, baseline } in &row.times {
            let ratio = format!("{:.2}", ours / baseline);
            cells.extend([nanoseconds(*ours), nanoseconds(*baseline), ratio]);
        }
        text += &line(&cells);
    }
    text
}

/// One number for each size.
fn by_size(numbers: impl Iterator<Item = f64>) -> String {
    numbers.map(nanoseconds).collect::<Vec<_>>().join(", ")
}

/// How much longer the last size takes than the first, and the time for each panel at every size.
pub fn growth(sizes: &[Size], rows: &[Row]) -> String {
    let columns = [
        "operation",
        "ours grows",
        "Rust grows",
        "ours, ns per panel",
        "Rust, ns per panel",
    ];
    let first_to_last = |number: &dyn Fn(usize) -> f64| number(sizes.len() - 1) / number(0);
    let mut text = format!(
        "Panels grow {:.1}×, records of the table {:.1}×, records of the floor file {:.1}×.\n\n",
        first_to_last(&|k| sizes[k].panels() as f64),
        first_to_last(&|k| sizes[k].records() as f64),
        first_to_last(&|k| sizes[k].file_records() as f64),
    );
    text += &head(&columns.map(String::from));
    for Row { name, times, .. } in rows {
        let (ours, rust) = (|k: usize| times[k].ours, |k: usize| times[k].baseline);
        let panels = |k: usize| sizes[k].panels() as f64;
        text += &line(&[
            name.to_string(),
            format!("{:.1}×", first_to_last(&ours)),
            format!("{:.1}×", first_to_last(&rust)),
            by_size((0..sizes.len()).map(|k| ours(k) / panels(k))),
            by_size((0..sizes.len()).map(|k| rust(k) / panels(k))),
        ]);
    }
    text
}

/// What each record that is written adds to an operation that differs from `bare` by writing them.
pub fn records(rows: &[Row], bare: &Row) -> String {
    let columns = [
        "operation",
        "records written",
        "ours, ns per record",
        "Rust, ns per record",
    ];
    let mut text = head(&columns.map(String::from));
    for Row {
        name,
        times,
        writes,
    } in rows
    {
        let each = |time: fn(&Times) -> f64| {
            let added = times.iter().zip(&bare.times);
            let added = added.map(move |(with, without)| time(with) - time(without));
            by_size(
                added
                    .zip(writes)
                    .map(|(added, &count)| added / count as f64),
            )
        };
        let counts: Vec<String> = writes.iter().map(usize::to_string).collect();
        text += &line(&[
            name.to_string(),
            counts.join(", "),
            each(|times| times.ours),
            each(|times| times.baseline),
        ]);
    }
    text
}
