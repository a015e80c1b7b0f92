//! One table of all that was measured on both sides.

use crate::summary::Summary;

/// What was measured of one thing, on both sides.
pub struct Row {
    what: String,
    /// What a time is of: an operation, a node, a row.
    unit: &'static str,
    ours: Summary,
    published: Summary,
}

impl Row {
    pub fn new(what: String, unit: &'static str, ours: &Summary, published: &Summary) -> Self {
        Row {
            what,
            unit,
            ours: ours.clone(),
            published: published.clone(),
        }
    }
}

/// Prints a table in Markdown.
pub fn print(machine: &str, rows: &[Row]) {
    println!(
        "{machine}. Nanoseconds are medians of the rounds. Ratios are of speeds, ours over published, so that above 1 ours is"
    );
    println!("faster: by medians, and by the best round of each side.");
    println!();
    println!("| what | ours, ns | published, ns | of | ours / published | by the best rounds |");
    println!("|---|---|---|---|---|---|");
    for row in rows {
        println!(
            "| {} | {} | {} | {} | {:.2} | {:.2} |",
            row.what,
            figures(row.ours.median),
            figures(row.published.median),
            row.unit,
            row.published.median / row.ours.median,
            row.published.best / row.ours.best,
        );
    }
}

/// Three figures, or whole nanoseconds.
fn figures(time: f64) -> String {
    match time {
        ..10.0 => format!("{time:.2}"),
        10.0..100.0 => format!("{time:.1}"),
        _ => format!("{time:.0}"),
    }
}
