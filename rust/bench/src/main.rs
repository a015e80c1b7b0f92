//! Times of the host's calls against the published Rust, in one process and on the same words.
//!
//! Without an argument all parts run, one table of all ratios follows, and the walk's speed by the size of the blob is
//! measured and drawn into `docs/walk.svg`. `field`, `builder`, `programs`, `lower` or `walk` names one part; `plot FILE` draws
//! only.

#![forbid(unsafe_code)]

mod builder;
mod field;
mod lower;
mod plot;
mod programs;
mod report;
mod summary;
mod walk;

use std::env;
use std::path::Path;
use std::process::ExitCode;

use report::Row;
use summary::cpu_model;

/// Measures and prints one part.
type Part = fn() -> Vec<Row>;

const PARTS: [(&str, Part); 5] = [
    ("field", field::run),
    ("builder", builder::run),
    ("programs", programs::run),
    ("lower", lower::run),
    ("walk", walk::run),
];

fn main() -> ExitCode {
    let arguments: Vec<String> = env::args().skip(1).collect();
    let arguments: Vec<&str> = arguments.iter().map(String::as_str).collect();
    let named = |name: &str| PARTS.iter().find(|part| part.0 == name);
    match arguments[..] {
        [] => {
            run(&PARTS);
            println!();
            draw(&plot::place())
        }
        ["plot", file] => draw(Path::new(file)),
        [name] => match named(name) {
            Some(part) => run(&[*part]),
            None => usage(),
        },
        _ => usage(),
    }
}

fn usage() -> ExitCode {
    eprintln!(
        "bench: the parts are `field`, `builder`, `programs`, `lower` and `walk`, and `plot FILE` draws the walk's speed"
    );
    ExitCode::FAILURE
}

/// The parts one after the other, then one table of all.
fn run(parts: &[(&str, Part)]) -> ExitCode {
    let mut rows = Vec::new();
    for (_, part) in parts {
        rows.extend(part());
        println!();
    }
    report::print(&cpu_model(), &rows);
    ExitCode::SUCCESS
}

fn draw(file: &Path) -> ExitCode {
    match plot::run(file) {
        Ok(()) => {
            eprintln!("bench: the drawing is in {}", file.display());
            ExitCode::SUCCESS
        }
        Err(error) => {
            eprintln!("bench: {} cannot be written: {error}", file.display());
            ExitCode::FAILURE
        }
    }
}
