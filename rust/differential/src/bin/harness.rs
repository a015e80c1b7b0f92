//! Compares the host with the published Rust and with plain arithmetic on random cases of every kind: `harness SEED COUNT`,
//! with `KIND` behind for one kind only. In place of a count `90s`, `30m` or `8h` runs as many cases as that time allows. Says what was run at the end; the exit status is 1 where two sides differed. Each
//! case that did is named with its kind and seed, and `harness case KIND SEED` runs it again.

#![forbid(unsafe_code)]

use std::process::ExitCode;
use std::time::{Duration, Instant};
use std::{env, fmt, panic};

use differential::harness::{self, KINDS, Run};

/// How much of what a case says is shown, in characters: so many of its beginning and of its end.
const SHOWN: usize = 800;

/// Disagreements that are shown; all are counted.
const MOST_SHOWN: u64 = 10;

fn main() -> ExitCode {
    let arguments: Vec<String> = env::args().skip(1).collect();
    let arguments: Vec<&str> = arguments.iter().map(String::as_str).collect();
    match arguments[..] {
        ["case", kind, seed] => match (kind_of(kind), number(seed)) {
            (Some(kind), Some(seed)) => {
                let score = harness::run_again(kind, seed);
                println!(
                    "{} {seed:#x}: the sides agree, {} words compared",
                    KINDS[kind].name, score.words
                );
                ExitCode::SUCCESS
            }
            _ => usage(),
        },
        [seed, bound] => match (number(seed), Bound::of(bound)) {
            (Some(seed), Some(bound)) => run(seed, bound, (0..KINDS.len()).collect()),
            _ => usage(),
        },
        [seed, bound, kind] => match (number(seed), Bound::of(bound), kind_of(kind)) {
            (Some(seed), Some(bound), Some(kind)) => run(seed, bound, vec![kind]),
            _ => usage(),
        },
        _ => usage(),
    }
}

fn usage() -> ExitCode {
    eprintln!("harness: `harness SEED COUNT [KIND]` or `harness case KIND SEED`; a time as 30m may stand for COUNT");
    eprintln!("harness: the kinds are");
    for kind in &KINDS {
        eprintln!("  {:?}", kind.name);
    }
    ExitCode::from(2)
}

fn kind_of(name: &str) -> Option<usize> {
    KINDS.iter().position(|kind| kind.name == name)
}

/// A decimal number, or a hexadecimal one after `0x`.
fn number(text: &str) -> Option<u64> {
    match text.strip_prefix("0x") {
        Some(digits) => u64::from_str_radix(digits, 16).ok(),
        None => text.parse().ok(),
    }
}

/// How long a run is.
enum Bound {
    Cases(u64),
    Time(Duration),
}

impl Bound {
    /// A number of cases, or one of seconds, minutes or hours.
    fn of(text: &str) -> Option<Self> {
        let seconds = [("s", 1), ("m", 60), ("h", 3_600)];
        let time = seconds.iter().find_map(|(unit, seconds)| {
            let count: u64 = text.strip_suffix(unit)?.parse().ok()?;
            Some(Bound::Time(Duration::from_secs(count.checked_mul(*seconds)?)))
        });
        time.or_else(|| number(text).map(Bound::Cases))
    }

    fn reached(&self, cases: u64, taken: Duration) -> bool {
        match self {
            Bound::Cases(count) => *count <= cases,
            Bound::Time(time) => *time <= taken,
        }
    }
}

impl fmt::Display for Bound {
    fn fmt(&self, f: &mut fmt::Formatter<'_>) -> fmt::Result {
        match self {
            Bound::Cases(count) => write!(f, "of {count} cases"),
            Bound::Time(time) => write!(f, "cases, {} s to run", time.as_secs()),
        }
    }
}

fn run(seed: u64, bound: Bound, mut kinds: Vec<usize>) -> ExitCode {
    kinds.retain(|kind| {
        let left_out = harness::left_out(*kind);
        if let Some(why) = &left_out {
            eprintln!("harness: left out {:?}: {why}", KINDS[*kind].name);
        }
        left_out.is_none()
    });
    if kinds.is_empty() {
        return ExitCode::from(2);
    }
    // What a case says is shown below, with its seed.
    panic::set_hook(Box::new(|_| ()));
    let (start, mut said) = (Instant::now(), Instant::now());
    let mut run = Run::new(seed, kinds);
    let (mut cases, mut disagreements) = (0, 0);
    while !bound.reached(cases, start.elapsed()) {
        cases += 1;
        if let Err(case) = run.next_case() {
            disagreements += 1;
            if disagreements <= MOST_SHOWN {
                let (name, said) = (KINDS[case.kind].name, shortened(&case.said));
                eprintln!("harness: they differ: `harness case {name:?} {:#x}`: {said}", case.seed);
            }
        }
        if Duration::from_secs(10) <= said.elapsed() {
            said = Instant::now();
            let seconds = start.elapsed().as_secs();
            eprintln!("harness: {cases} {bound}, {disagreements} disagreements, {seconds} s");
        }
    }
    report(&run, seed, cases, start.elapsed());
    ExitCode::from(u8::from(disagreements != 0))
}

/// Beginning and end of what a case says: the end has the difference.
fn shortened(said: &str) -> String {
    let letters: Vec<char> = said.chars().collect();
    if letters.len() <= 2 * SHOWN {
        return said.to_string();
    }
    let [first, last] = [&letters[..SHOWN], &letters[letters.len() - SHOWN..]];
    format!("{} ... {}", String::from_iter(first), String::from_iter(last))
}

/// What was run of each kind, as a table.
fn report(run: &Run, seed: u64, count: u64, taken: Duration) {
    println!("seed {seed:#x}, {count} cases in {:.0} s", taken.as_secs_f64());
    println!();
    println!(
        "| kind | cases | compared with the published Rust | words compared | answers by number | disagreements |"
    );
    println!("|---|---|---|---|---|---|");
    for (kind, tried) in KINDS.iter().zip(&run.tried) {
        if tried.cases != 0 {
            let score = &tried.score;
            println!(
                "| {} | {} | {} | {} | {} | {} |",
                kind.name,
                tried.cases,
                score.agreed,
                score.words,
                score.answers(),
                tried.disagreements
            );
        }
    }
    let all: u64 = run.tried.iter().map(|tried| tried.disagreements).sum();
    println!();
    println!("{count} cases, {all} disagreements");
}
