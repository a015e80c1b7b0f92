//! Time per field operation: the host's calls against the published Rust, in one process and on the same words.
//!
//! Throughput is every word of one buffer by its word of another; latency is one value through a whole buffer, each
//! result the next operand. The three sides take turns in short rounds, and another one goes first each round, so that
//! what else the machine does falls on all of them alike. Each round has fresh words, so that a branch predictor cannot
//! learn them by heart.

mod ours;
mod rust;

use std::hint::black_box;
use std::time::Instant;

use differential::inputs::Random;

use crate::report::Row;
use crate::summary::{Summary, cpu_model};

/// The same words in every run.
const SEED: u64 = 0x6265_6E63;

/// A multiple of three, and two such buffers are 48 KiB: they stay in a core's first or second cache.
const WORDS: usize = 3072;

const ROUNDS: usize = 2000;

/// Rounds at the start that are not counted: caches, branch prediction and the clock settle.
const UNCOUNTED: usize = 20;

/// Passes over the buffers that are timed together, so that reading the clock weighs nothing.
const PASSES: usize = 8;

/// Changes the first buffer by the second.
type Pass = fn(&mut [u64], &[u64]);

/// Host, published, published with each result reduced once.
const SIDES: usize = 3;

struct Case {
    name: &'static str,
    /// Words of an operand: a pass over the buffers does this part of `WORDS` operations.
    width: usize,
    /// The second operand's words are uniform below 2 to this power.
    bits: u32,
    sides: [Pass; SIDES],
}

impl Case {
    const fn base(name: &'static str, sides: [Pass; SIDES]) -> Self {
        Case {
            name,
            width: 1,
            bits: u64::BITS,
            sides,
        }
    }

    const fn ext(name: &'static str, bits: u32, sides: [Pass; SIDES]) -> Self {
        Case {
            name,
            width: 3,
            bits,
            sides,
        }
    }
}

/// With the second operand's words below 2 to this power, no sum of three products of the extension's multiplication
/// passes 2^128, whatever the first operand is: each product is below 2^125, or 2^126 where a word is doubled.
const NARROW: u32 = 61;

/// The sides of a pass: the host's, the published one under the same name, and the published one with results reduced.
macro_rules! sides {
    ($pass:ident, $reduced:ident) => {
        [ours::$pass, rust::$pass, rust::$reduced]
    };
}

const EXT_MUL_EACH: [Pass; SIDES] = sides!(ext_mul_each, ext_mul_each_reduced);
const EXT_MUL_CHAIN: [Pass; SIDES] = sides!(ext_mul_chain, ext_mul_chain_reduced);

const CASES: [Case; 10] = [
    Case::base("base add, throughput", sides!(add_each, add_each_reduced)),
    Case::base("base sub, throughput", sides!(sub_each, sub_each_reduced)),
    Case::base("base mul, throughput", sides!(mul_each, mul_each_reduced)),
    Case::ext("ext mul, throughput", u64::BITS, EXT_MUL_EACH),
    Case::ext("ext mul by narrow, throughput", NARROW, EXT_MUL_EACH),
    Case::base("base add, latency", sides!(add_chain, add_chain_reduced)),
    Case::base("base sub, latency", sides!(sub_chain, sub_chain_reduced)),
    Case::base("base mul, latency", sides!(mul_chain, mul_chain_reduced)),
    Case::ext("ext mul, latency", u64::BITS, EXT_MUL_CHAIN),
    Case::ext("ext mul by narrow, latency", NARROW, EXT_MUL_CHAIN),
];

pub fn run() -> Vec<Row> {
    let mut random = Random::new(SEED);
    let (xs, ys) = operands(&mut random);
    for case in &CASES {
        check(case, &xs, &ys);
    }
    print(measure(&mut random))
}

/// Two buffers of uniform words, for a case that narrows the second itself.
fn operands(random: &mut Random) -> (Vec<u64>, Vec<u64>) {
    let mut buffer = || (0..WORDS).map(|_| random.uniform()).collect();
    (buffer(), buffer())
}

/// The words, below 2 to the power `bits`.
fn narrowed(words: &[u64], bits: u32) -> Vec<u64> {
    words.iter().map(|word| word >> (u64::BITS - bits)).collect()
}

/// A time says nothing if the sides do different work: they have to leave the same words modulo p.
fn check(case: &Case, xs: &[u64], ys: &[u64]) {
    let ys = narrowed(ys, case.bits);
    let [ours, others @ ..] = case.sides.map(|pass| {
        let mut words = xs.to_vec();
        pass(&mut words, &ys);
        words.iter_mut().for_each(|word| *word %= host::P);
        words
    });
    for other in others {
        assert!(ours == other, "{}: the sides differ modulo p", case.name);
    }
}

/// Nanoseconds an operation, by case and side, one for each counted round.
type Times = [[Vec<f64>; SIDES]; CASES.len()];

fn measure(random: &mut Random) -> Times {
    let mut times = Times::default();
    for round in 0..UNCOUNTED + ROUNDS {
        let (xs, ys) = operands(random);
        let mut words = xs.clone();
        for (case, times) in CASES.iter().zip(&mut times) {
            let ys = narrowed(&ys, case.bits);
            let operations = (PASSES * WORDS / case.width) as f64;
            for turn in 0..SIDES {
                let side = (round + turn) % SIDES;
                let pass = black_box(case.sides[side]);
                words.copy_from_slice(&xs);
                let start = Instant::now();
                for _ in 0..PASSES {
                    pass(black_box(&mut words), black_box(&ys));
                }
                let taken = start.elapsed();
                if UNCOUNTED <= round {
                    times[side].push(taken.as_nanos() as f64 / operations);
                }
            }
        }
        if (round + 1) % 200 == 0 {
            eprintln!("{} of {} rounds", round + 1, UNCOUNTED + ROUNDS);
        }
    }
    times
}

fn print(times: Times) -> Vec<Row> {
    let mut rows = Vec::new();
    println!(
        "{}; {ROUNDS} rounds of {PASSES} passes; two buffers of {WORDS} words ({} KiB each)",
        cpu_model(),
        WORDS * size_of::<u64>() / 1024
    );
    println!("nanoseconds an operation: median and best of the rounds; ratios of medians and of bests");
    println!("reduced: the published operation with its result put below p once, as ours is");
    println!("narrow: the second operand's words are below 2^{NARROW}; all other words are uniform");
    println!();
    println!(
        "{:<31}{:>16}{:>18}{:>18}{:>18}{:>18}",
        "", "ours", "published", "reduced", "ours/published", "ours/reduced"
    );
    println!(
        "{:<31}{:>9}{:>7}{:>11}{:>7}{:>11}{:>7}{:>11}{:>7}{:>11}{:>7}",
        "operation", "median", "best", "median", "best", "median", "best", "median", "best", "median", "best"
    );
    for (case, times) in CASES.iter().zip(times) {
        let [ours, published, reduced] = times.map(Summary::of);
        println!(
            "{:<31}{:>9.3}{:>7.3}{:>11.3}{:>7.3}{:>11.3}{:>7.3}{:>11.2}{:>7.2}{:>11.2}{:>7.2}",
            case.name,
            ours.median,
            ours.best,
            published.median,
            published.best,
            reduced.median,
            reduced.best,
            ours.median / published.median,
            ours.best / published.best,
            ours.median / reduced.median,
            ours.best / reduced.best,
        );
        rows.push(Row::new(case.name.to_string(), "an operation", &ours, &published));
        let what = format!("{}, published reduced", case.name);
        rows.push(Row::new(what, "an operation", &ours, &reduced));
    }
    rows
}
