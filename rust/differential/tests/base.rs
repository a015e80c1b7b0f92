//! The base field: the host against the published Rust.

#![forbid(unsafe_code)]

use std::fmt::Arguments;

use differential::inputs::{Random, edge_words};
use differential::{P, Tally, plain, published};
use host::field;

const RANDOM: usize = 1_000_000;

type Binary = fn(u64, u64) -> u64;
type Unary = fn(u64) -> u64;

const BINARY: [(&str, Binary, Binary); 3] = [
    ("+", field::add, published::add),
    ("-", field::sub, published::sub),
    ("*", field::mul, published::mul),
];

// Reduction is published twice.
const UNARY: [(&str, Unary, Unary); 3] = [
    ("neg", field::neg, published::neg),
    ("reduce, as canonical,", field::reduce, published::canonical),
    ("reduce, as from_u64,", field::reduce, published::from_u64),
];

/// Three words compared.
fn compare_binary(tally: &mut Tally, a: u64, b: u64, place: Arguments<'_>) {
    for (sign, ours, theirs) in BINARY {
        tally.word(ours(a, b), theirs(a, b), format_args!("{a:#x} {sign} {b:#x}{place}"));
    }
}

/// Three words compared.
fn compare_unary(tally: &mut Tally, a: u64, place: Arguments<'_>) {
    for (name, ours, theirs) in UNARY {
        tally.word(ours(a), theirs(a), format_args!("{name} of {a:#x}{place}"));
    }
}

#[test]
fn one_prime() {
    assert_eq!(host::P, P);
    assert_eq!(host::P, u64::MAX - (1 << 32) + 2);
}

#[test]
fn every_pair_of_edge_words() {
    let words = edge_words();
    let mut tally = Tally::new("base, every pair of edge words");
    for &a in &words {
        compare_unary(&mut tally, a, format_args!(""));
        for &b in &words {
            compare_binary(&mut tally, a, b, format_args!(""));
        }
    }
    tally.finish(3 * words.len() + 3 * words.len() * words.len());
}

#[test]
fn random_pairs() {
    const SEED: u64 = 0x6261_7365;
    let mut random = Random::new(SEED);
    let mut tally = Tally::new("base, random pairs");
    for i in 0..RANDOM {
        let (a, b) = (random.word(), random.word());
        let place = format_args!(" (pair {i} of seed {SEED:#x})");
        compare_binary(&mut tally, a, b, place);
        compare_unary(&mut tally, a, place);
    }
    tally.finish(6 * RANDOM);
}

/// Against plain arithmetic: the Rust's own conversion stands in a file that was not published.
#[test]
fn signed_constants() {
    const SEED: u64 = 0x7369_676E;
    let mut random = Random::new(SEED);
    let mut tally = Tally::new("base, signed constants");
    let mut edges = vec![i64::MIN, i64::MIN + 1, -1, 0, 1, i64::MAX - 1, i64::MAX];
    for word in edge_words() {
        edges.extend([word as i64, (word as i64).wrapping_neg()]);
    }
    for &v in &edges {
        tally.word(field::from_i64(v), plain::from_i64(v), format_args!("from_i64({v})"));
    }
    for i in 0..RANDOM {
        let v = random.word() as i64;
        tally.word(
            field::from_i64(v),
            plain::from_i64(v),
            format_args!("from_i64({v}) (number {i} of seed {SEED:#x})"),
        );
    }
    tally.finish(edges.len() + RANDOM);
}

/// The base field's sums that the scope document states, so that no error common to both sides passes for agreement.
#[test]
fn stated_sums() {
    assert_eq!(field::mul(P - 1, P - 1), 1);
    assert_eq!(field::mul(1 << 32, 1 << 32), 4_294_967_295);
    assert_eq!(field::mul(1 << 48, 1 << 48), P - 1);
    assert_eq!(field::from_i64(-1), 18_446_744_069_414_584_320);
    assert_eq!(field::from_i64(i64::MIN), 9_223_372_032_559_808_513);
    assert_eq!(field::reduce(u64::MAX), 4_294_967_294);
}
