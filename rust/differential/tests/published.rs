//! The published Rust against plain 128-bit arithmetic, on the inputs of the other tests. The host has no part in
//! this: it says whether the oracle can be trusted, and where a comparison fails, which side to look at.

#![forbid(unsafe_code)]

use std::fmt::Arguments;

use differential::inputs::{Random, edge_limbs, edge_words};
use differential::{Limbs, Tally, plain, published};

const RANDOM: usize = 1_000_000;

/// Four words compared.
fn compare_words(tally: &mut Tally, a: u64, b: u64, place: Arguments<'_>) {
    let what = format_args!("{a:#x} and {b:#x}{place}");
    tally.same_residue(published::add(a, b), plain::add(a, b), what);
    tally.same_residue(published::sub(a, b), plain::sub(a, b), what);
    tally.same_residue(published::mul(a, b), plain::mul(a, b), what);
    tally.same_residue(published::neg(a), plain::neg(a), what);
}

/// Twelve words compared.
fn compare_values(tally: &mut Tally, a: Limbs, b: Limbs, place: Arguments<'_>) {
    let pairs = [
        (published::ext_add(a, b), plain::ext_add(a, b)),
        (published::ext_sub(a, b), plain::ext_sub(a, b)),
        (published::ext_mul(a, b), plain::ext_mul(a, b)),
        (published::ext_neg(a), plain::ext_neg(a)),
    ];
    for (theirs, plain) in pairs {
        for (one, other) in theirs.into_iter().zip(plain) {
            tally.same_residue(one, other, format_args!("{a:x?} and {b:x?}{place}"));
        }
    }
}

#[test]
fn base_is_right_modulo_p() {
    const SEED: u64 = 0x6261_7365;
    let mut random = Random::new(SEED);
    let mut tally = Tally::new("published base against plain arithmetic");
    let words = edge_words();
    for &a in &words {
        for &b in &words {
            compare_words(&mut tally, a, b, format_args!(""));
        }
    }
    for i in 0..RANDOM {
        let place = format_args!(" (pair {i} of seed {SEED:#x})");
        compare_words(&mut tally, random.word(), random.word(), place);
    }
    tally.finish(4 * words.len() * words.len() + 4 * RANDOM);
}

#[test]
fn extension_is_right_modulo_p() {
    const SEED: u64 = 0x6578_7465;
    let mut random = Random::new(SEED);
    let mut tally = Tally::new("published extension against plain arithmetic");
    let values = edge_limbs();
    for &a in &values {
        for &b in &values {
            compare_values(&mut tally, a, b, format_args!(""));
        }
    }
    for i in 0..RANDOM {
        let place = format_args!(" (pair {i} of seed {SEED:#x})");
        compare_values(&mut tally, random.limbs(), random.limbs(), place);
    }
    tally.finish(12 * values.len() * values.len() + 12 * RANDOM);
}
