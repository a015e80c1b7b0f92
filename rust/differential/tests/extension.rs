//! The cubic extension: the host against the published Rust, one operation a call.

#![forbid(unsafe_code)]

use std::fmt::Arguments;

use differential::inputs::{Random, edge_limbs, edge_words};
use differential::{Limbs, P, Tally, published};
use host::{Refusal, ext};

const RANDOM: usize = 1_000_000;

const SHORT: Result<(), Refusal> = Err(Refusal { number: 1, place: 0 });

type Changing = fn(&mut [u64], &[u64]) -> Result<(), Refusal>;
type OfTwo = fn(Limbs, Limbs) -> Limbs;
type OfBaseAndOne = fn(u64, Limbs) -> Limbs;
type OfBase = fn(u64) -> Limbs;

const BINARY: [(&str, Changing, OfTwo); 3] = [
    ("+", ext::add, published::ext_add),
    ("-", ext::sub, published::ext_sub),
    ("*", ext::mul, published::ext_mul),
];

// A base value and an extension value. The published Rust has short forms; ours are the long ones, on the embedded
// base value.
const MIXED: [(&str, Changing, OfBaseAndOne); 3] = [
    ("+", ext::add, published::mixed_add),
    ("-", ext::sub, published::mixed_sub),
    ("*", ext::mul, published::mixed_mul),
];

// The embedding is published twice.
const EMBEDDING: [(&str, OfBase); 2] = [
    ("embed", published::embed),
    ("embed, as from_u64,", published::ext_from_u64),
];

fn embedded(x: u64) -> Limbs {
    // Not zeros: the call has to write all three words.
    let mut out = [1, 2, 3];
    assert_eq!(ext::embed(x, &mut out), Ok(()), "embed of {x:#x}");
    out
}

/// Nine words compared.
fn compare_binary(tally: &mut Tally, a: Limbs, b: Limbs, place: Arguments<'_>) {
    for (sign, ours, theirs) in BINARY {
        let what = format_args!("{a:x?} {sign} {b:x?}{place}");
        let mut out = a;
        assert_eq!(ours(&mut out, &b), Ok(()), "{what}");
        tally.words(&out, &theirs(a, b), what);
    }
}

/// Three words compared.
fn compare_negation(tally: &mut Tally, a: Limbs, place: Arguments<'_>) {
    let what = format_args!("neg of {a:x?}{place}");
    let mut out = a;
    assert_eq!(ext::neg(&mut out), Ok(()), "{what}");
    tally.words(&out, &published::ext_neg(a), what);
}

/// Nine words compared.
fn compare_mixed(tally: &mut Tally, a: u64, b: Limbs, place: Arguments<'_>) {
    for (sign, ours, theirs) in MIXED {
        let what = format_args!("base {a:#x} {sign} {b:x?}{place}");
        let mut out = embedded(a);
        assert_eq!(ours(&mut out, &b), Ok(()), "{what}");
        tally.words(&out, &theirs(a, b), what);
    }
}

/// Six words compared.
fn compare_embedding(tally: &mut Tally, x: u64, place: Arguments<'_>) {
    for (name, theirs) in EMBEDDING {
        tally.words(&embedded(x), &theirs(x), format_args!("{name} of {x:#x}{place}"));
    }
}

#[test]
fn every_pair_of_edge_values() {
    let values = edge_limbs();
    let mut tally = Tally::new("extension, every pair of edge values");
    for &a in &values {
        compare_negation(&mut tally, a, format_args!(""));
        for &b in &values {
            compare_binary(&mut tally, a, b, format_args!(""));
        }
    }
    tally.finish(3 * 216 + 9 * 46_656);
}

#[test]
fn random_pairs() {
    const SEED: u64 = 0x6578_7465;
    let mut random = Random::new(SEED);
    let mut tally = Tally::new("extension, random pairs");
    for i in 0..RANDOM {
        let (a, b) = (random.limbs(), random.limbs());
        let place = format_args!(" (pair {i} of seed {SEED:#x})");
        compare_binary(&mut tally, a, b, place);
        compare_negation(&mut tally, a, place);
    }
    tally.finish(12 * RANDOM);
}

#[test]
fn embedding() {
    const SEED: u64 = 0x656D_6264;
    let mut random = Random::new(SEED);
    let mut tally = Tally::new("extension, embedding");
    let edges = edge_words();
    for &x in &edges {
        compare_embedding(&mut tally, x, format_args!(""));
    }
    for i in 0..RANDOM {
        let place = format_args!(" (word {i} of seed {SEED:#x})");
        compare_embedding(&mut tally, random.word(), place);
    }
    tally.finish(6 * edges.len() + 6 * RANDOM);
}

#[test]
fn mixed_operations() {
    const SEED: u64 = 0x6D69_7865;
    let mut random = Random::new(SEED);
    let mut tally = Tally::new("extension, base and extension mixed");
    let (words, values) = (edge_words(), edge_limbs());
    for &a in &words {
        for &b in &values {
            compare_mixed(&mut tally, a, b, format_args!(""));
        }
    }
    for i in 0..RANDOM {
        let place = format_args!(" (pair {i} of seed {SEED:#x})");
        compare_mixed(&mut tally, random.word(), random.limbs(), place);
    }
    tally.finish(9 * words.len() * values.len() + 9 * RANDOM);
}

/// The lengths that the next two tests lend: too short, exact, and longer than a value.
const LENGTHS: [usize; 7] = [0, 1, 2, 3, 4, 100, 101];

/// Lent more than a value needs, a call still writes three words only. The others are at or above p, so that even a
/// reduction of them shows.
#[test]
fn words_past_the_third_are_untouched() {
    const SEED: u64 = 0x7061_7374;
    let mut random = Random::new(SEED);
    let mut tally = Tally::new("extension, words past the third");
    let mut meant = 0;
    let mut compare = |now: &[u64], before: &[u64], theirs: Limbs, what: &str| {
        tally.words(&now[..3], &theirs, format_args!("{what}"));
        tally.untouched(&now[3..], &before[3..], format_args!("{what}"));
        meant += now.len();
    };
    for n in LENGTHS.into_iter().filter(|&n| 3 <= n) {
        let a = random.limbs();
        let mut before = vec![u64::MAX; n];
        before[..3].copy_from_slice(&a);
        for m in LENGTHS.into_iter().filter(|&m| 3 <= m) {
            let b = random.words(m);
            for (sign, ours, theirs) in BINARY {
                let what = format!("{a:x?} {sign} {b:x?} in {n} and {m} words (seed {SEED:#x})");
                let mut now = before.clone();
                assert_eq!(ours(&mut now, &b), Ok(()), "{what}");
                compare(&now, &before, theirs(a, [b[0], b[1], b[2]]), &what);
            }
        }
        let what = format!("neg of {a:x?} in {n} words (seed {SEED:#x})");
        let mut now = before.clone();
        assert_eq!(ext::neg(&mut now), Ok(()), "{what}");
        compare(&now, &before, published::ext_neg(a), &what);

        let what = format!("embed in {n} words");
        let mut now = before.clone();
        assert_eq!(ext::embed(P + 5, &mut now), Ok(()), "{what}");
        compare(&now, &before, published::embed(P + 5), &what);
    }
    tally.finish(meant);
}

/// Lent fewer than three words on either side, a call answers 1 and changes nothing. The words are at or above p, so
/// that even a reduction of them shows.
#[test]
fn short_slices_are_refused() {
    let mut tally = Tally::new("extension, short slices refused");
    let mut meant = 0;
    for n in LENGTHS {
        let before = vec![u64::MAX; n];
        for m in LENGTHS.into_iter().filter(|&m| n < 3 || m < 3) {
            for (sign, ours, _) in BINARY {
                let what = format_args!("{sign} in {n} and {m} words");
                let mut now = before.clone();
                assert_eq!(ours(&mut now, &vec![7; m]), SHORT, "{what}");
                tally.untouched(&now, &before, what);
                meant += n;
            }
        }
        if n < 3 {
            let mut now = before.clone();
            assert_eq!(ext::neg(&mut now), SHORT, "neg in {n} words");
            tally.untouched(&now, &before, format_args!("neg in {n} words"));
            assert_eq!(ext::embed(5, &mut now), SHORT, "embed in {n} words");
            tally.untouched(&now, &before, format_args!("embed in {n} words"));
            meant += 2 * n;
        }
    }
    tally.finish(meant);
}

/// The extension's sums that the scope document states, so that no error common to both sides passes for agreement.
#[test]
fn stated_sums() {
    let mut a = [1, 2, 3];
    assert_eq!(ext::mul(&mut a, &[4, 5, 6]), Ok(()));
    assert_eq!(a, [58, 49, 28]);
    let mut w = [0, 1, 0];
    assert_eq!(ext::mul(&mut w, &[0, 0, 1]), Ok(()));
    assert_eq!(w, [2, 0, 0]);
}
