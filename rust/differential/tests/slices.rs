//! The calls over whole slices, each against its published single operation repeated.

#![forbid(unsafe_code)]

use differential::inputs::Random;
use differential::{Limbs, Tally, published};
use host::{Refusal, ext, field};

/// Nothing, less than a triple, a triple, more, and lengths that a triple does not divide.
const LENGTHS: [usize; 7] = [0, 1, 2, 3, 4, 100, 101];

/// How often each pair of lengths is tried, on other words each time.
const ROUNDS: usize = 50;

/// Words kept on either side of what is lent, to see that nothing outside it is written.
const GUARD: usize = 4;

const SHORT: Result<(), Refusal> = Err(Refusal { number: 1, place: 0 });

type Each = fn(&mut [u64], &[u64]) -> Result<(), Refusal>;
type Chain = fn(u64, &[u64]) -> u64;
type Expected = fn(u64, u64) -> u64;

const BASE: [(&str, Each, Chain, Expected); 3] = [
    ("add", field::add_each, field::add_chain, published::add),
    ("sub", field::sub_each, field::sub_chain, published::sub),
    ("mul", field::mul_each, field::mul_chain, published::mul),
];

fn triple(words: &[u64]) -> Limbs {
    [words[0], words[1], words[2]]
}

/// Lends the middle `n` words of `before` and all of `ys` to a call. Gives its answer and the whole memory after it.
fn lend(call: Each, before: &[u64], n: usize, ys: &[u64]) -> (Result<(), Refusal>, Vec<u64>) {
    let mut now = before.to_vec();
    let answer = call(&mut now[GUARD..GUARD + n], ys);
    (answer, now)
}

/// Compares the middle of the memory with the published words; every word outside it has to be as it was.
fn compare(tally: &mut Tally, now: &[u64], before: &[u64], expected: &[u64], what: &str) {
    let end = GUARD + expected.len();
    tally.untouched(&now[..GUARD], &before[..GUARD], format_args!("{what}"));
    tally.words(&now[GUARD..end], expected, format_args!("{what}"));
    tally.untouched(&now[end..], &before[end..], format_args!("{what}"));
}

#[test]
fn each_word_by_its_word() {
    const SEED: u64 = 0x6561_6368;
    let mut random = Random::new(SEED);
    let mut tally = Tally::new("slices, each word");
    let mut meant = 0;
    for n in LENGTHS {
        for m in [n, n + 1, n + 5] {
            for round in 0..ROUNDS {
                let before = random.words(n + 2 * GUARD);
                let ys = random.words(m);
                for (name, each, _, theirs) in BASE {
                    let what = format!("{name} each, {n} by {m}, round {round} of seed {SEED:#x}");
                    let (answer, now) = lend(each, &before, n, &ys);
                    assert_eq!(answer, Ok(()), "{what}");
                    let xs = &before[GUARD..GUARD + n];
                    let expected: Vec<u64> = xs.iter().zip(&ys).map(|(x, y)| theirs(*x, *y)).collect();
                    compare(&mut tally, &now, &before, &expected, &what);
                    meant += n + 2 * GUARD;
                }
            }
        }
    }
    tally.finish(meant);
}

/// The words after the last whole triple are not the call's to write: they are compared with what they were.
#[test]
fn each_triple_by_its_triple() {
    const SEED: u64 = 0x7472_6970;
    let mut random = Random::new(SEED);
    let mut tally = Tally::new("slices, each triple");
    let mut meant = 0;
    for n in LENGTHS {
        for m in [n, n + 1, n + 5] {
            for round in 0..ROUNDS {
                let what = format!("ext mul each, {n} by {m}, round {round} of seed {SEED:#x}");
                let before = random.words(n + 2 * GUARD);
                let ys = random.words(m);
                let (answer, now) = lend(ext::mul_each, &before, n, &ys);
                assert_eq!(answer, Ok(()), "{what}");
                let xs = before[GUARD..GUARD + n].chunks_exact(3);
                let expected: Vec<u64> = xs
                    .zip(ys.chunks_exact(3))
                    .flat_map(|(x, y)| published::ext_mul(triple(x), triple(y)))
                    .collect();
                assert_eq!(expected.len(), n / 3 * 3);
                compare(&mut tally, &now, &before, &expected, &what);
                meant += n + 2 * GUARD;
            }
        }
    }
    tally.finish(meant);
}

#[test]
fn shorter_second_slice_is_refused() {
    const SEED: u64 = 0x7265_6675;
    let mut random = Random::new(SEED);
    let mut tally = Tally::new("slices, shorter second slice refused");
    let mut meant = 0;
    for n in LENGTHS {
        let before = random.words(n + 2 * GUARD);
        for m in LENGTHS.into_iter().chain([99]).filter(|&m| m < n) {
            let ys = random.words(m);
            let calls = BASE.map(|(name, each, ..)| (name, each));
            for (name, call) in calls.into_iter().chain([("ext mul", ext::mul_each as Each)]) {
                let what = format!("{name} each, {n} by {m}, seed {SEED:#x}");
                let (answer, now) = lend(call, &before, n, &ys);
                assert_eq!(answer, SHORT, "{what}");
                tally.untouched(&now, &before, format_args!("{what}"));
                meant += before.len();
            }
        }
    }
    tally.finish(meant);
}

#[test]
fn one_word_through_a_slice() {
    const SEED: u64 = 0x6368_6169;
    let mut random = Random::new(SEED);
    let mut tally = Tally::new("slices, one word through");
    for m in LENGTHS {
        for round in 0..ROUNDS {
            let x = random.word();
            let ys = random.words(m);
            for (name, _, chain, theirs) in BASE {
                tally.word(
                    chain(x, &ys),
                    ys.iter().fold(x, |x, y| theirs(x, *y)),
                    format_args!("{name} chain from {x:#x} through {m}, round {round} of seed {SEED:#x}"),
                );
            }
        }
    }
    tally.finish(3 * LENGTHS.len() * ROUNDS);
}

#[test]
fn one_value_through_a_slice() {
    const SEED: u64 = 0x7661_6C75;
    let mut random = Random::new(SEED);
    let mut tally = Tally::new("slices, one value through");
    let mut meant = 0;
    for m in LENGTHS {
        for n in [3, 4, 100] {
            for round in 0..ROUNDS {
                let what = format!("ext mul chain in {n} through {m}, round {round} of seed {SEED:#x}");
                let before = random.words(n + 2 * GUARD);
                let ys = random.words(m);
                let (answer, now) = lend(ext::mul_chain, &before, n, &ys);
                assert_eq!(answer, Ok(()), "{what}");
                let x = triple(&before[GUARD..]);
                let expected = ys.chunks_exact(3).fold(x, |x, y| published::ext_mul(x, triple(y)));
                compare(&mut tally, &now, &before, &expected, &what);
                meant += before.len();
            }
        }
    }
    tally.finish(meant);
}

#[test]
fn short_value_for_a_chain_is_refused() {
    const SEED: u64 = 0x7368_6F72;
    let mut random = Random::new(SEED);
    let mut tally = Tally::new("slices, short value refused");
    let mut meant = 0;
    for n in 0..3 {
        for m in LENGTHS {
            let what = format!("ext mul chain in {n} through {m}, seed {SEED:#x}");
            let before = random.words(n + 2 * GUARD);
            let (answer, now) = lend(ext::mul_chain, &before, n, &random.words(m));
            assert_eq!(answer, SHORT, "{what}");
            tally.untouched(&now, &before, format_args!("{what}"));
            meant += before.len();
        }
    }
    tally.finish(meant);
}
