//! The printed sample of programs: its lines hold what their description says, the host gives the answers in them, and
//! the Rattle program that replays it reads the same lines.

#![forbid(unsafe_code)]

use std::collections::BTreeSet;

use differential::Score;
use differential::inputs::Random;
use differential::lines::{Numbers, file_has};
use differential::programs::agree::{Case, agree};
use differential::programs::sample::{cases, lines};
use differential::programs::{Cells, Words, published};
use host::lent::program::{self, Counts};

#[test]
fn host_gives_the_sample() {
    let lines = lines();
    let mut answered = BTreeSet::new();
    for (at, line) in lines.iter().enumerate() {
        let what = &format!("case {at}: {line}");
        let mut numbers = Numbers::of(line);
        let counts = Counts {
            nodes: numbers.count(),
            base_consts: numbers.count(),
            ext_consts: numbers.count(),
            roots: numbers.count(),
            num_base: numbers.count(),
        };
        let shape = numbers.shape();
        let table_offset = numbers.limbs();
        let words = Words {
            counts,
            nodes: numbers.short_words(4 * counts.nodes),
            base_consts: numbers.words(counts.base_consts),
            ext_consts: numbers.words(3 * counts.ext_consts),
            roots: numbers.short_words(counts.roots),
        };
        let prover = Cells {
            shape,
            main: numbers.words(shape.steps * shape.main_width),
            aux: numbers.words(3 * shape.steps * shape.aux_width),
            challenges: numbers.words(3 * shape.challenges),
            alphas: numbers.words(3 * shape.alphas),
            table_offset,
        };
        let verifier = Cells {
            main: numbers.words(3 * shape.steps * shape.main_width),
            ..prover.clone()
        };
        let lent = words.lend();

        numbers.answer(program::check_program(&lent), &mut answered, what);

        let mut out = vec![0; counts.nodes];
        let reads = program::next_row_trace_reads(&lent, shape.main_width, &mut out);
        if numbers.answer(reads.map(|_| ()), &mut answered, what) {
            assert_eq!(reads, Ok(numbers.count()), "{what}");
            let columns = reads.unwrap_or(0);
            assert_eq!(out[..columns], numbers.short_words(columns), "{what}");
        }

        let bases = counts.num_base.min(counts.roots);
        let others = counts.roots - bases;
        let mut base_evals = vec![0; bases];
        let mut ext_evals = vec![0; if others == 0 { 0 } else { 3 * counts.roots }];
        let mut room = vec![0; 4 * counts.nodes];
        let answer = program::eval_program(&lent, &prover.lend(), &mut base_evals, &mut ext_evals, &mut room);
        if numbers.answer(answer, &mut answered, what) {
            assert_eq!(base_evals, numbers.words(bases), "{what}");
            let written = &ext_evals[ext_evals.len() - 3 * others..];
            assert_eq!(written, numbers.words(3 * others), "{what}");
        }

        let mut ext_evals = vec![0; 3 * counts.roots];
        let answer = program::eval_program_verifier(&lent, &verifier.lend(), &mut ext_evals, &mut room);
        if numbers.answer(answer, &mut answered, what) {
            assert_eq!(ext_evals, numbers.words(3 * counts.roots), "{what}");
        }

        let width = if shape.steps == 0 { 0 } else { shape.main_width };
        for constraint in 0..counts.roots {
            let value = program::eval_program_base(&lent, width, constraint, &prover.main[..width], &mut room);
            if numbers.answer(value.map(|_| ()), &mut answered, what) {
                assert_eq!(value, Ok(numbers.one()), "{what}");
            }
        }
        numbers.end(what);
    }
    println!("the sample: {} cases with answers {answered:?}", lines.len());
    assert_eq!(answered, BTreeSet::from([0, 7, 12, 13]));
}

/// The Rattle program that replays the sample has it in a file of its own.
#[test]
fn program_cases_has_the_sample() {
    let (file, kept) = (
        "crates/program_cases/stdin",
        include_str!("../../../crates/program_cases/stdin"),
    );
    file_has(file, kept, &lines(), "program_sample");
}

/// The answers in the sample are those of plain arithmetic; here the published Rust confirms those that are values.
#[test]
fn published_rust_confirms_the_sample() {
    let mut random = Random::new(0);
    let mut score = Score::new("the sample");
    for (at, case) in cases().iter().enumerate() {
        if program::check_program(&case.words.lend()).is_err() {
            continue;
        }
        let case = Case {
            words: &case.words,
            program: &published::program(&case.words),
            prover: &case.prover,
            verifier: &case.verifier,
        };
        agree(&mut score, &mut random, &case, format_args!("case {at}"));
    }
    assert!(25 <= score.agreed);
    score.finish(&[0, 12, 13]);
}
