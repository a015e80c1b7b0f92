//! The harness on a few cases of every kind, so that it is known to run when it is asked for many.

#![forbid(unsafe_code)]

use differential::harness::{KINDS, Run, left_out, run_again};

#[test]
fn a_few_cases_of_every_kind() {
    let cases = if cfg!(debug_assertions) { 500 } else { 9_000 };
    let kinds: Vec<usize> = (0..KINDS.len()).filter(|kind| left_out(*kind).is_none()).collect();
    let mut run = Run::new(0x6861_726E, kinds.clone());
    for _ in 0..cases {
        if let Err(case) = run.next_case() {
            panic!("{} {:#x}: {}", KINDS[case.kind].name, case.seed, case.said);
        }
    }
    for kind in kinds {
        let tried = &run.tried[kind];
        println!(
            "harness: {} cases of {}, {} words",
            tried.cases, KINDS[kind].name, tried.score.words
        );
        // A kind that starts a program comes up seldom.
        assert!(KINDS[kind].name == "listing" || cases / 20 < tried.cases);
    }
    assert_eq!(run.tried.iter().map(|tried| tried.cases).sum::<u64>(), cases);
}

/// A case is its seed: run again, it compares the same words.
#[test]
fn a_case_is_run_again() {
    for kind in (0..KINDS.len()).filter(|kind| KINDS[*kind].name != "listing") {
        for seed in 0..20 {
            assert_eq!(run_again(kind, seed).words, run_again(kind, seed).words);
        }
    }
}
