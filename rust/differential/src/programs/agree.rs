//! A well-formed program in all five calls, against plain arithmetic and the published Rust.

use std::fmt::Arguments;

use super::compare::{self, Asked, Lengths, fresh_words, same_residues, same_values};
use super::published::{ProverFrame, Published, ROW_FRAME_STEPS, VerifierFrame, eval_base, in_one_step};
use super::{Cells, Words};
use crate::Score;
use crate::inputs::Random;

/// A program twice, in words and as the published Rust has it, and two frames of one shape.
pub struct Case<'a> {
    pub words: &'a Words,
    pub program: &'a Published,
    pub prover: &'a Cells,
    pub verifier: &'a Cells,
}

/// Runs all five calls. The program has to pass the check; where an evaluator answers, the published one has to say the
/// same, and it is not asked otherwise: there it would panic. Counts the program if the prover's and the verifier's
/// evaluator answered, and says whether they did.
#[track_caller]
pub fn agree(score: &mut Score, random: &mut Random, case: &Case<'_>, what: Arguments<'_>) -> bool {
    let checked = compare::check_program(score, case.words, what);
    assert_eq!(checked, Ok(()), "check_program, {what}");
    reads(score, random, case, what);
    let agreed = prover(score, random, case, what) & verifier(score, random, case, what);
    base(score, random, case, what);
    score.agreed += u64::from(agreed);
    agreed
}

#[track_caller]
fn reads(score: &mut Score, random: &mut Random, case: &Case<'_>, what: Arguments<'_>) {
    let main_width = random.pick(&[case.prover.shape.main_width, 0, 1, 300, 65_536]);
    let published: Vec<u32> = case
        .program
        .next_row_trace_reads(main_width)
        .iter()
        .map(|column| *column as u32)
        .collect();
    let room = published.len() + random.below(3);
    let ours = compare::next_row_trace_reads(score, case.words, main_width, room, what);
    assert_eq!(ours.answer, Ok(()), "next_row_trace_reads, {what}");
    assert_eq!(
        ours.out[..ours.count as usize],
        published,
        "next_row_trace_reads, {what}"
    );
}

#[track_caller]
fn prover(score: &mut Score, random: &mut Random, case: &Case<'_>, what: Arguments<'_>) -> bool {
    let lengths = Lengths::prover(case.words).and_more(random.below(4));
    let ours = compare::eval_program(score, case.words, case.prover, lengths, what);
    if ours.answer.is_err() {
        return false;
    }
    let long = ROW_FRAME_STEPS < case.prover.shape.steps;
    let side_by_side = long.then(|| in_one_step(case.program, case.prover));
    let (program, cells) = match &side_by_side {
        Some((program, cells)) => (program, cells),
        None => (case.program, case.prover),
    };
    let frame = ProverFrame::new(cells);
    let (base_evals, ext_evals) = frame.eval(
        program,
        &fresh_words(lengths.base_evals),
        &fresh_words(lengths.ext_evals),
    );
    same_residues(score, &ours.base_evals, &base_evals, format_args!("base_evals, {what}"));
    same_residues(score, &ours.ext_evals, &ext_evals, format_args!("ext_evals, {what}"));
    same_values(score, &ours.room, &frame.values(program), format_args!("room, {what}"));
    true
}

#[track_caller]
fn verifier(score: &mut Score, random: &mut Random, case: &Case<'_>, what: Arguments<'_>) -> bool {
    let lengths = Lengths::verifier(case.words).and_more(random.below(4));
    let ours = compare::eval_program_verifier(score, case.words, case.verifier, lengths, what);
    if ours.answer.is_err() {
        return false;
    }
    let frame = VerifierFrame::new(case.verifier);
    let ext_evals = frame.eval(case.program, &fresh_words(lengths.ext_evals));
    same_residues(
        score,
        &ours.ext_evals,
        &ext_evals,
        format_args!("verifier's ext_evals, {what}"),
    );
    same_values(
        score,
        &ours.room,
        &frame.values(case.program),
        format_args!("verifier's room, {what}"),
    );
    true
}

/// A row as wide as the main trace, and up to three of the constraints.
#[track_caller]
fn base(score: &mut Score, random: &mut Random, case: &Case<'_>, what: Arguments<'_>) {
    let width = case.prover.shape.main_width;
    let more = random.below(3);
    let row = random.words(width + more);
    for _ in 0..case.words.counts.roots.min(3) {
        let constraint = random.below(case.words.counts.roots);
        let room = 4 * case.words.counts.nodes + random.below(4);
        let asked = Asked {
            width,
            constraint,
            row: &row,
        };
        let ours = compare::eval_program_base(score, case.words, asked, room, what);
        if ours.answer.is_ok() {
            let published = eval_base(case.program, constraint, &row[..width]);
            same_residues(score, &[ours.value], &[published], format_args!("base value, {what}"));
        }
    }
}
