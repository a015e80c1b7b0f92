//! A well-formed program, lowered by the host, against the plain reading and the published Rust; and its blob, walked.

use std::fmt::Arguments;

use stark::constraint_ir::device::DeviceProgram;

use super::{Lengths, compare};
use crate::blobs::published::{DeviceFrame, words as blob_words};
use crate::blobs::{BlobWords, agree as blobs};
use crate::programs::compare::{Lengths as Evals, eval_program, fresh_words, same_residues};
use crate::programs::published::{ProverFrame, Published};
use crate::programs::{Cells, Words};
use crate::{P, Score};

/// A program twice, in words and as the published Rust has it.
#[derive(Clone, Copy)]
pub struct Case<'a> {
    pub words: &'a Words,
    pub program: &'a Published,
}

/// Lowers the program with up to three words more than needed of all that is lent for writing. The host has to answer 0
/// and the published `lower` has to give the same blob: counts, nodes and roots word for word, constants modulo p. Counts the
/// program, and gives the host's blob and the published one.
#[track_caller]
pub fn agree(score: &mut Score, case: Case<'_>, more: usize, what: Arguments<'_>) -> (BlobWords, DeviceProgram) {
    let device = DeviceProgram::lower(case.program);
    let published = blob_words(&device);
    let lengths = Lengths::of(case.words, &published).and_more(more);
    let lowered = compare::lower(score, case.words, lengths, what);
    assert_eq!(lowered.answer, Ok(()), "{what}: a well-formed program is lowered");
    let ours = lowered.blob(case.words);
    let same = (ours.counts, &ours.nodes, &ours.roots) == (published.counts, &published.nodes, &published.roots);
    assert!(
        same,
        "{what}: ours and the published blob, {ours:?} and {published:?}, of {:?}",
        case.words
    );
    score.words += (ours.nodes.len() + ours.roots.len() + 7) as u64;
    for (ours, published) in [
        (&ours.base_consts, &published.base_consts),
        (&ours.ext_consts, &published.ext_consts),
    ] {
        same_residues(score, ours, published, format_args!("constants, {what}"));
    }
    score.agreed += 1;
    (ours, device)
}

/// Words of the published Rust on both sides.
#[track_caller]
fn congruent(one: &[u64], other: &[u64], what: Arguments<'_>) {
    assert!(
        one.len() == other.len() && one.iter().zip(other).all(|(one, other)| one % P == other % P),
        "{what}: {one:x?} and {other:x?}"
    );
}

/// The blob passes our check on the frame's shape; our walk leaves what our evaluator of the program leaves; the published
/// walk leaves, modulo p, what ours and what the published evaluator leaves. Every leaf is inside the frame, of at most four
/// steps, and no leading root is extension.
#[track_caller]
pub fn walks(
    score: &mut Score,
    case: Case<'_>,
    blobs: (&BlobWords, &DeviceProgram),
    cells: &Cells,
    what: Arguments<'_>,
) {
    let (ours, device) = blobs;
    let walked = blobs::agree(score, ours, cells, 2, what);
    assert_eq!(walked.answer, Ok(()), "{what}: a lowered program passes");
    let lengths = Evals::prover(case.words).and_more(2);
    let evaluated = eval_program(score, case.words, cells, lengths, what);
    assert_eq!(evaluated.answer, Ok(()), "{what}: a program is evaluated");
    assert_eq!(
        (&walked.base_evals, &walked.ext_evals),
        (&evaluated.base_evals, &evaluated.ext_evals),
        "{what}: our walk and our evaluator, {:?}",
        case.words
    );
    let (base, ext) = (fresh_words(lengths.base_evals), fresh_words(lengths.ext_evals));
    let (walked_base, walked_ext) = DeviceFrame::new(cells).evals(device, &base, &ext);
    let (base, ext) = ProverFrame::new(cells).eval(case.program, &base, &ext);
    congruent(
        &walked_base,
        &base,
        format_args!("published walk and evaluator, base, {what}"),
    );
    congruent(
        &walked_ext,
        &ext,
        format_args!("published walk and evaluator, ext, {what}"),
    );
    congruent(
        &walked_base,
        &walked.base_evals,
        format_args!("both walks, base, {what}"),
    );
    congruent(&walked_ext, &walked.ext_evals, format_args!("both walks, ext, {what}"));
    score.words += 4 * (base.len() + ext.len()) as u64;
}
