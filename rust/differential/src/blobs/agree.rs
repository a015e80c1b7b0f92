//! A blob in both calls, against plain arithmetic and the published walk.

use std::fmt::Arguments;

use super::compare::{self, Walked};
use super::published::{DeviceFrame, device};
use super::{BlobWords, Lengths};
use crate::Score;
use crate::programs::Cells;
use crate::programs::compare::{fresh_words, same_residues};

/// Runs the check and the walk with `more` words than they need of all that is lent for writing; they have to answer the
/// same. Where that is 0, the published walk gets the same blob and frame, and its evals and final slots have to be
/// congruent. Counts the blob if so.
#[track_caller]
pub fn agree(score: &mut Score, words: &BlobWords, cells: &Cells, more: usize, what: Arguments<'_>) -> Walked {
    let lengths = Lengths::of(&words.counts).and_more(more);
    let checked = compare::check_blob(score, words, &cells.shape, lengths.bytes, what);
    let walked = compare::walk(score, words, cells, lengths, what);
    assert_eq!(checked, walked.answer, "{what}: check and walk, {words:?}");
    if walked.answer.is_err() {
        return walked;
    }
    let (device, frame) = (device(words), DeviceFrame::new(cells));
    let (base, ext) = frame.evals(
        &device,
        &fresh_words(lengths.base_evals),
        &fresh_words(lengths.ext_evals),
    );
    same_residues(
        score,
        &walked.base_evals,
        &base,
        format_args!("base_evals, {what}, {words:?}"),
    );
    same_residues(
        score,
        &walked.ext_evals,
        &ext,
        format_args!("ext_evals, {what}, {words:?}"),
    );
    let slots = &walked.slots[..words.counts.slot_words()];
    same_residues(
        score,
        slots,
        &frame.slots(&device),
        format_args!("slots, {what}, {words:?}"),
    );
    score.agreed += 1;
    walked
}
