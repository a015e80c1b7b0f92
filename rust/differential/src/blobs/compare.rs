//! One call on both sides, as for programs: equal memory between guards, equal answers, equal memory afterwards.

use std::fmt::Arguments;

use host::lent::blob::{self as host_calls, Written};
use host::lent::program::Shape;

use super::{BlobWords, Lengths};
use crate::Score;
use crate::plain::blob as plain_calls;
use crate::programs::Cells;
use crate::programs::compare::{Answer, Kept, Lent, below_p, same_answer};

/// What a fresh byte holds: never 0.
fn fresh_byte(at: usize) -> u8 {
    255 - (at % 255) as u8
}

/// Whether a call has looked at the nodes, and so has cleared its bytes: after 0, 11 and 12.
fn cleared(answer: &Answer) -> bool {
    !matches!(answer, Err(refusal) if [2, 1, 14].contains(&refusal.number))
}

/// Holds bytes to the rule: 0 where they were used, and otherwise as they were.
#[track_caller]
fn bytes_are_right(words: &BlobWords, answer: &Answer, bytes: &[u8], what: Arguments<'_>) {
    let used = if cleared(answer) { words.counts.bytes() } else { 0 };
    let fresh = Lent::filled(bytes.len(), fresh_byte).host().to_vec();
    assert!(bytes[..used].iter().all(|byte| *byte == 0), "{what}: a byte is not 0");
    assert_eq!(bytes[used..], fresh[used..], "{what}: bytes that stay");
}

/// Lends so many bytes.
#[track_caller]
pub fn check_blob(score: &mut Score, words: &BlobWords, shape: &Shape, bytes: usize, what: Arguments<'_>) -> Answer {
    let what = format_args!("check_blob, {shape:?}, {what}, {words:?}");
    let kept = Kept::new(words);
    let mut bytes = Lent::filled(bytes, fresh_byte);
    let answer = host_calls::check_blob(&words.lend(), shape, bytes.host());
    kept.compare(what);
    let plain = plain_calls::check_blob(&words.lend(), shape, bytes.plain());
    same_answer(score, &answer, &plain, what);
    let bytes = bytes.compared("bytes", score, what);
    bytes_are_right(words, &answer, &bytes, what);
    answer
}

/// An answer, and the lent words after the call.
pub struct Walked {
    pub answer: Answer,
    pub base_evals: Vec<u64>,
    pub ext_evals: Vec<u64>,
    pub slots: Vec<u64>,
}

#[track_caller]
pub fn walk(score: &mut Score, words: &BlobWords, cells: &Cells, lengths: Lengths, what: Arguments<'_>) -> Walked {
    let what = format_args!("walk, {:?}, {what}, {words:?}", cells.shape);
    let (blob, frame) = (Kept::new(words), Kept::new(cells));
    let mut base_evals = Lent::words(lengths.base_evals);
    let mut ext_evals = Lent::words(lengths.ext_evals);
    let mut bytes = Lent::filled(lengths.bytes, fresh_byte);
    let mut slots = Lent::words(lengths.slots);
    let answer = host_calls::walk(
        &words.lend(),
        &cells.lend(),
        Written {
            base_evals: base_evals.host(),
            ext_evals: ext_evals.host(),
            bytes: bytes.host(),
            slots: slots.host(),
        },
    );
    blob.compare(what);
    frame.compare(what);
    let plain = plain_calls::walk(
        &words.lend(),
        &cells.lend(),
        Written {
            base_evals: base_evals.plain(),
            ext_evals: ext_evals.plain(),
            bytes: bytes.plain(),
            slots: slots.plain(),
        },
    );
    same_answer(score, &answer, &plain, what);
    let bytes = bytes.compared("bytes", score, what);
    bytes_are_right(words, &answer, &bytes, what);
    let walked = Walked {
        answer,
        base_evals: base_evals.compared("base_evals", score, what),
        ext_evals: ext_evals.compared("ext_evals", score, what),
        slots: slots.compared("slots", score, what),
    };
    let counts = &words.counts;
    if answer.is_ok() {
        let bases = counts.num_base.min(counts.roots) as usize;
        let roots = counts.roots as usize;
        below_p(&walked.base_evals[..bases], what);
        if bases < roots {
            below_p(&walked.ext_evals[3 * bases..3 * roots], what);
        }
        below_p(&walked.slots[..counts.slot_words()], what);
    } else {
        assert_eq!(
            walked.slots,
            Lent::words(lengths.slots).host(),
            "{what}: slots that stay"
        );
    }
    walked
}
