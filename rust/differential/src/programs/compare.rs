//! One call on both sides: the host and plain arithmetic are lent equal memory, and answers and all of that memory have
//! to be equal afterwards.
//!
//! What is lent for writing stands between guards and is filled with words that are all different and all at or above p,
//! so that a word that was moved, cleared or only reduced shows. What is lent for reading is compared with what it was.

use std::fmt::{Arguments, Debug};
use std::hint::black_box;

use host::Refusal;
use host::lent::program as host_calls;

use super::{Cells, Words};
use crate::plain::program as plain_calls;
use crate::{P, Score};

pub type Answer = Result<(), Refusal>;

/// Words kept on either side of what is lent for writing.
pub(crate) const GUARD: usize = if cfg!(feature = "exact") { 0 } else { 4 };

/// Memory lent for writing, once for each side.
pub(crate) struct Lent<T> {
    host: Vec<T>,
    plain: Vec<T>,
    len: usize,
}

impl Lent<u64> {
    pub(crate) fn words(len: usize) -> Self {
        Self::filled(len, |at| u64::MAX - at as u64)
    }
}

impl<T: Copy + PartialEq + Debug> Lent<T> {
    pub(crate) fn filled(len: usize, fill: impl Fn(usize) -> T) -> Self {
        let words: Vec<T> = (0..len + 2 * GUARD).map(fill).collect();
        Lent {
            host: words.clone(),
            plain: words,
            len,
        }
    }

    pub(crate) fn host(&mut self) -> &mut [T] {
        &mut self.host[GUARD..GUARD + self.len]
    }

    pub(crate) fn plain(&mut self) -> &mut [T] {
        &mut self.plain[GUARD..GUARD + self.len]
    }

    /// Compares all words, guards included.
    #[track_caller]
    pub(crate) fn compare(&self, name: &str, score: &mut Score, what: Arguments<'_>) {
        if let Some(at) = (0..self.host.len()).find(|at| self.host[*at] != self.plain[*at]) {
            panic!(
                "{what}: word {} of {name} (of {} lent): ours is {:?}, plain is {:?}",
                at as isize - GUARD as isize,
                self.len,
                self.host[at],
                self.plain[at]
            );
        }
        score.words += self.host.len() as u64;
    }

    /// Compares likewise, and gives the words that were lent.
    #[track_caller]
    pub(crate) fn compared(mut self, name: &str, score: &mut Score, what: Arguments<'_>) -> Vec<T> {
        self.compare(name, score, what);
        self.host.drain(..GUARD);
        self.host.truncate(self.len);
        self.host
    }
}

/// What words the fresh memory of a call holds, to say what a call left as it was.
pub fn fresh_words(len: usize) -> Vec<u64> {
    Lent::words(len).host().to_vec()
}

#[track_caller]
pub(crate) fn same_answer(score: &mut Score, ours: &Answer, plain: &Answer, what: Arguments<'_>) {
    assert_eq!(ours, plain, "{what}: the answers, ours and plain");
    score.answered(ours);
}

/// Keeps a copy of what is lent for reading and holds it to the copy afterwards.
pub(crate) struct Kept<'a, T: PartialEq + Debug> {
    lent: &'a T,
    before: T,
}

impl<'a, T: Clone + PartialEq + Debug> Kept<'a, T> {
    pub(crate) fn new(lent: &'a T) -> Self {
        Kept {
            lent,
            before: lent.clone(),
        }
    }

    #[track_caller]
    pub(crate) fn compare(self, what: Arguments<'_>) {
        assert!(
            *black_box(self.lent) == self.before,
            "{what}: what was lent for reading has changed"
        );
    }
}

#[track_caller]
pub fn check_program(score: &mut Score, words: &Words, what: Arguments<'_>) -> Answer {
    let what = format_args!("check_program, {what}, {words:?}");
    let kept = Kept::new(words);
    let answer = host_calls::check_program(&words.lend());
    kept.compare(what);
    let plain = plain_calls::check_program(&words.lend());
    same_answer(score, &answer, &plain, what);
    answer
}

/// The answer, the words lent for columns, and the number of columns.
pub struct Reads {
    pub answer: Answer,
    pub out: Vec<u32>,
    pub count: u64,
}

/// Lends `room` words for the columns.
#[track_caller]
pub fn next_row_trace_reads(
    score: &mut Score,
    words: &Words,
    main_width: usize,
    room: usize,
    what: Arguments<'_>,
) -> Reads {
    let what = format_args!("next_row_trace_reads, main_width {main_width}, {what}, {words:?}");
    let kept = Kept::new(words);
    let mut out = Lent::filled(room, |at| u32::MAX - at as u32);
    let mut count = Lent::words(1);
    let answer = host_calls::next_row_trace_reads_into(&words.lend(), main_width, out.host(), &mut count.host()[0]);
    kept.compare(what);
    let plain = plain_calls::next_row_trace_reads(&words.lend(), main_width, out.plain(), &mut count.plain()[0]);
    same_answer(score, &answer, &plain, what);
    Reads {
        answer,
        out: out.compared("out", score, what),
        count: count.compared("count", score, what)[0],
    }
}

/// How many words an evaluator is lent.
#[derive(Clone, Copy, Debug, PartialEq, Eq)]
pub struct Lengths {
    pub base_evals: usize,
    pub ext_evals: usize,
    pub room: usize,
}

impl Lengths {
    /// What the prover's evaluator needs.
    pub fn prover(words: &Words) -> Self {
        let counts = &words.counts;
        Lengths {
            base_evals: counts.num_base.min(counts.roots),
            ext_evals: if counts.num_base < counts.roots {
                3 * counts.roots
            } else {
                0
            },
            room: 4 * counts.nodes,
        }
    }

    /// What the verifier's evaluator needs.
    pub fn verifier(words: &Words) -> Self {
        Lengths {
            base_evals: 0,
            ext_evals: 3 * words.counts.roots,
            room: 4 * words.counts.nodes,
        }
    }

    /// A few words more of each.
    pub fn and_more(self, more: usize) -> Self {
        Lengths {
            base_evals: self.base_evals + more,
            ext_evals: self.ext_evals + more,
            room: self.room + more,
        }
    }
}

/// An answer, and the lent words after the call.
pub struct Evaluated {
    pub answer: Answer,
    pub base_evals: Vec<u64>,
    pub ext_evals: Vec<u64>,
    pub room: Vec<u64>,
}

#[track_caller]
pub fn eval_program(
    score: &mut Score,
    words: &Words,
    cells: &Cells,
    lengths: Lengths,
    what: Arguments<'_>,
) -> Evaluated {
    let what = format_args!("eval_program, {what}, {words:?}");
    let (program, frame) = (Kept::new(words), Kept::new(cells));
    let mut base_evals = Lent::words(lengths.base_evals);
    let mut ext_evals = Lent::words(lengths.ext_evals);
    let mut room = Lent::words(lengths.room);
    let answer = host_calls::eval_program(
        &words.lend(),
        &cells.lend(),
        base_evals.host(),
        ext_evals.host(),
        room.host(),
    );
    program.compare(what);
    frame.compare(what);
    let plain = plain_calls::eval_program(
        &words.lend(),
        &cells.lend(),
        base_evals.plain(),
        ext_evals.plain(),
        room.plain(),
    );
    same_answer(score, &answer, &plain, what);
    let evaluated = Evaluated {
        answer,
        base_evals: base_evals.compared("base_evals", score, what),
        ext_evals: ext_evals.compared("ext_evals", score, what),
        room: room.compared("room", score, what),
    };
    if answer.is_ok() {
        let counts = &words.counts;
        let bases = counts.num_base.min(counts.roots);
        below_p(&evaluated.base_evals[..bases], what);
        if bases < counts.roots {
            below_p(&evaluated.ext_evals[3 * bases..3 * counts.roots], what);
        }
        below_p(&evaluated.room[..4 * counts.nodes], what);
    }
    evaluated
}

#[track_caller]
pub fn eval_program_verifier(
    score: &mut Score,
    words: &Words,
    cells: &Cells,
    lengths: Lengths,
    what: Arguments<'_>,
) -> Evaluated {
    let what = format_args!("eval_program_verifier, {what}, {words:?}");
    let (program, frame) = (Kept::new(words), Kept::new(cells));
    let mut ext_evals = Lent::words(lengths.ext_evals);
    let mut room = Lent::words(lengths.room);
    let answer = host_calls::eval_program_verifier(&words.lend(), &cells.lend(), ext_evals.host(), room.host());
    program.compare(what);
    frame.compare(what);
    let plain = plain_calls::eval_program_verifier(&words.lend(), &cells.lend(), ext_evals.plain(), room.plain());
    same_answer(score, &answer, &plain, what);
    let evaluated = Evaluated {
        answer,
        base_evals: Vec::new(),
        ext_evals: ext_evals.compared("ext_evals", score, what),
        room: room.compared("room", score, what),
    };
    if answer.is_ok() {
        below_p(&evaluated.ext_evals[..3 * words.counts.roots], what);
        below_p(&evaluated.room[..4 * words.counts.nodes], what);
    }
    evaluated
}

/// A row, its width, and the constraint that is asked for.
#[derive(Clone, Copy)]
pub struct Asked<'a> {
    pub width: usize,
    pub constraint: usize,
    pub row: &'a Vec<u64>,
}

/// The answer, the value's word, and the lent room.
pub struct EvaluatedBase {
    pub answer: Answer,
    pub value: u64,
    pub room: Vec<u64>,
}

/// Lends `room` words for values.
#[track_caller]
pub fn eval_program_base(
    score: &mut Score,
    words: &Words,
    asked: Asked<'_>,
    room: usize,
    what: Arguments<'_>,
) -> EvaluatedBase {
    let Asked { width, constraint, row } = asked;
    let what = format_args!("eval_program_base, constraint {constraint}, width {width}, {what}, {words:?}");
    let (program, kept_row) = (Kept::new(words), Kept::new(row));
    let mut room = Lent::words(room);
    let mut value = Lent::words(1);
    let answer =
        host_calls::eval_program_base_into(&words.lend(), width, constraint, row, room.host(), &mut value.host()[0]);
    program.compare(what);
    kept_row.compare(what);
    let plain = plain_calls::eval_program_base(
        &words.lend(),
        width,
        constraint,
        row,
        room.plain(),
        &mut value.plain()[0],
    );
    same_answer(score, &answer, &plain, what);
    let evaluated = EvaluatedBase {
        answer,
        value: value.compared("value", score, what)[0],
        room: room.compared("room", score, what),
    };
    if answer.is_ok() {
        below_p(&[evaluated.value], what);
        below_p(&evaluated.room[..4 * words.counts.nodes], what);
    }
    evaluated
}

#[track_caller]
pub(crate) fn below_p(words: &[u64], what: Arguments<'_>) {
    assert!(words.iter().all(|word| *word < P), "{what}: a word is not below p");
}

/// Holds what an evaluator left to the published words: a word is congruent and ours is below p, or both left it as it
/// was.
#[track_caller]
pub fn same_residues(score: &mut Score, ours: &[u64], published: &[u64], what: Arguments<'_>) {
    assert_eq!(ours.len(), published.len(), "{what}: lengths");
    for (at, (ours, published)) in ours.iter().zip(published).enumerate() {
        assert!(
            ours == published || (*ours < P && ours % P == published % P),
            "{what}: word {at}: ours is {ours:#x}, published is {published:#x}"
        );
    }
    score.words += ours.len() as u64;
}

/// Holds the limbs in a value room to the published values of all nodes.
#[track_caller]
pub fn same_values(score: &mut Score, room: &[u64], published: &[u64], what: Arguments<'_>) {
    let nodes = published.len() / 3;
    let limbs: Vec<u64> = room
        .chunks_exact(4)
        .take(nodes)
        .flat_map(|words| &words[1..])
        .copied()
        .collect();
    same_residues(score, &limbs, published, what);
}
