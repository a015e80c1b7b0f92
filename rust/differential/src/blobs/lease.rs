//! All that the two calls on a blob are lent, and each length of it.

use std::fmt::Arguments;

use super::{BlobWords, Lengths, compare};
use crate::Score;
use crate::programs::Cells;
use crate::programs::compare::Answer;

#[derive(Clone, Debug)]
pub struct Lease {
    pub words: BlobWords,
    pub cells: Cells,
    pub lengths: Lengths,
}

/// What is lent, in the order of its lengths. What the check is lent stands first, then what the walk needs besides, then
/// the evals.
pub const NEEDS: [&str; 12] = [
    "nodes",
    "roots",
    "bytes",
    "base_consts",
    "ext_consts",
    "main",
    "aux",
    "challenges",
    "alphas",
    "slots",
    "base_evals",
    "ext_evals",
];
pub const OF_CHECK: usize = 3;
pub const OF_WALK: usize = 10;

impl Lease {
    /// The tables as they are, and what is written exactly as long as it has to be.
    pub fn new(words: BlobWords, cells: Cells) -> Self {
        Lease {
            lengths: Lengths::of(&words.counts),
            words,
            cells,
        }
    }

    pub fn len(&self, need: usize) -> usize {
        let Lease { words, cells, lengths } = self;
        [
            words.nodes.len(),
            words.roots.len(),
            lengths.bytes,
            words.base_consts.len(),
            words.ext_consts.len(),
            cells.main.len(),
            cells.aux.len(),
            cells.challenges.len(),
            cells.alphas.len(),
            lengths.slots,
            lengths.base_evals,
            lengths.ext_evals,
        ][need]
    }

    pub fn cut(&mut self, need: usize, len: usize) {
        let Lease { words, cells, lengths } = self;
        match need {
            0 => words.nodes.truncate(len),
            1 => words.roots.truncate(len),
            2 => lengths.bytes = len,
            3 => words.base_consts.truncate(len),
            4 => words.ext_consts.truncate(len),
            5 => cells.main.truncate(len),
            6 => cells.aux.truncate(len),
            7 => cells.challenges.truncate(len),
            8 => cells.alphas.truncate(len),
            9 => lengths.slots = len,
            10 => lengths.base_evals = len,
            _ => lengths.ext_evals = len,
        }
    }

    /// The same with one word less of something.
    pub fn short_by_one(&self, need: usize) -> Self {
        let mut short = self.clone();
        short.cut(need, self.len(need) - 1);
        short
    }

    /// What the check and the walk answer, each compared with plain arithmetic.
    #[track_caller]
    pub fn run(&self, score: &mut Score, what: Arguments<'_>) -> [Answer; 2] {
        let Lease { words, cells, lengths } = self;
        [
            compare::check_blob(score, words, &cells.shape, lengths.bytes, what),
            compare::walk(score, words, cells, *lengths, what).answer,
        ]
    }
}
