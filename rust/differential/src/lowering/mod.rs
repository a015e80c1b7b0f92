//! Programs that are lowered: all that the call is lent, and what the tests do with it.

pub mod agree;
pub mod compare;
pub mod every;
pub mod sample;

use std::fmt::Arguments;

use crate::Score;
use crate::blobs::BlobWords;
use crate::programs::Words;
use crate::programs::compare::Answer;

/// How many words lowering is lent for writing.
#[derive(Clone, Copy, Debug, Default, PartialEq, Eq)]
pub struct Lengths {
    pub used: usize,
    pub last_use: usize,
    pub is_root: usize,
    pub slot_of: usize,
    pub free_slots: usize,
    pub nodes: usize,
    pub base_consts: usize,
    pub ext_consts: usize,
    pub roots: usize,
}

impl Lengths {
    /// What a program needs whose blob is this one.
    pub fn of(words: &Words, blob: &BlobWords) -> Self {
        let n = words.counts.nodes;
        Lengths {
            used: n,
            last_use: n,
            is_root: n,
            slot_of: n,
            free_slots: 2 * n,
            nodes: blob.nodes.len(),
            base_consts: blob.base_consts.len(),
            ext_consts: blob.ext_consts.len(),
            roots: blob.roots.len(),
        }
    }

    /// All of them, in the order of [`NEEDS`] from the first list on.
    pub fn each_mut(&mut self) -> [&mut usize; 9] {
        [
            &mut self.used,
            &mut self.last_use,
            &mut self.is_root,
            &mut self.slot_of,
            &mut self.free_slots,
            &mut self.nodes,
            &mut self.base_consts,
            &mut self.ext_consts,
            &mut self.roots,
        ]
    }

    /// A few more of each, not as many of one as of the next.
    pub fn and_more(mut self, more: usize) -> Self {
        for (at, length) in self.each_mut().into_iter().enumerate() {
            *length += (more + at) % 4;
        }
        self
    }
}

/// A program and how much is lent to lower it.
#[derive(Clone, Debug)]
pub struct Lease {
    pub words: Words,
    pub lengths: Lengths,
}

/// What is lent, in the order of its lengths: the program, the lists, and what is written.
pub const NEEDS: [&str; 13] = [
    "nodes",
    "base_consts",
    "ext_consts",
    "roots",
    "used",
    "last_use",
    "is_root",
    "slot_of",
    "free_slots",
    "the blob's nodes",
    "the blob's base_consts",
    "the blob's ext_consts",
    "the blob's roots",
];

/// How many of them are the program, and how many are that or lists.
pub const OF_PROGRAM: usize = 4;
pub const OF_INPUT: usize = 9;

impl Lease {
    /// The tables as they are, and what is written exactly as long as it has to be for this blob.
    pub fn new(words: Words, blob: &BlobWords) -> Self {
        Lease {
            lengths: Lengths::of(&words, blob),
            words,
        }
    }

    pub fn len(&mut self, need: usize) -> usize {
        let Lease { words, lengths } = self;
        match need {
            0 => words.nodes.len(),
            1 => words.base_consts.len(),
            2 => words.ext_consts.len(),
            3 => words.roots.len(),
            _ => *lengths.each_mut()[need - OF_PROGRAM],
        }
    }

    pub fn cut(&mut self, need: usize, len: usize) {
        let Lease { words, lengths } = self;
        match need {
            0 => words.nodes.truncate(len),
            1 => words.base_consts.truncate(len),
            2 => words.ext_consts.truncate(len),
            3 => words.roots.truncate(len),
            _ => *lengths.each_mut()[need - OF_PROGRAM] = len,
        }
    }

    /// The same with one word less of something.
    pub fn short_by_one(&self, need: usize) -> Self {
        let mut short = self.clone();
        let len = short.len(need);
        short.cut(need, len - 1);
        short
    }

    /// What the call answers, compared with the plain reading.
    #[track_caller]
    pub fn run(&self, score: &mut Score, what: Arguments<'_>) -> Answer {
        compare::lower(score, &self.words, self.lengths, what).answer
    }
}
