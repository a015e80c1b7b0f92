//! Cases of programs: the check, the reads of later rows, the evaluators, and lowering.

use std::fmt::Arguments;

use host::lent::program::{Counts, Shape};

use crate::Score;
use crate::inputs::Random;
use crate::lowering::{self, Lengths as Rooms};
use crate::programs::agree::{Case, agree};
use crate::programs::build::{Recipe, build};
use crate::programs::lease::{Call, ORDERS, any};
use crate::programs::published::{self, Published};
use crate::programs::{Cells, PROVER, VERIFIER, Words, foreign as foreign_words, small_shape};

/// How many calls of the builder make a program: mostly a few, at times many.
fn calls(random: &mut Random) -> usize {
    match random.below(400) {
        0 => 1_000,
        1..200 => random.below(13),
        _ => random.below(61),
    }
}

/// A program of the published builder whose leaves are inside this shape, with a `num_base` that no evaluator refuses.
pub(super) fn build_one(random: &mut Random, shape: Shape) -> Published {
    let calls = calls(random);
    let recipe = Recipe {
        calls,
        shape,
        row_only: random.once_in(3),
        constraints: random.pick(&[0, 1, 3, 8, 8, 8, 2 + calls / 4]),
    };
    let mut program = build(random, &recipe);
    program.num_base = published::words(&program).fitting_num_base(random);
    program
}

/// A well-formed program that no builder makes. About one leaf in `outside` is outside the shape.
fn foreign_one(random: &mut Random, shape: &Shape, outside: usize) -> Words {
    let counts = if random.once_in(400) {
        Counts {
            nodes: random.pick(&[127, 128, 129, 1_023, 1_024, 1_025]),
            base_consts: 5,
            ext_consts: 4,
            roots: 9,
            num_base: 0,
        }
    } else {
        foreign_words::small_counts(random, 40)
    };
    foreign_words::well_formed(random, counts, shape, outside)
}

/// A program in all five calls, on frames of its shape.
#[track_caller]
fn agree_on(
    score: &mut Score,
    random: &mut Random,
    (mut words, program): (Words, &Published),
    shape: Shape,
    what: Arguments<'_>,
) {
    words.lengthen(random);
    let words = &words.exact();
    let mut frame = |main_words: usize| {
        let mut cells = Cells::random(random, shape, main_words);
        cells.lengthen(random);
        cells.exact()
    };
    let [prover, verifier] = &[frame(PROVER), frame(VERIFIER)];
    let case = Case {
        words,
        program,
        prover,
        verifier,
    };
    agree(score, random, &case, what);
}

pub(super) fn built(score: &mut Score, random: &mut Random, what: Arguments<'_>) {
    let shape = small_shape(random);
    let program = build_one(random, shape);
    agree_on(score, random, (published::words(&program), &program), shape, what);
}

pub(super) fn foreign(score: &mut Score, random: &mut Random, what: Arguments<'_>) {
    let shape = small_shape(random);
    let words = foreign_one(random, &shape, 200);
    let program = published::program(&words);
    agree_on(score, random, (words, &program), shape, what);
}

/// A call on a program with a word, or with counts, shape or lengths changed.
pub(super) fn changed(score: &mut Score, random: &mut Random, what: Arguments<'_>) {
    let (call, _) = random.pick(&ORDERS);
    let mut lease = any(random, call);
    if random.once_in(2) {
        lease.change_word(random);
    } else {
        lease.change_some(random, call);
    }
    lease.words = lease.words.exact();
    lease.cells = lease.cells.exact();
    _ = lease.run(score, call, what);
}

/// A well-formed program is lowered, and every other one whose leaves are inside its frame is walked and evaluated.
pub(super) fn lowering(score: &mut Score, random: &mut Random, what: Arguments<'_>) {
    let shape = small_shape(random);
    let walked = random.once_in(2);
    let program = if random.once_in(2) {
        build_one(random, shape)
    } else {
        published::program(&foreign_one(random, &shape, if walked { usize::MAX } else { 3 }))
    };
    let mut words = published::words(&program);
    words.lengthen(random);
    let words = &words.exact();
    let case = lowering::agree::Case {
        words,
        program: &program,
    };
    let (ours, device) = lowering::agree::agree(score, case, random.below(4), what);
    if walked {
        let cells = Cells::random(random, shape, PROVER).exact();
        lowering::agree::walks(score, case, (&ours.exact(), &device), &cells, what);
    }
}

/// A program with a word, or with counts or lengths changed, is lowered; where it is answered, the published `lower` has to
/// say the same.
pub(super) fn changed_lowering(score: &mut Score, random: &mut Random, what: Arguments<'_>) {
    let mut lease = any(random, Call::Check);
    let n = lease.words.counts.nodes;
    let counts = &lease.words.counts;
    // There is room for every node, which the changed program may need.
    let mut lengths = Rooms {
        used: n,
        last_use: n,
        is_root: n,
        slot_of: n,
        free_slots: 2 * n,
        nodes: 4 * n,
        base_consts: counts.base_consts,
        ext_consts: 3 * counts.ext_consts,
        roots: counts.roots,
    };
    match random.below(3) {
        0 => lease.change_word(random),
        1 => lease.change_some(random, Call::Check),
        _ => {
            let length = random.pick(&[0, 1, 2, 3, 4, 5, 6, 7, 8]);
            let length = lengths.each_mut().into_iter().nth(length).expect("there are nine");
            *length = random.pick(&[0, *length / 2, length.saturating_sub(1)]);
        }
    }
    let words = &lease.words.exact();
    if lowering::compare::lower(score, words, lengths, what).answer.is_ok() {
        let program = &published::program(words);
        lowering::agree::agree(score, lowering::agree::Case { words, program }, 0, what);
    }
}
