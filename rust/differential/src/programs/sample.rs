//! A fixed sample of small programs with frames and the answers that they have to get, as lines of numbers: for the
//! Rattle program `program_cases`, which reads them from its file `stdin`. [`crate::lines`] says what a line is.
//!
//! The numbers of a line, in this order:
//!
//! 1. how many numbers follow on the line;
//! 2. the counts n, B, X, R and num_base;
//! 3. the shape: steps, main width, aux width, challenges, alphas;
//! 4. the table offset: three words;
//! 5. the program: 4n words of nodes, B base constants, 3X words of extension constants, R roots;
//! 6. the prover's frame: steps times main width cells, three times steps times aux width words, 3 words for each
//!    challenge, 3 for each alpha power;
//! 7. the verifier's main cells: three times steps times main width words; all else is as for the prover;
//! 8. the program check: its answer;
//! 9. the next-row reads with the main width of the shape: the answer and, if it is 0, the number of columns and the
//!    columns;
//! 10. the prover's evaluator: the answer and, if it is 0, the base evals (as many as the smaller of num_base and R) and
//!     three words for each constraint from num_base on;
//! 11. the verifier's evaluator: the answer and, if it is 0, 3R words;
//! 12. the base evaluator on the first step's main cells, once for each constraint: the answer and, if it is 0, the
//!     value. Without steps there are no cells, and the width is 0.
//!
//! All memory is lent exactly as long as it has to be, and enough for
//! every answer, so no answer is 1, 10 or 14.

use host::lent::program::{Counts, Shape};
use stark::constraint_ir::{Expr, IrBuilder};
use stark::program_e;

use super::compare::Lengths;
use super::published::{self, ext_element};
use super::{Cells, PROVER, VERIFIER, Words, foreign};
use crate::inputs::Random;
use crate::lines::Line;
use crate::plain::program as plain;
use crate::{Limbs, P};

/// The same sample in every run.
const SEED: u64 = 0x7361_6D70;

/// A program with frames for the prover and for the verifier that differ in their main cells only.
pub struct Sampled {
    pub words: Words,
    pub prover: Cells,
    pub verifier: Cells,
}

impl Sampled {
    /// The width of the row that the base evaluator gets.
    pub fn row_width(&self) -> usize {
        if self.prover.shape.steps == 0 {
            0
        } else {
            self.prover.shape.main_width
        }
    }
}

/// A builder's program.
pub fn built(num_base: usize, body: impl FnOnce(&mut IrBuilder)) -> Words {
    let mut builder = IrBuilder::new();
    body(&mut builder);
    published::words(&builder.finish(num_base))
}

/// A builder's program with one constraint.
fn one(num_base: usize, body: impl FnOnce(&mut IrBuilder) -> Expr) -> Words {
    built(num_base, |b| {
        let root = body(b);
        b.emit(0, root);
    })
}

/// A program as it stands in words.
pub fn raw(nodes: &[[u32; 4]], base_consts: &[u64], ext_consts: &[Limbs], roots: &[u32], num_base: usize) -> Words {
    Words {
        counts: Counts {
            nodes: nodes.len(),
            base_consts: base_consts.len(),
            ext_consts: ext_consts.len(),
            roots: roots.len(),
            num_base,
        },
        nodes: nodes.concat(),
        base_consts: base_consts.to_vec(),
        ext_consts: ext_consts.concat(),
        roots: roots.to_vec(),
    }
}

/// Programs that are each there for something.
fn chosen() -> Vec<Words> {
    vec![
        raw(&[], &[], &[], &[], 0),
        // Constants that nobody reads, and more base constraints than there are.
        raw(&[], &[P], &[[1, 2, 3]], &[], 9),
        // emit(2) alone: two gaps.
        built(3, |b| {
            let cell = b.main(0, 1);
            b.emit(2, cell);
        }),
        // Each leaf as a constraint.
        one(1, |b| b.const_base(u64::MAX)),
        one(0, |b| b.const_ext(ext_element([P, u64::MAX, 5]))),
        one(7, |b| b.main(1, 2)),
        one(0, |b| b.aux(1, 2)),
        one(0, |b| b.challenge(1)),
        one(0, |b| b.alpha_power(1)),
        one(0, |b| b.table_offset()),
        // Base operations, with the base constraint written as base and as extension value.
        built(3, |b| {
            let (x, y) = (b.main(0, 0), b.main(0, 1));
            let (sum, difference, product) = (b.add(x, y), b.sub(x, y), b.mul(x, y));
            for (c, root) in [sum, difference, product, sum, difference, product]
                .into_iter()
                .enumerate()
            {
                b.emit(c, root);
            }
        }),
        // Extension operations.
        built(0, |b| {
            let (x, y) = (b.aux(0, 0), b.aux(1, 1));
            let (sum, difference, product) = (b.add(x, y), b.sub(x, y), b.mul(x, y));
            for (c, root) in [sum, difference, product].into_iter().enumerate() {
                b.emit(c, root);
            }
        }),
        // Mixed operations, either way round.
        built(0, |b| {
            let (x, y) = (b.main(0, 0), b.challenge(0));
            let all = [
                b.add(x, y),
                b.add(y, x),
                b.sub(x, y),
                b.sub(y, x),
                b.mul(x, y),
                b.mul(y, x),
            ];
            for (c, root) in all.into_iter().enumerate() {
                b.emit(c, root);
            }
        }),
        // Neg of zero, of a base and of an extension value; Embed of a base and of an extension value.
        built(2, |b| {
            let (zero, cell, offset) = (b.const_base(0), b.main(0, 0), b.table_offset());
            let embedded = b.embed(cell);
            let all = [
                b.neg(zero),
                b.neg(cell),
                b.neg(offset),
                embedded,
                b.embed(embedded),
                b.embed(offset),
            ];
            for (c, root) in all.into_iter().enumerate() {
                b.emit(c, root);
            }
        }),
        // What the verifier sees of it: classes by value. Constants stay base.
        built(1, |b| {
            let (cell, two) = (b.main(0, 0), b.const_base(2));
            let (four, mixed) = (b.add(two, two), b.mul(cell, two));
            let negative = b.neg(mixed);
            b.emit(0, negative);
            b.emit(1, four);
        }),
        // Equal nodes apart, unused constants, roots that repeat, words of constants at or above p.
        raw(
            &[
                [0, 1, 0, 0],
                [0, 1, 0, 0],
                [1, 1, 0, 1],
                [8, 0, 1, 0],
                [8, 0, 1, 0],
                [7, 3, 2, 1],
                [9, 5, 0, 1],
            ],
            &[3, u64::MAX, P],
            &[[1, 1, 1], [P, P + 1, P - 1]],
            &[4, 3, 6, 6, 2],
            2,
        ),
        // A leaf outside the frame, by each measure; the last two are dead.
        one(1, |b| b.main(2, 0)),
        one(1, |b| b.main(0, 3)),
        one(0, |b| b.aux(2, 0)),
        one(0, |b| b.aux(0, 65_535)),
        built(1, |b| {
            b.challenge(2);
            let cell = b.main(0, 0);
            b.emit(0, cell);
        }),
        built(1, |b| {
            let cell = b.main(0, 0);
            b.emit(0, cell);
            b.alpha_power(2);
            b.challenge(65_535);
        }),
        // An extension root below num_base: the second one, then the first of two.
        built(2, |b| {
            let (cell, aux) = (b.main(0, 0), b.aux(0, 0));
            b.emit(0, cell);
            b.emit(1, aux);
        }),
        built(4_294_967_295, |b| {
            let (cell, aux) = (b.main(0, 0), b.aux(0, 0));
            for (c, root) in [cell, cell, aux, cell, aux].into_iter().enumerate() {
                b.emit(c, root);
            }
        }),
        // Not well-formed: a tag, a dim, a spare bit, a row, an unused word, an operand, a constant, a root.
        raw(&[[0, 0, 0, 0], [11, 0, 0, 0]], &[0], &[], &[0], 0),
        raw(&[[0, 0, 0, 0], [6, 0, 0, 1]], &[0], &[], &[1], 0),
        raw(&[[2, 65_536, 0x1_0000, 0]], &[], &[], &[0], 0),
        raw(&[[2, 0, 0x1_0001, 0]], &[], &[], &[0], 0),
        raw(&[[0, 0, 0, 0], [0, 0, 0, 0], [9, 1, 1, 0]], &[0], &[], &[0], 0),
        raw(&[[0, 0, 0, 0], [6, 1, 0, 0]], &[0], &[], &[1], 0),
        raw(&[[1, 1, 0, 1]], &[0], &[[1, 2, 3]], &[0], 0),
        raw(&[[0, 0, 0, 0], [5, 0, 0, 1]], &[0], &[], &[1, 0, 2, 9], 0),
    ]
}

/// Program E on the frame that the scope document gives it.
pub fn stated_case() -> Sampled {
    let prover = Cells {
        shape: Shape {
            steps: 2,
            main_width: 1,
            aux_width: 3,
            challenges: 1,
            alphas: 0,
        },
        main: vec![5, 9],
        aux: vec![0, 0, 0, 0, 0, 0, 1, 2, 3, 0, 0, 0, 0, 0, 0, 0, 0, 0],
        challenges: vec![4, 5, 6],
        ..Cells::default()
    };
    let verifier = Cells {
        main: vec![5, 0, 0, 9, 0, 0],
        ..prover.clone()
    };
    Sampled {
        words: published::words(&program_e()),
        prover,
        verifier,
    }
}

/// A random program with a constraint and about so many nodes.
fn random_program(random: &mut Random, nodes: usize, shape: &Shape) -> Words {
    loop {
        let counts = foreign::small_counts(random, nodes);
        let words = foreign::well_formed(random, counts, shape, 1_000);
        if nodes / 2 < words.counts.nodes && words.counts.roots != 0 {
            return words;
        }
    }
}

/// Program E, the chosen programs on one shape, and random ones on several.
pub fn cases() -> Vec<Sampled> {
    let mut random = Random::new(SEED);
    let usual = Shape {
        steps: 2,
        main_width: 3,
        aux_width: 3,
        challenges: 2,
        alphas: 2,
    };
    let mut programs: Vec<(Words, Shape)> = chosen().into_iter().map(|words| (words, usual)).collect();
    for i in 0..10 {
        let shape = Shape {
            steps: random.pick(&[1, 2, 3]),
            main_width: 1 + random.below(3),
            aux_width: random.below(3),
            challenges: random.below(3),
            alphas: random.below(3),
        };
        programs.push((random_program(&mut random, 6 + i, &shape), shape));
    }
    let with_frames = |(words, shape): (Words, Shape)| {
        let prover = Cells::random(&mut random, shape, PROVER);
        let verifier = Cells {
            main: random.words(VERIFIER * shape.steps * shape.main_width),
            ..prover.clone()
        };
        Sampled {
            words,
            prover,
            verifier,
        }
    };
    let mut cases = vec![stated_case()];
    cases.extend(programs.into_iter().map(with_frames));
    cases
}

/// A case as its line, with the answers of plain arithmetic.
fn line(case: &Sampled) -> String {
    let Sampled {
        words,
        prover,
        verifier,
    } = case;
    let counts = &words.counts;
    let mut line = Line::default();
    line.counts(&[
        counts.nodes,
        counts.base_consts,
        counts.ext_consts,
        counts.roots,
        counts.num_base,
    ]);
    line.shape(&prover.shape);
    line.words(&prover.table_offset);
    line.short_words(&words.nodes);
    line.words(&words.base_consts);
    line.words(&words.ext_consts);
    line.short_words(&words.roots);
    for table in [
        &prover.main,
        &prover.aux,
        &prover.challenges,
        &prover.alphas,
        &verifier.main,
    ] {
        line.words(table);
    }
    answers(&mut line, case);
    line.finish()
}

/// The answers of the five calls, in the line's order, each with its values.
fn answers(line: &mut Line, case: &Sampled) {
    let (program, counts) = (case.words.lend(), &case.words.counts);
    line.answer(plain::check_program(&program));

    let (mut out, mut count) = (vec![0; counts.nodes], 0);
    let width = case.prover.shape.main_width;
    if line.answer(plain::next_row_trace_reads(&program, width, &mut out, &mut count)) {
        line.words(&[count]);
        line.short_words(&out[..count as usize]);
    }

    let lengths = Lengths::prover(&case.words);
    let (mut base, mut ext) = (vec![0; lengths.base_evals], vec![0; lengths.ext_evals]);
    let mut room = vec![0; lengths.room];
    let frame = case.prover.lend();
    if line.answer(plain::eval_program(&program, &frame, &mut base, &mut ext, &mut room)) {
        line.evals(counts.num_base, counts.roots, &base, &ext);
    }

    let mut ext = vec![0; 3 * counts.roots];
    let frame = case.verifier.lend();
    if line.answer(plain::eval_program_verifier(&program, &frame, &mut ext, &mut room)) {
        line.words(&ext);
    }

    let width = case.row_width();
    let row = &case.prover.main[..width];
    for constraint in 0..counts.roots {
        let mut value = 0;
        if line.answer(plain::eval_program_base(
            &program, width, constraint, row, &mut room, &mut value,
        )) {
            line.words(&[value]);
        }
    }
}

/// The sample.
pub fn lines() -> Vec<String> {
    cases().iter().map(line).collect()
}
