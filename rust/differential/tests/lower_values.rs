//! Well-formed programs, lowered: nodes, roots, constants and slot counts against the published `lower` and the plain
//! reading, the lists and every word that must stay; and that what the blob's walk gives is what the program's evaluation
//! gives, on both sides.

#![forbid(unsafe_code)]

use std::fmt::Arguments;

use differential::blobs::BlobWords;
use differential::inputs::Random;
use differential::lowering::agree::{Case, agree, walks};
use differential::lowering::{Lengths, compare, every};
use differential::programs::build::{Recipe, build};
use differential::programs::published::{self, Published};
use differential::programs::{Cells, PROVER, Words, foreign, small_shape};
use differential::{P, Score};
use host::lent::program::{Counts, Shape};
use stark::constraint_ir::IrBuilder;
use stark::program_e;

/// So many where the build is optimised, else a few of them.
const fn many(programs: usize) -> usize {
    if cfg!(debug_assertions) {
        programs / 20
    } else {
        programs
    }
}

/// A frame of this shape, some with words to spare.
fn frame(random: &mut Random, shape: Shape) -> Cells {
    let mut cells = Cells::random(random, shape, PROVER);
    cells.lengthen(random);
    cells
}

/// Lowers a program and compares; if a shape is given, walks its blob over a frame of that shape too.
#[track_caller]
fn lowered(score: &mut Score, random: &mut Random, program: &Published, shape: Option<Shape>, what: Arguments<'_>) {
    let mut words = published::words(program);
    words.lengthen(random);
    let case = Case { words: &words, program };
    let (ours, device) = agree(score, case, random.below(4), what);
    if let Some(shape) = shape {
        let cells = frame(random, shape);
        walks(score, case, (&ours, &device), &cells, what);
    }
}

/// One in three programs is walked besides.
fn walked(i: usize, shape: Shape) -> Option<Shape> {
    [true, false, false][i % 3].then_some(shape)
}

/// A `num_base` that no evaluator refuses where the program is walked, and any that is not refused where it is not.
fn num_base(random: &mut Random, words: &Words, walked: bool) -> usize {
    if walked {
        words.fitting_num_base(random)
    } else {
        random.pick(&[0, 1, 2, 3, 4_294_967_295])
    }
}

/// Builds so many programs by random calls of the published builder, lowers them and compares.
#[track_caller]
fn compare_built(test: &'static str, seed: u64, programs: usize, draw: impl Fn(&mut Random) -> usize) {
    let mut random = Random::new(seed);
    let mut score = Score::new(test);
    for i in 0..programs {
        let what = format_args!("program {i} of seed {seed:#x}");
        let (calls, shape) = (draw(&mut random), small_shape(&mut random));
        let recipe = Recipe {
            calls,
            shape,
            row_only: random.once_in(6),
            constraints: random.pick(&[0, 1, 3, 8, 8, 8, 2 + calls / 4]),
        };
        let mut program = build(&mut random, &recipe);
        let walked = walked(i, shape);
        program.num_base = num_base(&mut random, &published::words(&program), walked.is_some());
        lowered(&mut score, &mut random, &program, walked, what);
    }
    finish(score, test, programs);
}

/// Says how many of so many programs were walked: both count as agreed.
#[track_caller]
fn finish(score: Score, test: &str, programs: usize) {
    let walked = programs.div_ceil(3);
    println!("{test}: {programs} lowered, {walked} of them walked and evaluated");
    assert_eq!(score.agreed, (programs + walked) as u64);
    score.finish(&[0]);
}

#[test]
fn built_programs() {
    compare_built("lowering of built programs", 0x6C6F_7765, many(120_000), |random| {
        random.below(40)
    });
}

#[test]
fn built_large_programs() {
    compare_built(
        "lowering of built programs of about a thousand nodes",
        0x6C6F_7766,
        many(600),
        |_| 1_000,
    );
}

/// Well-formed programs that no builder makes: equal nodes stand apart, roots repeat, constants are unused, equal or at or
/// above p.
#[test]
fn foreign_programs() {
    const SEED: u64 = 0x6C6F_7767;
    let programs = many(90_000);
    let mut random = Random::new(SEED);
    let test = "lowering of programs of no builder";
    let mut score = Score::new(test);
    for i in 0..programs {
        let shape = small_shape(&mut random);
        let counts: Counts = foreign::small_counts(&mut random, 30);
        let mut words = foreign::well_formed(&mut random, counts, &shape, usize::MAX);
        let walked = walked(i, shape);
        words.counts.num_base = num_base(&mut random, &words, walked.is_some());
        let program = published::program(&words);
        let what = format_args!("program {i} of seed {SEED:#x}");
        lowered(&mut score, &mut random, &program, walked, what);
    }
    finish(score, test, programs);
}

/// Leaves outside every frame: lowering has no shape, so columns, challenges and alpha powers up to 65,535 are lowered.
#[test]
fn leaves_of_any_index() {
    const SEED: u64 = 0x6C6F_7768;
    let programs = many(20_000);
    let mut random = Random::new(SEED);
    let mut score = Score::new("lowering of leaves of any index");
    for i in 0..programs {
        let shape = small_shape(&mut random);
        let counts: Counts = foreign::small_counts(&mut random, 20);
        let words = foreign::well_formed(&mut random, counts, &shape, 2);
        let program = published::program(&words);
        let what = format_args!("program {i} of seed {SEED:#x}");
        lowered(&mut score, &mut random, &program, None, what);
    }
    score.finish(&[0]);
}

/// Every program that up to five calls of the builder make, over the alphabet of `every::built`.
#[test]
fn every_built_program() {
    let calls = if cfg!(debug_assertions) { 3 } else { 5 };
    let mut score = Score::new("lowering of every built program of up to five calls");
    every::built(calls, &mut |program| {
        let words = published::words(&program);
        let case = Case {
            words: &words,
            program: &program,
        };
        agree(&mut score, case, 0, format_args!("every built program"));
    });
    if !cfg!(debug_assertions) {
        assert_eq!(score.agreed, 1_214_570);
    }
    score.finish(&[0]);
}

/// Every well-formed program of so many nodes with up to so many roots, over the alphabet of `every::foreign`.
#[track_caller]
fn compare_every_foreign(test: &'static str, sizes: &[(usize, usize)], programs: u64) {
    let mut score = Score::new(test);
    for (nodes, roots) in sizes {
        every::foreign(*nodes, *roots, &mut |words| {
            let case = Case {
                words,
                program: &published::program(words),
            };
            agree(&mut score, case, 0, format_args!("every program"));
        });
    }
    assert_eq!(score.agreed, programs);
    score.finish(&[0]);
}

#[test]
fn every_foreign_program() {
    compare_every_foreign(
        "lowering of every program of up to four nodes with up to two roots",
        &[(0, 0), (1, 2), (2, 2), (3, 2), (4, 2)],
        138_641,
    );
}

#[test]
#[ignore = "some seconds more"]
fn every_foreign_program_of_five_nodes() {
    compare_every_foreign(
        "lowering of every program of five nodes with up to two roots",
        &[(5, 2)],
        5_541_312,
    );
}

/// The host's blob of a program that the published Rust makes, which it has to agree with.
#[track_caller]
fn blob_of(score: &mut Score, program: &Published) -> BlobWords {
    let words = published::words(program);
    let case = Case { words: &words, program };
    agree(score, case, 3, format_args!("as stated")).0
}

/// E's blob has the nodes that the scope document lists.
#[test]
fn program_e_as_stated() {
    let mut score = Score::new("lowering of program E");
    let listed = BlobWords::of(
        &[
            [2, 0, 65_536, 0],
            [2, 0, 65_792, 1],
            [7, 1, 0, 0],
            [7, 0, 1_073_741_825, 0],
            [2, 2, 0, 2_147_483_648],
            [8, 536_870_912, 2_147_483_648, 2_147_483_648],
            [6, 536_870_912, 0, 2_147_483_648],
        ],
        &[0, 1],
        &[],
        &[0, 2_147_483_648],
        [1, 2, 1],
    );
    assert_eq!(blob_of(&mut score, &program_e()), listed);
    score.finish(&[0]);
}

/// emit(2) alone: roots 0, 0 and the node; node 0 gets a slot.
#[test]
fn gaps_as_stated() {
    let mut score = Score::new("lowering of gaps");
    let mut builder: IrBuilder = IrBuilder::new();
    let cell = builder.main(0, 0);
    builder.emit(2, cell);
    let blob = blob_of(&mut score, &builder.finish(3));
    let expected = BlobWords::of(&[[0, 0, 0, 0], [2, 0, 65_536, 1]], &[0], &[], &[0, 0, 1], [3, 2, 0]);
    assert_eq!(blob, expected);
    score.finish(&[0]);
}

/// The four errors that the scope document says look right, each on the smallest program that shows it.
#[test]
fn errors_that_look_right() {
    let mut score = Score::new("errors that look right");
    let mut lower = |nodes: &[[u32; 4]], roots: &[u32], [base_slots, ext_slots]: [u32; 2], expected: &[[u32; 4]]| {
        let words = Words {
            counts: Counts {
                nodes: nodes.len(),
                base_consts: 1,
                roots: roots.len(),
                ..Counts::default()
            },
            nodes: nodes.concat(),
            base_consts: vec![P + 1],
            ext_consts: vec![],
            roots: roots.to_vec(),
        };
        let case = Case {
            words: &words,
            program: &published::program(&words),
        };
        let blob = agree(&mut score, case, 1, format_args!("{nodes:?}")).0;
        assert_eq!(blob.nodes, expected.concat());
        assert_eq!((blob.counts.base_slots, blob.counts.ext_slots), (base_slots, ext_slots));
        assert_eq!(blob.base_consts, [1]);
        blob.roots
    };
    let (cell, uniform) = ([2, 0, 1 << 16, 0], [5, 0, 0, 1]);
    // A cell whose only reader is dead is emitted; the reader is not, and the slot is never used again.
    let roots = lower(
        &[cell, [9, 0, 0, 0], [2, 1, 1 << 16, 0]],
        &[2],
        [2, 0],
        &[[2, 0, 1 << 16, 0], [2, 1, 1 << 16, 1]],
    );
    assert_eq!(roots, [1]);
    // The result takes the slot of the operand that is freed at it, the last freed one first.
    let roots = lower(
        &[cell, [2, 1, 1 << 16, 0], [6, 0, 1, 0]],
        &[2],
        [2, 0],
        &[[2, 0, 1 << 16, 0], [2, 1, 1 << 16, 1], [6, 0, 1, 1]],
    );
    assert_eq!(roots, [1]);
    // The same operand twice is freed once: the next node takes a new slot.
    let roots = lower(
        &[cell, [8, 0, 0, 0], [2, 1, 1 << 16, 0]],
        &[1, 2],
        [2, 0],
        &[[2, 0, 1 << 16, 0], [8, 0, 0, 0], [2, 1, 1 << 16, 1]],
    );
    assert_eq!(roots, [0, 1]);
    // A uniform leaf that is a root has a slot, and operands name that.
    let roots = lower(
        &[uniform, [9, 0, 0, 1]],
        &[0, 1],
        [0, 2],
        &[[5, 0, 0, 1 << 31], [9, 1 << 29, 0, 1 << 31 | 1]],
    );
    assert_eq!(roots, [1 << 31, 1 << 31 | 1]);
    // A column is 16 bits.
    let roots = lower(&[[2, 256, 0, 1]], &[0], [0, 1], &[[2, 256, 0, 1 << 31]]);
    assert_eq!(roots, [1 << 31]);
    score.finish(&[0]);
}

/// No nodes and no roots: nothing is needed but room for constants, and nothing else is touched.
#[test]
fn empty_programs() {
    let mut random = Random::new(0x6C6F_7769);
    let mut score = Score::new("lowering of programs without nodes");
    for num_base in [0, 1, 4_294_967_295] {
        for more in 0..4 {
            for [base_consts, ext_consts] in [[0, 0], [1, 0], [0, 1], [4, 3]] {
                let counts = Counts {
                    base_consts,
                    ext_consts,
                    num_base,
                    ..Counts::default()
                };
                let mut words = foreign::well_formed(&mut random, counts, &Shape::default(), 2);
                words.counts.num_base = num_base;
                let lengths = Lengths {
                    base_consts,
                    ext_consts: 3 * ext_consts,
                    ..Lengths::default()
                };
                let lengths = if more == 0 { lengths } else { lengths.and_more(more) };
                let lowered = compare::lower(&mut score, &words, lengths, format_args!("empty"));
                assert_eq!(lowered.answer, Ok(()));
                let program = published::program(&words);
                agree(
                    &mut score,
                    Case {
                        words: &words,
                        program: &program,
                    },
                    more,
                    format_args!("empty"),
                );
            }
        }
    }
    score.finish(&[0]);
}
