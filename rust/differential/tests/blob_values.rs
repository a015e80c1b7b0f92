//! Legal blobs: the check and the walk against the published walk, the published evaluator and plain arithmetic: evals,
//! final slots, bytes and the words that must stay.

#![forbid(unsafe_code)]

use std::fmt::Arguments;

use differential::blobs::agree::agree;
use differential::blobs::{BlobWords, published as device};
use differential::inputs::Random;
use differential::programs::build::{Recipe, build};
use differential::programs::compare::{fresh_words, same_residues};
use differential::programs::published::{self, ProverFrame, Published, ROW_FRAME_STEPS};
use differential::programs::sample::stated_case;
use differential::programs::{Cells, PROVER, foreign, small_shape};
use differential::{P, Score};
use host::lent::program::{Counts, Shape};
use stark::constraint_ir::IrBuilder;
use stark::program_e;

/// So many where the build is optimised, else a few of them.
const fn many(blobs: usize) -> usize {
    if cfg!(debug_assertions) { blobs / 10 } else { blobs }
}

/// A frame of this shape, some with words to spare.
fn frame(random: &mut Random, shape: Shape) -> Cells {
    let mut cells = Cells::random(random, shape, PROVER);
    cells.lengthen(random);
    cells
}

/// Lowers a program with the published `lower` and walks the blob. Ours has to answer 0; the published evaluator of the
/// program gets the same frame, if it holds so many steps.
#[track_caller]
fn lowered(score: &mut Score, random: &mut Random, program: &Published, shape: Shape, what: Arguments<'_>) {
    let mut words = device::lower(program);
    words.lengthen(random);
    let cells = frame(random, shape);
    let walked = agree(score, &words, &cells, random.below(4), what);
    assert_eq!(walked.answer, Ok(()), "{what}: a lowered program passes");
    if shape.steps <= ROW_FRAME_STEPS {
        let (base, ext) = ProverFrame::new(&cells).eval(
            program,
            &fresh_words(walked.base_evals.len()),
            &fresh_words(walked.ext_evals.len()),
        );
        same_residues(
            score,
            &walked.base_evals,
            &base,
            format_args!("eval_program, base, {what}"),
        );
        same_residues(
            score,
            &walked.ext_evals,
            &ext,
            format_args!("eval_program, ext, {what}"),
        );
    }
}

/// A `num_base` that fits the program.
fn fit_num_base(random: &mut Random, program: &mut Published) {
    program.num_base = published::words(program).fitting_num_base(random);
}

/// Builds so many programs, lowers them and compares.
#[track_caller]
fn compare_lowered(test: &'static str, seed: u64, programs: usize, draw: impl Fn(&mut Random) -> (usize, Shape)) {
    let mut random = Random::new(seed);
    let mut score = Score::new(test);
    for i in 0..programs {
        let what = format_args!("program {i} of seed {seed:#x}");
        let (calls, shape) = draw(&mut random);
        let recipe = Recipe {
            calls,
            shape,
            row_only: random.once_in(4),
            constraints: random.pick(&[0, 1, 3, 8, 8, 8, 2 + calls / 4]),
        };
        let mut program = build(&mut random, &recipe);
        fit_num_base(&mut random, &mut program);
        lowered(&mut score, &mut random, &program, shape, what);
    }
    assert_eq!(score.agreed, programs as u64);
    score.finish(&[0]);
}

#[test]
fn lowered_programs() {
    compare_lowered("lowered programs", 0x6C6F_7731, many(60_000), |random| {
        (random.below(40), small_shape(random))
    });
}

#[test]
fn lowered_large_programs() {
    compare_lowered(
        "lowered programs of about a thousand nodes",
        0x6C6F_7732,
        many(300),
        |random| (1_000, small_shape(random)),
    );
}

#[test]
fn lowered_programs_on_long_frames() {
    compare_lowered(
        "lowered programs on long and wide frames",
        0x6C6F_7733,
        many(60),
        |random| {
            let (steps, main_width, aux_width) = random.pick(&[
                (256, 3, 2),
                (256, 100, 60),
                (1, 65_536, 3),
                (2, 5, 65_536),
                (7, 1, 1),
                (255, 0, 4),
            ]);
            let shape = Shape {
                steps,
                main_width,
                aux_width,
                challenges: random.pick(&[0, 3, 65_536]),
                alphas: random.pick(&[0, 3, 65_536]),
            };
            (60, shape)
        },
    );
}

/// Well-formed programs that no builder makes, lowered: equal nodes stand apart, and roots repeat.
#[test]
fn lowered_foreign_programs() {
    const SEED: u64 = 0x6C6F_7734;
    let programs = many(30_000);
    let mut random = Random::new(SEED);
    let mut score = Score::new("lowered programs of no builder");
    for i in 0..programs {
        let shape = small_shape(&mut random);
        let counts: Counts = foreign::small_counts(&mut random, 30);
        let words = foreign::well_formed(&mut random, counts, &shape, usize::MAX);
        let program = published::program(&words);
        lowered(
            &mut score,
            &mut random,
            &program,
            shape,
            format_args!("program {i} of seed {SEED:#x}"),
        );
    }
    assert_eq!(score.agreed, programs as u64);
    score.finish(&[0]);
}

/// E's blob has the nodes that the scope document lists, and gives the evals that it says.
#[test]
fn program_e_as_stated() {
    let words = device::lower(&program_e());
    let listed = BlobWords::of(
        &[
            [2, 0, 65_536, 0],
            [2, 0, 65_792, 1],
            [7, 1, 0, 0],
            [7, 0, 1_073_741_825, 0],
            [2, 2, 0, 2_147_483_648],
            [8, 536_870_912, 2_147_483_648, 2_147_483_648],
            [6, 536_870_912, 0, 2_147_483_648],
        ],
        &[0, 1],
        &[],
        &[0, 2_147_483_648],
        [1, 2, 1],
    );
    assert_eq!(words, listed);
    let mut score = Score::new("program E's blob");
    let cells = stated_case().prover;
    let walked = agree(&mut score, &words, &cells, 2, format_args!("E"));
    assert_eq!(walked.answer, Ok(()));
    let mut base = fresh_words(3);
    let mut ext = fresh_words(8);
    base[0] = 3;
    ext[3..6].copy_from_slice(&[61, 49, 28]);
    assert_eq!((walked.base_evals, walked.ext_evals), (base, ext));
    // Base slots: constraint 0's value, and cell 1 was read from the other. Extension slot: constraint 1's value.
    assert_eq!(walked.slots[..5], [3, 9, 61, 49, 28]);
    assert_eq!(walked.slots[5..], fresh_words(7)[5..]);
    score.finish(&[0]);
}

/// emit(2) alone: roots 0, 0 and the node; node 0 gets a slot.
#[test]
fn gaps_as_stated() {
    let mut builder: IrBuilder = IrBuilder::new();
    let cell = builder.main(0, 0);
    builder.emit(2, cell);
    let program = builder.finish(3);
    let words = device::lower(&program);
    assert_eq!((words.roots.clone(), words.counts.base_slots), (vec![0, 0, 1], 2));
    let shape = Shape {
        steps: 1,
        main_width: 1,
        ..Shape::default()
    };
    let mut score = Score::new("gaps");
    let cells = Cells {
        shape,
        main: vec![P + 7],
        ..Cells::default()
    };
    let walked = agree(&mut score, &words, &cells, 0, format_args!("emit(2) alone"));
    assert_eq!((walked.base_evals, walked.slots), (vec![0, 0, 7], vec![0, 7]));
    score.finish(&[0]);
}

/// The empty blob is legal, on every shape, whatever `num_base` and the slot counts are; slots never filled become 0.
#[test]
fn empty_blobs() {
    let mut random = Random::new(0x656D_7074);
    let mut score = Score::new("blobs without nodes");
    for shape in [Shape::default(), small_shape(&mut random)] {
        for num_base in [0, 1, u32::MAX] {
            for [base_slots, ext_slots] in [[0, 0], [3, 0], [0, 2], [300, 300]] {
                let words = BlobWords::of(&[], &[], &[], &[], [num_base, base_slots, ext_slots]);
                let cells = frame(&mut random, shape);
                let walked = agree(&mut score, &words, &cells, 1, format_args!("empty"));
                assert_eq!(walked.answer, Ok(()));
                let used = words.counts.slot_words();
                assert!(walked.slots[..used].iter().all(|word| *word == 0));
            }
        }
    }
    score.finish(&[0]);
}

/// Slots that no node fills, beside one that a node fills; and a `num_base` past the root count.
#[test]
fn slots_never_filled() {
    let mut score = Score::new("slots never filled");
    let mut random = Random::new(0x6E65_7665);
    let cells = frame(&mut random, Shape::default());
    for num_base in [0, 1, 2, 3, 4, u32::MAX] {
        // Base constant 0 into base slot 3 of 5, its embedding into extension slot 2 of 4.
        let words = BlobWords::of(
            &[[0, 0, 0, 3], [10, 3, 0, 2 | 1 << 31]],
            &[P + 5],
            &[],
            &[3, 3],
            [num_base, 5, 4],
        );
        let walked = agree(&mut score, &words, &cells, 3, format_args!("num_base {num_base}"));
        assert_eq!(walked.answer, Ok(()));
        let mut slots = [0; 17];
        (slots[3], slots[5 + 6]) = (5, 5);
        assert_eq!(walked.slots[..17], slots);
    }
    score.finish(&[0]);
}
