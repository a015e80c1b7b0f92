//! Where the evaluators refuse a well-formed program, the published ones panic, and the other way round: both answer the
//! same inputs. The one exception is a prover's frame of more than four steps.
//!
//! In a file of its own, since panics are made silent here for the whole process.

#![forbid(unsafe_code)]

use differential::Score;
use differential::inputs::Random;
use differential::programs::build::{Recipe, build};
use differential::programs::compare::{self, Asked, Lengths};
use differential::programs::published::{self, ProverFrame, VerifierFrame};
use differential::programs::{Cells, PROVER, VERIFIER};
use differential::quiet::unless_it_panics;
use host::lent::program::Shape;
use stark::constraint_ir::IrBuilder;

fn panics(body: impl FnOnce()) -> bool {
    unless_it_panics(body).is_none()
}

#[test]
fn published_rust_panics_where_the_host_refuses() {
    const SEED: u64 = 0x7061_6E69;
    let programs = if cfg!(debug_assertions) { 500 } else { 10_000 };
    let mut random = Random::new(SEED);
    let mut score = Score::new("where the published Rust panics");
    let mut differing = Vec::new();
    for i in 0..programs {
        let shape = |random: &mut Random| Shape {
            steps: random.below(5),
            main_width: random.below(4),
            aux_width: random.below(4),
            challenges: random.below(3),
            alphas: random.below(3),
        };
        // Built for one shape and evaluated on another.
        let recipe = Recipe {
            calls: random.below(12),
            shape: shape(&mut random),
            row_only: random.once_in(3),
            constraints: 4,
        };
        let mut program = build(&mut random, &recipe);
        program.num_base = random.below(6);
        let words = published::words(&program);
        let shape = shape(&mut random);
        let what = format_args!("program {i} of seed {SEED:#x}");

        let cells = Cells::random(&mut random, shape, PROVER);
        let lengths = Lengths::prover(&words);
        let refused = compare::eval_program(&mut score, &words, &cells, lengths, what)
            .answer
            .is_err();
        let (base, ext) = (vec![0; lengths.base_evals], vec![0; lengths.ext_evals]);
        let panicked = panics(|| drop(ProverFrame::new(&cells).eval(&program, &base, &ext)));
        if refused != panicked {
            differing.push(format!("prover, {what}"));
        }

        let row = random.words(shape.main_width);
        for constraint in 0..words.counts.roots {
            let asked = Asked {
                width: row.len(),
                constraint,
                row: &row,
            };
            let evaluated = compare::eval_program_base(&mut score, &words, asked, lengths.room, what);
            let panicked = panics(|| _ = published::eval_base(&program, constraint, &row));
            if evaluated.answer.is_err() != panicked {
                differing.push(format!("base, constraint {constraint}, {what}"));
            }
        }

        let cells = Cells::random(&mut random, shape, VERIFIER);
        let lengths = Lengths::verifier(&words);
        let evaluated = compare::eval_program_verifier(&mut score, &words, &cells, lengths, what);
        let ext = vec![0; lengths.ext_evals];
        let panicked = panics(|| drop(VerifierFrame::new(&cells).eval(&program, &ext)));
        if evaluated.answer.is_err() != panicked {
            differing.push(format!("verifier, {what}"));
        }
    }

    // The exception: the least program that shows it.
    let mut builder: IrBuilder = IrBuilder::new();
    let cell = builder.main(4, 0);
    builder.emit(0, cell);
    let program = builder.finish(1);
    let words = published::words(&program);
    let shape = Shape {
        steps: 5,
        main_width: 1,
        ..Shape::default()
    };
    let cells = Cells::random(&mut random, shape, PROVER);
    let lengths = Lengths::prover(&words);
    let answer = compare::eval_program(&mut score, &words, &cells, lengths, format_args!("five steps")).answer;
    let panicked = panics(|| drop(ProverFrame::new(&cells).eval(&program, &[0], &[])));
    println!("where the published Rust panics: {programs} programs");
    assert_eq!(differing, Vec::<String>::new());
    assert_eq!((answer, panicked), (Ok(()), true), "five steps");
    score.finish(&[0, 12, 13]);
}
