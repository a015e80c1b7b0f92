//! Well-formed programs: the check, the next-row reads and the three evaluators against the published Rust and against
//! plain arithmetic, values, rooms and the words that must stay.

#![forbid(unsafe_code)]

use std::collections::BTreeMap;
use std::fmt::Arguments;

use differential::inputs::Random;
use differential::programs::agree::{Case, agree};
use differential::programs::build::{Recipe, build};
use differential::programs::compare::{self, Answer, Asked, Lengths};
use differential::programs::published::{self, Published};
use differential::programs::sample::{Sampled, stated_case};
use differential::programs::{Cells, PROVER, VERIFIER, Words, foreign, small_shape};
use differential::{P, Score};
use host::Refusal;
use host::lent::program::{Counts, Shape};
use stark::constraint_ir::IrBuilder;

/// So many programs where the build is optimised, else a few of them.
const fn many(programs: usize) -> usize {
    if cfg!(debug_assertions) {
        programs / 10
    } else {
        programs
    }
}

/// Frames of this shape for the prover and for the verifier, some with words to spare.
fn frames(random: &mut Random, shape: Shape) -> (Cells, Cells) {
    let mut prover = Cells::random(random, shape, PROVER);
    let mut verifier = Cells::random(random, shape, VERIFIER);
    prover.lengthen(random);
    verifier.lengthen(random);
    (prover, verifier)
}

/// A built program with this `num_base`, in words with some to spare.
fn in_words(random: &mut Random, program: &mut Published, num_base: usize) -> Words {
    program.num_base = num_base;
    let mut words = published::words(program);
    words.lengthen(random);
    words
}

/// A built program with a `num_base` that no evaluator refuses, in words with some to spare.
fn in_words_that_fit(random: &mut Random, program: &mut Published) -> Words {
    let num_base = published::words(program).fitting_num_base(random);
    in_words(random, program, num_base)
}

/// A program on random frames of this shape, in all calls. Says whether the evaluators answered.
#[track_caller]
fn agree_on(
    score: &mut Score,
    random: &mut Random,
    (words, program): (&Words, &Published),
    shape: Shape,
    what: Arguments<'_>,
) -> bool {
    let (prover, verifier) = &frames(random, shape);
    let case = Case {
        words,
        program,
        prover,
        verifier,
    };
    agree(score, random, &case, what)
}

/// What the prover's and the verifier's evaluator answer.
#[track_caller]
fn answers(score: &mut Score, words: &Words, (prover, verifier): (&Cells, &Cells), what: Arguments<'_>) -> [Answer; 2] {
    [
        compare::eval_program(score, words, prover, Lengths::prover(words), what).answer,
        compare::eval_program_verifier(score, words, verifier, Lengths::verifier(words), what).answer,
    ]
}

/// Runs `body` for so many programs of one seed; it is told which one, for its messages.
fn each_program(
    test: &'static str,
    seed: u64,
    programs: usize,
    mut body: impl FnMut(&mut Score, &mut Random, Arguments<'_>),
) -> Score {
    let mut random = Random::new(seed);
    let mut score = Score::new(test);
    for i in 0..programs {
        body(&mut score, &mut random, format_args!("program {i} of seed {seed:#x}"));
    }
    score
}

/// Builds so many programs and compares each in all calls. `draw` says how many calls of the builder make one, and the
/// shape of a frame that its leaves are inside. Every evaluator has to answer.
#[track_caller]
fn compare_built(test: &'static str, seed: u64, programs: usize, draw: impl Fn(&mut Random) -> (usize, Shape)) {
    let score = each_program(test, seed, programs, |score, random, what| {
        let (calls, shape) = draw(random);
        let recipe = Recipe {
            calls,
            shape,
            row_only: random.once_in(3),
            constraints: random.pick(&[0, 1, 3, 8, 8, 8, 2 + calls / 4]),
        };
        let mut program = build(random, &recipe);
        let words = in_words_that_fit(random, &mut program);
        let before = score.times(0);
        let agreed = agree_on(score, random, (&words, &program), shape, what);
        assert!(agreed, "{what}: the evaluators answer");
        assert!(before + 4 <= score.times(0), "{what}: four calls answer");
    });
    assert_eq!(score.agreed, programs as u64);
    score.finish(&[0, 12, 13]);
}

#[test]
fn built_programs() {
    const TEST: &str = "built programs of up to 60 nodes";
    compare_built(TEST, 0x6275_696C, many(110_000), |random| {
        let calls = if random.once_in(2) {
            random.below(13)
        } else {
            random.below(61)
        };
        (calls, small_shape(random))
    });
}

/// What the random calls are meant to reach, each in more than one of a hundred programs.
#[test]
fn built_programs_have_everything() {
    const SEED: u64 = 0x6275_696C;
    const PROGRAMS: usize = 2_000;
    let mut random = Random::new(SEED);
    let mut found = BTreeMap::new();
    for _ in 0..PROGRAMS {
        let recipe = Recipe {
            calls: random.below(61),
            shape: small_shape(&mut random),
            row_only: random.once_in(3),
            constraints: 8,
        };
        for (name, holds) in features(&published::words(&build(&mut random, &recipe))) {
            *found.entry(name).or_insert(0) += usize::from(holds);
        }
    }
    for (name, programs) in found {
        println!("built programs with {name}: {programs} of {PROGRAMS}");
        assert!(PROGRAMS / 100 < programs, "{name}");
    }
}

/// What a program can have, each with whether this one has it.
fn features(words: &Words) -> Vec<(String, bool)> {
    let (ids, roots) = (0..words.counts.nodes, &words.roots);
    let read: Vec<usize> = ids.clone().flat_map(|id| operands(words, id)).collect();
    let times = |id: usize| read.iter().filter(|operand| **operand == id).count();
    let dims = |id: usize| -> Vec<u32> { operands(words, id).into_iter().map(|id| words.dim(id)).collect() };
    let is_root = |id: usize| roots.contains(&(id as u32));
    let some = |holds: &dyn Fn(usize) -> bool| ids.clone().any(holds);
    let one_of = |tag: u32, dim: u32| some(&|id| words.tag(id) == tag && dims(id) == [dim]);
    let same_twice = |id: usize| matches!(operands(words, id)[..], [x, y] if x == y);
    let repeats = (1..roots.len()).any(|c| roots[..c].contains(&roots[c]));
    let not_below_p = words.ext_consts.iter().any(|word| P <= *word);
    let named = [
        ("dead node", some(&|id| times(id) == 0 && !is_root(id))),
        ("shared operation", some(&|id| 6 <= words.tag(id) && 2 <= times(id))),
        ("both operands the same", some(&same_twice)),
        ("base with extension", some(&|id| dims(id) == [0, 1])),
        ("extension with base", some(&|id| dims(id) == [1, 0])),
        ("embed of an extension value", one_of(10, 1)),
        ("embed of a base value", one_of(10, 0)),
        ("neg of an extension value", one_of(9, 1)),
        ("root that is a leaf", some(&|id| is_root(id) && words.tag(id) <= 5)),
        ("root that is node 0", is_root(0)),
        ("no roots", roots.is_empty()),
        ("root that repeats", repeats),
        ("word of a constant not below p", not_below_p),
    ];
    let tags = (0..=10).map(|tag| (format!("tag {tag:>2}"), some(&|id| words.tag(id) == tag)));
    tags.chain(named.map(|(name, holds)| (name.to_string(), holds)))
        .collect()
}

/// The nodes that a node reads.
fn operands(words: &Words, id: usize) -> Vec<usize> {
    let [x, y] = [1, 2].map(|word| words.nodes[4 * id + word] as usize);
    match words.tag(id) {
        6..=8 => vec![x, y],
        9 | 10 => vec![x],
        _ => vec![],
    }
}

#[test]
fn built_programs_of_a_thousand_nodes() {
    const TEST: &str = "built programs of a thousand calls";
    compare_built(TEST, 0x7468_6F75, many(300), |random| {
        let shape = Shape {
            steps: 1 + random.below(4),
            main_width: 1 + random.below(300),
            aux_width: 1 + random.below(20),
            challenges: 1 + random.below(4),
            alphas: 1 + random.below(20),
        };
        (1_000, shape)
    });
}

/// Five to 256 steps. The published row frame is too small for the prover's evaluator there, so the published one is
/// given all steps side by side in one; the published verifier takes any number of steps as they are.
#[test]
fn long_frames() {
    const TEST: &str = "frames of up to 256 steps";
    compare_built(TEST, 0x6C6F_6E67, many(3_000), |random| {
        let shape = Shape {
            steps: random.pick(&[5, 6, 17, 128, 255, 256, 256]),
            ..small_shape(random)
        };
        (random.below(61), shape)
    });
}

/// As much of everything as a frame may have: columns, challenges and alpha powers far past a byte.
#[test]
fn wide_frames() {
    const TEST: &str = "frames of up to 65,536 columns";
    compare_built(TEST, 0x7769_6465, many(50).max(25), |random| {
        let mut much = || random.pick(&[257, 1_000, 65_536]);
        let shape = Shape {
            steps: 2,
            main_width: much(),
            aux_width: much(),
            challenges: much(),
            alphas: much(),
        };
        (60, shape)
    });
}

/// The last leaf of each kind that a program can name, each a constraint.
fn last_leaves_built() -> Published {
    let mut builder: IrBuilder = IrBuilder::new();
    let leaves = [
        builder.main(3, 65_535),
        builder.aux(3, 65_535),
        builder.challenge(65_535),
        builder.alpha_power(65_535),
    ];
    for (c, leaf) in leaves.into_iter().enumerate() {
        builder.emit(c, leaf);
    }
    builder.finish(1)
}

/// The last leaves in the largest frame, and in frames that lack one thing of it.
#[test]
fn last_leaves() {
    const SEED: u64 = 0x6C61_7374;
    let mut random = Random::new(SEED);
    let mut score = Score::new("the last leaf of each kind");
    let shape = Shape {
        steps: 4,
        main_width: 65_536,
        aux_width: 65_536,
        challenges: 65_536,
        alphas: 65_536,
    };
    let program = last_leaves_built();
    let words = published::words(&program);
    let (mut prover, mut verifier) = frames(&mut random, shape);
    let case = Case {
        words: &words,
        program: &program,
        prover: &prover,
        verifier: &verifier,
    };
    assert!(agree(&mut score, &mut random, &case, format_args!("seed {SEED:#x}")));

    // Without the last of a kind, its leaf, node 1 to 4, is outside; without the last step, the first of two cells is.
    type Take = fn(&mut Shape);
    let one_less: [(Take, u64); 5] = [
        (|shape| shape.steps -= 1, 1),
        (|shape| shape.main_width -= 1, 1),
        (|shape| shape.aux_width -= 1, 2),
        (|shape| shape.challenges -= 1, 3),
        (|shape| shape.alphas -= 1, 4),
    ];
    for (take, place) in one_less {
        let outside = Err(Refusal { number: 13, place });
        let what = format_args!("without the last leaf at node {place}");
        let mut less = shape;
        take(&mut less);
        (prover.shape, verifier.shape) = (less, less);
        let answers = answers(&mut score, &words, (&prover, &verifier), what);
        assert_eq!(answers, [outside; 2], "{what}");
    }
    score.finish(&[0, 13]);
}

/// Every `num_base` from 0 to past the root count: where all roots below it are base the evaluators agree, else the
/// prover's answers 12 at the first that is not, and the verifier's takes no notice.
#[test]
fn every_num_base() {
    let score = each_program("every num_base", 0x6E75_6D62, many(4_000), |score, random, what| {
        let shape = small_shape(random);
        let recipe = Recipe {
            calls: random.below(40),
            shape,
            row_only: random.once_in(2),
            constraints: random.pick(&[1, 2, 5, 9]),
        };
        let mut program = build(random, &recipe);
        let (prover, verifier) = &frames(random, shape);
        let leading = published::words(&program).leading_base_roots();
        let roots = program.roots.len();
        for num_base in (0..roots + 3).chain([255, 256, 4_294_967_295]) {
            let what = format_args!("num_base {num_base}, {what}");
            let words = &in_words(random, &mut program, num_base);
            if num_base <= leading || leading == roots {
                let case = Case {
                    words,
                    program: &program,
                    prover,
                    verifier,
                };
                assert!(agree(score, random, &case, what), "{what}");
                continue;
            }
            let refused = Err(Refusal {
                number: 12,
                place: leading as u64,
            });
            let answers = answers(score, words, (prover, verifier), what);
            assert_eq!(answers, [refused, Ok(())], "{what}");
        }
    });
    score.finish(&[0, 12, 13]);
}

/// One column, step, challenge or alpha power fewer than the program was built for: 13 where a leaf is outside now, dead
/// or not, and agreement where none is.
#[test]
fn leaves_outside_the_frame() {
    const TEST: &str = "frames that lack something";
    let score = each_program(TEST, 0x6F75_7473, many(8_000), |score, random, what| {
        let shape = Shape {
            steps: 1 + random.below(4),
            main_width: 1 + random.below(4),
            aux_width: 1 + random.below(4),
            challenges: 1 + random.below(3),
            alphas: 1 + random.below(3),
        };
        let recipe = Recipe {
            calls: random.below(30),
            shape,
            row_only: random.once_in(3),
            constraints: 6,
        };
        let mut program = build(random, &recipe);
        let words = in_words_that_fit(random, &mut program);
        let mut less = shape;
        match random.below(5) {
            0 => less.steps -= 1,
            1 => less.main_width -= 1,
            2 => less.aux_width -= 1,
            3 => less.challenges -= 1,
            _ => less.alphas -= 1,
        }
        agree_on(score, random, (&words, &program), less, what);
    });
    score.finish(&[0, 12, 13]);
}

/// Well-formed programs that no builder makes, on frames that mostly hold their leaves.
#[test]
fn foreign_programs() {
    const TEST: &str = "well-formed programs that no builder makes";
    let programs = many(40_000);
    let score = each_program(TEST, 0x666F_7265, programs, |score, random, what| {
        let shape = small_shape(random);
        let counts = foreign::small_counts(random, 40);
        let mut words = foreign::well_formed(random, counts, &shape, 200);
        let program = published::program(&words);
        words.lengthen(random);
        agree_on(score, random, (&words, &program), shape, what);
    });
    assert!(programs as u64 / 2 < score.agreed, "most of them are answered");
    score.finish(&[0, 12, 13]);
}

/// As many nodes as each room of the trial holds, and one more; then the same with a last node that is not as it has to be,
/// which is found when all others have been evaluated: no lent word changes.
#[test]
fn rooms_of_the_trial() {
    const SEED: u64 = 0x726F_6F6D;
    let mut random = Random::new(SEED);
    let mut score = Score::new("programs that fill a room of the trial");
    for nodes in [127, 128, 129, 1_023, 1_024, 1_025, 8_191, 8_192, 8_193] {
        for i in 0..3 {
            let what = format_args!("{nodes} nodes, program {i} of seed {SEED:#x}");
            let shape = small_shape(&mut random);
            let counts = Counts {
                nodes,
                base_consts: 5,
                ext_consts: 4,
                roots: 9,
                num_base: 0,
            };
            let mut words = foreign::well_formed(&mut random, counts, &shape, 1_000_000_000);
            let program = published::program(&words);
            let (prover, verifier) = frames(&mut random, shape);
            let case = Case {
                words: &words,
                program: &program,
                prover: &prover,
                verifier: &verifier,
            };
            agree(&mut score, &mut random, &case, what);
            words.nodes[4 * nodes - 1] = 2;
            let lengths = Lengths::prover(&words);
            let answer = compare::eval_program(&mut score, &words, &prover, lengths, what).answer;
            let place = nodes as u64 - 1;
            assert_eq!(answer, Err(Refusal { number: 7, place }), "{what}");
        }
    }
    score.finish(&[0, 7, 13]);
}

/// More of everything than 16 bits count: nodes, constants and roots.
#[test]
fn long_programs() {
    const TEST: &str = "programs of more than 65,536 nodes";
    const SHAPE: Shape = Shape {
        steps: 2,
        main_width: 3,
        aux_width: 2,
        challenges: 2,
        alphas: 2,
    };
    let score = each_program(TEST, 0x3136_6269, 3, |score, random, what| {
        let mut much = || 70_000 + random.below(5_000);
        let counts = Counts {
            nodes: much(),
            base_consts: much(),
            ext_consts: much(),
            roots: much(),
            num_base: 0,
        };
        let words = foreign::well_formed(random, counts, &SHAPE, 1_000_000_000);
        let program = published::program(&words);
        assert!(agree_on(score, random, (&words, &program), SHAPE, what), "{what}");
    });
    score.finish(&[0, 13]);
}

/// Words of a published program and back are the same program.
#[test]
fn words_and_back() {
    const SEED: u64 = 0x6261_636B;
    let mut random = Random::new(SEED);
    for i in 0..many(5_000) {
        let shape = small_shape(&mut random);
        let counts = foreign::small_counts(&mut random, 30);
        let mut words = foreign::well_formed(&mut random, counts, &shape, 10);
        words.counts.num_base = random.below(10);
        let back = published::words(&published::program(&words));
        assert_eq!(words, back, "program {i} of seed {SEED:#x}");
    }
}

/// Program E of the scope document with the values that it states, so that no error common to all sides passes for
/// agreement.
#[test]
fn stated_program() {
    let Sampled { words, prover, .. } = stated_case();
    let mut score = Score::new("the stated program");
    let lengths = Lengths::prover(&words);
    let evaluated = compare::eval_program(&mut score, &words, &prover, lengths, format_args!("program E"));
    assert_eq!(evaluated.answer, Ok(()));
    assert_eq!(evaluated.base_evals, [3]);
    assert_eq!(evaluated.ext_evals[..3], compare::fresh_words(3));
    assert_eq!(evaluated.ext_evals[3..], [61, 49, 28]);
    #[rustfmt::skip]
    assert_eq!(evaluated.room, [
        0, 0, 0, 0,
        0, 5, 0, 0,
        0, 9, 0, 0,
        0, 4, 0, 0,
        0, 1, 0, 0,
        0, 3, 0, 0,
        1, 1, 2, 3,
        1, 4, 5, 6,
        1, 58, 49, 28,
        1, 61, 49, 28,
    ]);
    let reads = compare::next_row_trace_reads(&mut score, &words, 1, 1, format_args!("program E"));
    assert_eq!((reads.answer, reads.count, reads.out), (Ok(()), 1, vec![0]));
    score.finish(&[0]);
}

/// A frame of one main cell.
fn one_cell(words: &[u64]) -> Cells {
    Cells {
        shape: Shape {
            steps: 1,
            main_width: 1,
            ..Shape::default()
        },
        main: words.to_vec(),
        ..Cells::default()
    }
}

/// emit(2) alone: the two constraints before it are node 0.
#[test]
fn stated_gap() {
    let mut builder: IrBuilder = IrBuilder::new();
    let cell = builder.main(0, 0);
    builder.emit(2, cell);
    let words = published::words(&builder.finish(3));
    assert_eq!(words.roots, [0, 0, 1]);
    let cells = one_cell(&[P + 7]);
    let mut score = Score::new("the stated gap");
    let lengths = Lengths::prover(&words);
    let evaluated = compare::eval_program(&mut score, &words, &cells, lengths, format_args!("emit(2) alone"));
    assert_eq!((evaluated.answer, evaluated.base_evals), (Ok(()), vec![0, 0, 7]));
    for (constraint, value) in [0, 0, 7].into_iter().enumerate() {
        let asked = Asked {
            width: 1,
            constraint,
            row: &cells.main,
        };
        let evaluated = compare::eval_program_base(&mut score, &words, asked, lengths.room, format_args!("emit(2)"));
        assert_eq!((evaluated.answer, evaluated.value), (Ok(()), value));
    }
    score.finish(&[0]);
}

/// A verifier's main cell is an extension value, and so is all that reads it; a constant stays base. The classes are
/// those of the values, not the nodes' dims.
#[test]
fn verifier_classes() {
    let mut builder: IrBuilder = IrBuilder::new();
    let cell = builder.main(0, 0);
    let constant = builder.const_base(2);
    let both = builder.add(constant, constant);
    let mixed = builder.mul(cell, constant);
    let negative = builder.neg(mixed);
    let embedded = builder.embed(both);
    builder.emit(0, negative);
    builder.emit(1, both);
    builder.emit(2, embedded);
    let words = published::words(&builder.finish(2));
    let cells = one_cell(&[1, P, 3]);
    let mut score = Score::new("the verifier's classes");
    let lengths = Lengths::verifier(&words);
    let evaluated = compare::eval_program_verifier(&mut score, &words, &cells, lengths, format_args!("classes"));
    assert_eq!(evaluated.answer, Ok(()));
    assert_eq!(evaluated.ext_evals, [P - 2, 0, P - 6, 4, 0, 0, 4, 0, 0]);
    #[rustfmt::skip]
    assert_eq!(evaluated.room, [
        0, 0, 0, 0,
        1, 1, 0, 3,
        0, 2, 0, 0,
        0, 4, 0, 0,
        1, 2, 0, 6,
        1, P - 2, 0, P - 6,
        1, 4, 0, 0,
    ]);
    score.finish(&[0]);
}
