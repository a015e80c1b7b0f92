//! Where the published `lower` panics and where it answers, against what ours refuses. It answers more than ours: this file
//! has the smallest program of each kind, and says how the debug assertions change that.
//!
//! In a file of its own, since panics are made silent here for the whole process.

#![forbid(unsafe_code)]

use differential::Score;
use differential::blobs::BlobWords;
use differential::blobs::published::lower;
use differential::inputs::Random;
use differential::lowering::{Lengths, compare};
use differential::programs::build::{Recipe, build};
use differential::programs::compare::Answer;
use differential::programs::published::{Published, words};
use differential::quiet::unless_it_panics;
use host::Refusal;
use host::lent::program::Shape;
use stark::constraint_ir::{Dim, Op};

/// The published blob, or nothing if `lower` panics.
fn published(program: &Published) -> Option<BlobWords> {
    unless_it_panics(|| lower(program))
}

/// What ours answers, with room for as many nodes as the program has, and the blob if it is 0.
#[track_caller]
fn ours(score: &mut Score, program: &Published, what: &str) -> (Answer, Option<BlobWords>) {
    let words = words(program);
    let n = words.counts.nodes;
    let lengths = Lengths {
        used: n,
        last_use: n,
        is_root: n,
        slot_of: n,
        free_slots: 2 * n,
        nodes: 4 * n,
        base_consts: words.base_consts.len(),
        ext_consts: words.ext_consts.len(),
        roots: words.roots.len(),
    };
    let lowered = compare::lower(score, &words, lengths, format_args!("{what}"));
    let blob = lowered.answer.is_ok().then(|| lowered.blob(&words));
    (lowered.answer, blob)
}

const SHAPE: Shape = Shape {
    steps: 2,
    main_width: 3,
    aux_width: 2,
    challenges: 2,
    alphas: 2,
};

/// One thing of a program becomes another that a published program can hold, well-formed or not.
fn change(random: &mut Random, program: &mut Published) {
    let n = program.nodes.len();
    let at = random.below(n);
    let id = random.below(n + 2) as u32;
    match random.below(6) {
        0 => program.dims[at] = random.pick(&[Dim::Base, Dim::Ext]),
        1 if !program.roots.is_empty() => {
            let root = random.below(program.roots.len());
            program.roots[root] = id;
        }
        _ => match &mut program.nodes[at] {
            Op::ConstBase(index) | Op::ConstExt(index) => *index = random.pick(&[0, 1, 2, 3, 7]),
            Op::Var { row, .. } if random.once_in(3) => *row = random.below(2) as u8,
            Op::Var { main, .. } => *main = !*main,
            Op::Add(a, b) | Op::Sub(a, b) | Op::Mul(a, b) => *if random.once_in(2) { a } else { b } = id,
            Op::Neg(a) | Op::Embed(a) => *a = id,
            other => *other = Op::Neg(id),
        },
    }
}

/// What a program names that is not there, and so what the published `lower` panics at: an operand or a root past the end.
fn names_nothing(program: &Published) -> bool {
    let n = program.nodes.len() as u32;
    let operand = |op: &Op| match *op {
        Op::Add(a, b) | Op::Sub(a, b) | Op::Mul(a, b) => n <= a.max(b),
        Op::Neg(a) | Op::Embed(a) => n <= a,
        _ => false,
    };
    program.nodes.iter().any(operand) || program.roots.iter().any(|root| n <= *root)
}

/// On programs with one thing changed: where ours answers 0 the published `lower` gives the same blob; where it panics ours
/// refuses with 7; and in an optimised build it panics exactly where an operand or a root is past the end.
#[test]
fn ours_refuses_where_the_published_lower_panics() {
    const SEED: u64 = 0x7061_6E6C;
    let programs = if cfg!(debug_assertions) { 5_000 } else { 100_000 };
    let mut random = Random::new(SEED);
    let mut score = Score::new("where the published lower panics");
    let (mut both, mut neither, mut rust_only) = (0, 0, 0);
    for i in 0..programs {
        let what = format!("changed program {i} of seed {SEED:#x}");
        let recipe = Recipe {
            calls: 1 + random.below(14),
            shape: SHAPE,
            row_only: random.once_in(5),
            constraints: 4,
        };
        let mut program = build(&mut random, &recipe);
        change(&mut random, &mut program);
        let (answer, blob) = ours(&mut score, &program, &what);
        let rust = published(&program);
        match (&blob, &rust) {
            (Some(ours), Some(rust)) => {
                let same = (ours.counts, &ours.nodes, &ours.roots) == (rust.counts, &rust.nodes, &rust.roots);
                assert!(same, "{what}: {ours:?} and {rust:?}");
                both += 1;
            }
            (None, None) => neither += 1,
            (None, Some(_)) => rust_only += 1,
            (Some(_), None) => panic!("{what}: the published lower panics and ours answers, {program:?}"),
        }
        assert!(
            answer.is_ok() || answer.is_err_and(|refusal| refusal.number == 7),
            "{what}"
        );
        let nothing = names_nothing(&program);
        assert!(
            !nothing || rust.is_none(),
            "{what}: the published lower answers, {program:?}"
        );
        if !cfg!(debug_assertions) {
            assert!(
                nothing || rust.is_some(),
                "{what}: the published lower panics, {program:?}"
            );
        }
    }
    println!(
        "where the published lower panics: {programs} programs; both answer {both}, the published lower alone {rust_only}, \
         neither {neither}"
    );
    assert!(both != 0 && neither != 0 && rust_only != 0);
    score.finish(&[0, 7]);
}

/// A program with base constant 1 and these nodes.
fn program(nodes: &[(Op, Dim)], roots: &[u32]) -> Published {
    Published {
        nodes: nodes.iter().map(|(op, _)| *op).collect(),
        dims: nodes.iter().map(|(_, dim)| *dim).collect(),
        base_consts: vec![1_u64.into()],
        ext_consts: vec![],
        roots: roots.to_vec(),
        num_base: 0,
    }
}

const CELL: Op = Op::Var {
    main: true,
    offset: 0,
    row: 0,
    col: 0,
};

const LOW_CELL: Op = Op::Var {
    main: true,
    offset: 0,
    row: 1,
    col: 0,
};

/// What the published `lower` does with an ill-formed program.
enum Does {
    /// It panics, in every build.
    Panics,
    /// It panics in a build with debug assertions; else it gives these nodes and roots.
    Asserts(&'static [[u32; 4]], &'static [u32]),
    /// It gives these nodes and roots.
    Answers(&'static [[u32; 4]], &'static [u32]),
}

const BIT_31: u32 = 1 << 31;

/// The smallest program of each kind that ours refuses with 7, with the place, and what the published `lower` does.
#[test]
fn smallest_programs_that_ours_refuses() {
    use Dim::{Base, Ext};
    let cases = [
        (
            "an operand past the end",
            program(&[(Op::Neg(1), Base)], &[]),
            0,
            Does::Panics,
        ),
        ("a root past the end", program(&[], &[0]), 0, Does::Panics),
        (
            "itself as operand",
            program(&[(Op::Neg(0), Base)], &[]),
            0,
            Does::Asserts(&[[9, u32::MAX, 0, 0]], &[]),
        ),
        (
            "a later node as operand",
            program(&[(Op::Neg(1), Base), (CELL, Base)], &[0]),
            0,
            Does::Asserts(&[[9, u32::MAX, 0, 0], [2, 0, 1 << 16, 1]], &[0]),
        ),
        (
            "a later uniform leaf as operand",
            program(&[(Op::Neg(1), Base), (Op::ConstBase(0), Base)], &[0]),
            0,
            Does::Answers(&[[9, 2 << 29, 0, 0]], &[0]),
        ),
        (
            "a constant's index over 29 bits, as operand",
            program(&[(Op::ConstBase(1 << 29), Base), (Op::Neg(0), Base)], &[1]),
            0,
            Does::Asserts(&[[9, 3 << 29, 0, 0]], &[0]),
        ),
        (
            "a constant that is not there",
            program(&[(Op::ConstBase(1), Base)], &[0]),
            0,
            Does::Answers(&[[0, 1, 0, 0]], &[0]),
        ),
        (
            "a dim that is not the tag's",
            program(&[(Op::ConstBase(0), Ext)], &[0]),
            0,
            Does::Answers(&[[0, 0, 0, BIT_31]], &[BIT_31]),
        ),
        (
            "a dim that is not the operands'",
            program(&[(CELL, Base), (Op::Neg(0), Ext)], &[1]),
            1,
            Does::Answers(&[[2, 0, 1 << 16, 0], [9, 0, 0, BIT_31]], &[BIT_31]),
        ),
        (
            "Var row 1",
            program(&[(LOW_CELL, Base)], &[0]),
            0,
            Does::Answers(&[[2, 0, 1 << 16 | 1, 0]], &[0]),
        ),
    ];
    let mut score = Score::new("smallest programs");
    for (name, program, place, does) in cases {
        let (answer, _) = ours(&mut score, &program, name);
        assert_eq!(answer, Err(Refusal { number: 7, place }), "{name}");
        let rust = published(&program);
        let expected = match does {
            Does::Panics => None,
            Does::Asserts(..) if cfg!(debug_assertions) => None,
            Does::Asserts(nodes, roots) | Does::Answers(nodes, roots) => Some((nodes.concat(), roots.to_vec())),
        };
        assert_eq!(rust.map(|blob| (blob.nodes, blob.roots)), expected, "{name}");
    }
    score.finish(&[7]);
}

/// The published `num_base` is a `usize` that becomes 32 bits without a word; ours is refused by 9.
#[test]
fn num_base_past_32_bits() {
    let mut score = Score::new("num_base past 32 bits");
    let mut empty = program(&[], &[]);
    empty.num_base = 1 << 32;
    let refused = Err(Refusal { number: 9, place: 0 });
    assert_eq!(ours(&mut score, &empty, "num_base").0, refused);
    assert_eq!(lower(&empty).counts.num_base, 0);
    empty.num_base -= 1;
    assert_eq!(ours(&mut score, &empty, "num_base").0, Ok(()));
    assert_eq!(lower(&empty).counts.num_base, u32::MAX);
    score.finish(&[0, 9]);
}
