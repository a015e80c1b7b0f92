//! Time per node of the prover's evaluator: the host's against the published one, on the same programs and frames.
//!
//! The sides take turns in short rounds, and another one goes first each round. Each round has fresh frames, so that a
//! branch predictor cannot learn the words by heart; the programs stay.

use std::hint::black_box;
use std::time::Instant;

use differential::inputs::Random;
use differential::programs::published::{ExtElement, ProverFrame, Published, words};
use differential::programs::{Cells, Words};
use host::lent::program::{self, Shape};
use math::field::extensions_goldilocks::Degree3GoldilocksExtensionField as Ext;
use math::field::goldilocks::{GoldilocksElement as BaseElement, GoldilocksField as Base};
use stark::constraint_ir::{Expr, IrBuilder, interp};
use stark::traits::TransitionEvaluationContext;

use crate::report::Row;
use crate::summary::{Summary, cpu_model};

/// The same programs and words in every run.
const SEED: u64 = 0x7072_6F67;

const NODES: [usize; 3] = [100, 1_000, 5_000];

const ROUNDS: usize = 3_000;

/// Rounds at the start that are not counted.
const UNCOUNTED: usize = 20;

/// Nodes that are evaluated together between two looks at the clock: as many calls as make this up.
const TIMED_NODES: usize = 10_000;

const OURS: usize = 0;
const PUBLISHED: usize = 1;
/// The host's program check, which its evaluator does in every call, by itself.
const CHECK: usize = 2;
const SIDES: usize = 3;

/// A program on both sides, with its memory.
struct Case {
    words: Words,
    program: Published,
    shape: Shape,
    base_evals: Vec<u64>,
    ext_evals: Vec<u64>,
    room: Vec<u64>,
    published_base: Vec<BaseElement>,
    published_ext: Vec<ExtElement>,
}

impl Case {
    fn new(nodes: usize) -> Self {
        let (program, shape) = realistic(nodes);
        let words = words(&program);
        let (n, roots) = (words.counts.nodes, words.counts.roots);
        Case {
            shape,
            base_evals: vec![0; program.num_base],
            ext_evals: vec![0; 3 * roots],
            room: vec![0; 4 * n],
            published_base: vec![BaseElement::zero(); program.num_base],
            published_ext: vec![ExtElement::zero(); roots],
            words,
            program,
        }
    }

    fn ours(&mut self, cells: &Cells) {
        program::eval_program(
            &black_box(&self.words).lend(),
            &black_box(cells).lend(),
            &mut self.base_evals,
            &mut self.ext_evals,
            &mut self.room,
        )
        .expect("the program is well-formed and the frame is its own");
    }

    #[inline(never)]
    fn published(&mut self, context: &Context<'_>) {
        interp::eval_program(
            black_box(&self.program),
            black_box(context),
            &mut self.published_base,
            &mut self.published_ext,
        );
    }

    fn check(&mut self) {
        program::check_program(&black_box(&self.words).lend()).expect("the program is well-formed");
    }

    /// A time says nothing if the sides do different work: they have to leave the same values modulo p.
    fn compare(&mut self, cells: &Cells) {
        self.ours(cells);
        let frame = ProverFrame::new(cells);
        self.published(&frame.context());
        let num_base = self.program.num_base;
        let base = self.published_base.iter().map(|element| *element.value() % host::P);
        assert!(base.eq(self.base_evals.iter().copied()), "the base values differ");
        let published = self.published_ext[num_base..]
            .iter()
            .flat_map(|element| *element.value());
        let ext = published.map(|limb| *limb.value() % host::P);
        assert!(
            ext.eq(self.ext_evals[3 * num_base..].iter().copied()),
            "the extension values differ"
        );
    }
}

type Context<'a> = TransitionEvaluationContext<'a, Base, Ext>;

/// A program of exactly so many nodes, and the shape of its frame.
fn realistic(nodes: usize) -> (Published, Shape) {
    // A call makes a node or names one that is there, so calls are added until there are enough.
    let mut calls = nodes;
    loop {
        let (program, shape) = mixture(calls);
        if program.len() == nodes {
            return (program, shape);
        }
        calls += nodes - program.len();
    }
}

/// So many calls of the builder, in about the mixture that tables have. Two of five ask for a leaf: mostly main cells of
/// this row and the next, some constants, aux cells and uniforms. The others read those and each other, so most leaves
/// are shared: four of five are base operations, one is an extension operation, often with one base operand. Every
/// twelfth operation is a constraint, base ones first.
fn mixture(calls: usize) -> (Published, Shape) {
    let mut random = Random::new(SEED);
    let mut builder: IrBuilder = IrBuilder::new();
    let mut shape = Shape {
        steps: 2,
        ..Shape::default()
    };
    // The values so far, constants first so that there is always one.
    let mut base = vec![builder.const_base(0)];
    let mut ext = vec![builder.table_offset()];
    let (mut base_roots, mut ext_roots) = (Vec::new(), Vec::new());
    let mut operations = 0;
    // The next column that is also read in the next row.
    let mut next_row = 0;
    for call in 2..calls {
        if random.below(5) < 2 {
            match random.below(50) {
                0..32 => {
                    base.push(builder.main(0, shape.main_width));
                    shape.main_width += 1;
                }
                32..40 if next_row < shape.main_width => {
                    base.push(builder.main(1, next_row));
                    next_row += 1;
                }
                32..44 => base.push(builder.const_base(call as u64)),
                44..47 => {
                    ext.push(builder.aux(random.below(2) as u8, shape.aux_width));
                    shape.aux_width += 1;
                }
                47..49 => {
                    ext.push(builder.alpha_power(shape.alphas));
                    shape.alphas += 1;
                }
                _ => {
                    ext.push(builder.challenge(shape.challenges));
                    shape.challenges += 1;
                }
            }
            continue;
        }
        let extension = random.once_in(5);
        let (a, b) = if extension {
            let other = if random.once_in(2) { &base } else { &ext };
            (operand(&mut random, other), operand(&mut random, &ext))
        } else {
            (operand(&mut random, &base), operand(&mut random, &base))
        };
        let value = match random.below(20) {
            0..7 => builder.add(a, b),
            7..13 => builder.sub(a, b),
            13..19 => builder.mul(a, b),
            _ => builder.neg(b),
        };
        let (values, roots) = if extension {
            (&mut ext, &mut ext_roots)
        } else {
            (&mut base, &mut base_roots)
        };
        values.push(value);
        operations += 1;
        if operations % 12 == 0 {
            roots.push(value);
        }
    }
    for (c, root) in base_roots.iter().chain(&ext_roots).enumerate() {
        builder.emit(c, *root);
    }
    (builder.finish(base_roots.len()), shape)
}

/// One of the last few values, or any.
pub fn operand(random: &mut Random, values: &[Expr]) -> Expr {
    let recent = values.len().min(8);
    if random.once_in(2) {
        values[values.len() - 1 - random.below(recent)]
    } else {
        random.pick(values)
    }
}

/// A frame of uniform words.
pub fn frame(random: &mut Random, shape: Shape) -> Cells {
    let mut words = |count: usize| (0..count).map(|_| random.uniform()).collect();
    Cells {
        shape,
        main: words(shape.steps * shape.main_width),
        aux: words(3 * shape.steps * shape.aux_width),
        challenges: words(3 * shape.challenges),
        alphas: words(3 * shape.alphas),
        table_offset: [random.uniform(), random.uniform(), random.uniform()],
    }
}

/// Nanoseconds a node, by case and side, one for each counted round.
type Times = [[Vec<f64>; SIDES]; NODES.len()];

pub fn run() -> Vec<Row> {
    let mut random = Random::new(SEED);
    let mut cases = NODES.map(Case::new);
    for case in &mut cases {
        let cells = frame(&mut random, case.shape);
        case.compare(&cells);
    }
    let mut times = Times::default();
    for round in 0..UNCOUNTED + ROUNDS {
        for (case, times) in cases.iter_mut().zip(&mut times) {
            let cells = frame(&mut random, case.shape);
            let published_frame = ProverFrame::new(&cells);
            let context = published_frame.context();
            let nodes = case.program.len();
            let calls = TIMED_NODES / nodes;
            for turn in 0..SIDES {
                let side = (round + turn) % SIDES;
                let start = Instant::now();
                for _ in 0..calls {
                    match side {
                        OURS => case.ours(&cells),
                        PUBLISHED => case.published(&context),
                        CHECK => case.check(),
                        _ => unreachable!("there are three sides"),
                    }
                }
                let taken = start.elapsed();
                if UNCOUNTED <= round {
                    times[side].push(taken.as_nanos() as f64 / (calls * nodes) as f64);
                }
            }
        }
        if (round + 1) % 500 == 0 {
            eprintln!("{} of {} rounds", round + 1, UNCOUNTED + ROUNDS);
        }
    }
    print(&cases, times)
}

/// How many of a program's nodes are leaves, and how many of its operations have an extension result.
fn mixture_of(words: &Words) -> (usize, usize) {
    let ids = 0..words.counts.nodes;
    let leaves = ids.clone().filter(|id| words.tag(*id) <= 5).count();
    let in_ext = ids.filter(|id| 5 < words.tag(*id) && words.dim(*id) == 1).count();
    (leaves, in_ext)
}

fn print(cases: &[Case], times: Times) -> Vec<Row> {
    let mut rows = Vec::new();
    println!(
        "{}; prover's evaluator; {ROUNDS} rounds of {TIMED_NODES} nodes",
        cpu_model()
    );
    println!("nanoseconds a node: median and best of the rounds; ratios of medians and of bests");
    println!("ours: the value room is lent and was not cleared beforehand; the whole program is checked in every call");
    println!("published: eval_program as published, which allocates its values in every call and checks nothing");
    println!("check: our program check by itself");
    println!();
    println!(
        "{:<8}{:>8}{:>12}{:>18}{:>18}{:>18}{:>18}{:>18}",
        "", "", "extension", "ours", "published", "check", "ours/published", "million nodes/s"
    );
    println!(
        "{:<8}{:>8}{:>12}{:>11}{:>7}{:>11}{:>7}{:>11}{:>7}{:>11}{:>7}{:>9}{:>9}",
        "nodes",
        "leaves",
        "operations",
        "median",
        "best",
        "median",
        "best",
        "median",
        "best",
        "median",
        "best",
        "ours",
        "publ."
    );
    for (case, times) in cases.iter().zip(times) {
        let [ours, published, check] = times.map(Summary::of);
        let (leaves, in_ext) = mixture_of(&case.words);
        println!(
            "{:<8}{:>8}{:>12}{:>11.2}{:>7.2}{:>11.2}{:>7.2}{:>11.2}{:>7.2}{:>11.2}{:>7.2}{:>9.1}{:>9.1}",
            case.program.len(),
            leaves,
            in_ext,
            ours.median,
            ours.best,
            published.median,
            published.best,
            check.median,
            check.best,
            ours.median / published.median,
            ours.best / published.best,
            1_000.0 / ours.median,
            1_000.0 / published.median,
        );
        let what = format!("evaluation, {} nodes", case.program.len());
        rows.push(Row::new(what, "a node", &ours, &published));
    }
    rows
}
