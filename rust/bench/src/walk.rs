//! Time of the walk of a blob: the host's against the published one, on the same blobs and frames.
//!
//! The sides take turns in short rounds, and another one goes first each round. Each round has fresh frames; the blobs stay.

use std::hint::black_box;
use std::time::Instant;

use differential::Limbs;
use differential::blobs::published::{DeviceFrame, words};
use differential::blobs::{BlobWords, Lengths};
use differential::inputs::Random;
use differential::programs::Cells;
use differential::programs::published::Published;
use host::lent::blob::{self, Written};
use host::lent::program::Shape;
use stark::constraint_ir::device::DeviceProgram;
use stark::constraint_ir::{Expr, IrBuilder};

use crate::programs::{frame, operand};
use crate::report::Row;
use crate::summary::{Summary, cpu_model};

/// The same blobs and words in every run.
const SEED: u64 = 0x7761_6C6B;

const NODES: [usize; 3] = [100, 1_000, 5_000];

const ROUNDS: usize = 3_000;

/// Rounds at the start that are not counted.
const UNCOUNTED: usize = 20;

/// Nodes that are walked together between two looks at the clock: as many rows as make this up.
const TIMED_NODES: usize = 10_000;

const SHAPE: Shape = Shape {
    steps: 2,
    main_width: 64,
    aux_width: 16,
    challenges: 2,
    alphas: 8,
};

/// The host's whole call: it checks the blob, clears bytes and slots, and walks one row.
const WHOLE: usize = 0;
const PUBLISHED: usize = 1;
/// The host's blob check by itself.
const CHECK: usize = 2;
const SIDES: usize = 3;

/// A blob on both sides, with its memory.
struct Case {
    words: BlobWords,
    device: DeviceProgram,
    base_evals: Vec<u64>,
    ext_evals: Vec<u64>,
    bytes: Vec<u8>,
    slots: Vec<u64>,
    published_base: Vec<u64>,
    published_ext: Vec<Limbs>,
}

impl Case {
    fn new(nodes: usize) -> Self {
        let device = realistic(nodes);
        let words = words(&device);
        let lengths = Lengths::of(&words.counts);
        Case {
            base_evals: vec![0; lengths.base_evals],
            ext_evals: vec![0; lengths.ext_evals],
            bytes: vec![0; lengths.bytes],
            slots: vec![0; lengths.slots],
            published_base: vec![0; lengths.base_evals],
            published_ext: vec![[0; 3]; lengths.ext_evals / 3],
            words,
            device,
        }
    }

    fn whole(&mut self, cells: &Cells) {
        let written = Written {
            base_evals: &mut self.base_evals,
            ext_evals: &mut self.ext_evals,
            bytes: &mut self.bytes,
            slots: &mut self.slots,
        };
        blob::walk(&black_box(&self.words).lend(), &black_box(cells).lend(), written)
            .expect("the blob is legal and the frame is its own");
    }

    #[inline(never)]
    fn published(&mut self, frame: &DeviceFrame) {
        black_box(frame).walk(
            black_box(&self.device),
            &mut self.published_base,
            &mut self.published_ext,
        );
    }

    fn check(&mut self) {
        blob::check_blob(&black_box(&self.words).lend(), &SHAPE, &mut self.bytes).expect("the blob is legal");
    }

    /// A time says nothing if the sides do different work: they have to leave the same values modulo p.
    fn compare(&mut self, cells: &Cells) {
        self.whole(cells);
        self.published(&DeviceFrame::new(cells));
        let base = self.published_base.iter().map(|word| word % host::P);
        assert!(base.eq(self.base_evals.iter().copied()), "the base values differ");
        let ext = self.published_ext.concat().into_iter().map(|word| word % host::P);
        assert!(ext.eq(self.ext_evals.iter().copied()), "the extension values differ");
    }

    /// How many nodes are cells, base operations, extension operations with a base operand, and other extension
    /// operations.
    fn mixture(&self) -> [usize; 4] {
        let mut counts = [0; 4];
        for node in &self.device.nodes {
            let in_base = |operand: u32| [0, 2].contains(&(operand >> 29));
            let class = if node.op < 6 {
                0
            } else if node.res >> 31 == 0 {
                1
            } else if node.op <= 8 && (in_base(node.a) || in_base(node.b)) {
                2
            } else {
                3
            };
            counts[class] += 1;
        }
        counts
    }
}

/// A lowered program of about so many nodes.
fn realistic(nodes: usize) -> DeviceProgram {
    // What nobody reads is not lowered, so operations are added until there are enough nodes.
    let mut operations = nodes / 2;
    loop {
        let device = DeviceProgram::lower(&mixture(operations));
        if nodes <= device.nodes.len() {
            return device;
        }
        operations += 1 + (nodes - device.nodes.len()) / 2;
    }
}

/// So many operations: seven of ten base, three with an extension result, of which every other one has a base operand. A
/// third of the operands are cells of the two rows, constants and uniforms, the others are earlier values. Every twelfth
/// operation is a constraint, base ones first.
pub fn mixture(operations: usize) -> Published {
    let mut random = Random::new(SEED);
    let mut builder: IrBuilder = IrBuilder::new();
    let mut base: Vec<Expr> = vec![builder.main(0, 0)];
    let mut ext: Vec<Expr> = vec![builder.aux(0, 0)];
    let (mut base_roots, mut ext_roots) = (Vec::new(), Vec::new());
    for operation in 1..=operations {
        let extension = random.below(10) < 3;
        let of_base = |random: &mut Random, builder: &mut IrBuilder| match random.below(12) {
            0..3 => builder.main(random.below(SHAPE.steps) as u8, random.below(SHAPE.main_width)),
            3 => builder.const_base(1 + random.below(16) as u64),
            _ => operand(random, &base),
        };
        let of_ext = |random: &mut Random, builder: &mut IrBuilder| match random.below(12) {
            0 | 1 => builder.aux(random.below(SHAPE.steps) as u8, random.below(SHAPE.aux_width)),
            2 => builder.challenge(random.below(SHAPE.challenges)),
            3 => builder.alpha_power(random.below(SHAPE.alphas)),
            _ => operand(random, &ext),
        };
        let (a, b) = if !extension {
            (of_base(&mut random, &mut builder), of_base(&mut random, &mut builder))
        } else if random.once_in(2) {
            let (a, b) = (of_base(&mut random, &mut builder), of_ext(&mut random, &mut builder));
            if random.once_in(2) { (a, b) } else { (b, a) }
        } else {
            (of_ext(&mut random, &mut builder), of_ext(&mut random, &mut builder))
        };
        let value = match random.below(20) {
            0..7 => builder.add(a, b),
            7..13 => builder.sub(a, b),
            13..19 => builder.mul(a, b),
            _ if extension => builder.neg(*ext.last().expect("there is one")),
            _ => builder.neg(a),
        };
        let (values, roots) = if extension {
            (&mut ext, &mut ext_roots)
        } else {
            (&mut base, &mut base_roots)
        };
        values.push(value);
        if operation % 12 == 0 {
            roots.push(value);
        }
    }
    for (c, root) in base_roots.iter().chain(&ext_roots).enumerate() {
        builder.emit(c, *root);
    }
    builder.finish(base_roots.len())
}

/// What was measured of one blob: nanoseconds a row.
pub struct Walked {
    case: Case,
    pub nodes: usize,
    pub whole: Summary,
    check: Summary,
    /// The whole call less the check in the same round: the walk of a row with its clearing.
    pub row: Summary,
    pub published: Summary,
}

impl Walked {
    fn of(case: Case, times: [Vec<f64>; SIDES]) -> Self {
        let differences = times[WHOLE]
            .iter()
            .zip(&times[CHECK])
            .map(|(whole, check)| whole - check)
            .collect();
        let row = Summary::of(differences).median;
        let [whole, published, check] = times.map(Summary::of);
        Walked {
            nodes: case.device.nodes.len(),
            // The least difference of a round would be of one in which the check was held up.
            row: Summary {
                median: row,
                best: whole.best - check.best,
            },
            case,
            whole,
            check,
            published,
        }
    }
}

/// Blobs of about so many nodes, in so many rounds.
pub fn measure(nodes: &[usize], rounds: usize) -> Vec<Walked> {
    let mut random = Random::new(SEED);
    let mut cases: Vec<(Case, [Vec<f64>; SIDES])> = nodes
        .iter()
        .map(|nodes| (Case::new(*nodes), Default::default()))
        .collect();
    for (case, _) in &mut cases {
        let cells = frame(&mut random, SHAPE);
        case.compare(&cells);
    }
    for round in 0..UNCOUNTED + rounds {
        for (case, times) in &mut cases {
            let cells = frame(&mut random, SHAPE);
            let published_frame = DeviceFrame::new(&cells);
            let rows = (TIMED_NODES / case.device.nodes.len()).max(1);
            for turn in 0..SIDES {
                let side = (round + turn) % SIDES;
                let start = Instant::now();
                for _ in 0..rows {
                    match side {
                        WHOLE => case.whole(&cells),
                        PUBLISHED => case.published(&published_frame),
                        CHECK => case.check(),
                        _ => unreachable!("there are three sides"),
                    }
                }
                let taken = start.elapsed();
                if UNCOUNTED <= round {
                    times[side].push(taken.as_nanos() as f64 / rows as f64);
                }
            }
        }
        if (round + 1) % 500 == 0 {
            eprintln!("{} of {} rounds", round + 1, UNCOUNTED + rounds);
        }
    }
    cases.into_iter().map(|(case, times)| Walked::of(case, times)).collect()
}

pub fn run() -> Vec<Row> {
    println!("{}; walk of blobs; {ROUNDS} rounds of {TIMED_NODES} nodes", cpu_model());
    println!("nanoseconds a row: median and best of the rounds; ratios are of rows a second, ours over published");
    println!("whole: one call of ours, which checks the blob, clears the lent slots itself and walks one row");
    println!(
        "check: our blob check by itself; row: whole less check in the same round, the walk of a row with its clearing"
    );
    println!(
        "published: eval_device_program as published, which checks nothing and allocates cleared slots in every call"
    );
    println!("slots were not cleared beforehand by the caller on either side");
    let mut rows = Vec::new();
    for walked in measure(&NODES, ROUNDS) {
        print(&walked);
        for (name, ours) in [("whole call", &walked.whole), ("row", &walked.row)] {
            let what = format!("walk, {} nodes, {name}", walked.nodes);
            rows.push(Row::new(what, "a row", ours, &walked.published));
        }
    }
    rows
}

fn print(walked: &Walked) {
    let Walked {
        case,
        whole,
        check,
        row,
        published,
        ..
    } = walked;
    let counts = &case.words.counts;
    let [cells, base, mixed, ext] = case.mixture();
    println!();
    println!(
        "{} nodes: {cells} cells, {base} base, {mixed} mixed and {ext} extension operations; {} roots, {} base and {} \
         extension slots",
        counts.nodes, counts.roots, counts.base_slots, counts.ext_slots
    );
    for (name, time) in [
        ("whole", whole),
        ("check", check),
        ("row", row),
        ("published", published),
    ] {
        println!(
            "  {name:<10}{:>10.0} ns{:>10.0} best{:>12.0} rows/s{:>8.2} ns a node",
            time.median,
            time.best,
            1e9 / time.median,
            time.median / f64::from(counts.nodes),
        );
    }
    println!(
        "  whole {:.2}x published, row {:.2}x published; check / row {:.2}; by the best rounds {:.2}x, {:.2}x, {:.2}",
        published.median / whole.median,
        published.median / row.median,
        check.median / row.median,
        published.best / whole.best,
        published.best / row.best,
        check.best / row.best,
    );
}
