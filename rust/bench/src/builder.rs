//! Time of the builder's calls: the host's against the published one, on the same calls; how long a node that is there takes
//! to be found; and the same for constants, which both sides look through one by one.
//!
//! The sides take turns in short rounds, and another one goes first each round. The calls stay.

use std::hint::black_box;
use std::time::{Duration, Instant};

use differential::inputs::Random;
use differential::plain::probe::walked;
use differential::programs::published::{Published, words};
use host::lent::builder::{Filled, Handle, Tables};
use host::{Builder, Expr};
use math::field::extensions_goldilocks::Degree3GoldilocksExtensionField as Ext;
use math::field::goldilocks::GoldilocksField as Base;
use stark::constraint_ir as published;

use crate::report::Row;
use crate::summary::{Summary, cpu_model};

/// The same calls in every run.
const SEED: u64 = 0x6275_696C;

const NODES: [usize; 3] = [1_000, 10_000, 100_000];

/// Different constants that the calls name.
const CONSTANTS: u64 = 64;

const ROUNDS: usize = 100;

/// Rounds at the start that are not counted.
const UNCOUNTED: usize = 5;

/// Calls between two looks at the clock, about.
const TIMED_CALLS: usize = 100_000;

type IrBuilder = published::IrBuilder<Base, Ext>;

/// A call. Operands are the handles that earlier calls gave, by the number of the call.
#[derive(Clone, Copy)]
enum Step {
    Main(u8, usize),
    Aux(u8, usize),
    Challenge(usize),
    AlphaPower(usize),
    TableOffset,
    ConstBase(u64),
    Add(usize, usize),
    Sub(usize, usize),
    Mul(usize, usize),
    Neg(usize),
    /// Gives its operand's handle.
    Emit(usize, usize),
}

/// A builder of one side.
trait Side {
    type Handle: Copy;

    fn step(&mut self, given: &[Self::Handle], step: Step) -> Self::Handle;
}

/// The host's calls on lent memory.
impl Side for Tables<'_> {
    type Handle = Handle;

    #[inline]
    fn step(&mut self, given: &[Handle], step: Step) -> Handle {
        let mut made = Handle::default();
        let answer = match step {
            Step::Main(offset, column) => self.main(offset, column, &mut made),
            Step::Aux(offset, column) => self.aux(offset, column, &mut made),
            Step::Challenge(index) => self.challenge(index, &mut made),
            Step::AlphaPower(index) => self.alpha_power(index, &mut made),
            Step::TableOffset => self.table_offset(&mut made),
            Step::ConstBase(value) => self.const_base(value, &mut made),
            Step::Add(a, b) => self.add(given[a], given[b], &mut made),
            Step::Sub(a, b) => self.sub(given[a], given[b], &mut made),
            Step::Mul(a, b) => self.mul(given[a], given[b], &mut made),
            Step::Neg(a) => self.neg(given[a], &mut made),
            Step::Emit(constraint, root) => {
                made = given[root];
                self.emit(constraint, made)
            }
        };
        answer.expect("there is room");
        made
    }
}

/// Both builders that own their tables have the same calls; the host's give results.
macro_rules! owned {
    ($builder:ident, $handle:ty, $answer:ident) => {
        impl Side for $builder {
            type Handle = $handle;

            #[inline]
            fn step(&mut self, given: &[$handle], step: Step) -> $handle {
                match step {
                    Step::Main(offset, column) => $answer(self.main(offset, column)),
                    Step::Aux(offset, column) => $answer(self.aux(offset, column)),
                    Step::Challenge(index) => $answer(self.challenge(index)),
                    Step::AlphaPower(index) => $answer(self.alpha_power(index)),
                    Step::TableOffset => $answer(self.table_offset()),
                    Step::ConstBase(value) => $answer(self.const_base(value)),
                    Step::Add(a, b) => $answer(self.add(given[a], given[b])),
                    Step::Sub(a, b) => $answer(self.sub(given[a], given[b])),
                    Step::Mul(a, b) => $answer(self.mul(given[a], given[b])),
                    Step::Neg(a) => $answer(self.neg(given[a])),
                    Step::Emit(constraint, root) => {
                        $answer(self.emit(constraint, given[root]));
                        given[root]
                    }
                }
            }
        }
    };
}

fn answered<T>(answer: Result<T, host::Error>) -> T {
    answer.expect("there is room")
}

fn as_it_is<T>(made: T) -> T {
    made
}

owned!(Builder, Expr, answered);
owned!(IrBuilder, published::Expr, as_it_is);

/// Makes all calls on a fresh builder.
#[inline]
fn build<S: Side>(side: &mut S, steps: &[Step], given: &mut Vec<S::Handle>) {
    given.clear();
    for step in steps {
        let made = side.step(given, *step);
        given.push(made);
    }
}

/// Makes calls whose nodes are there.
#[inline]
fn ask<S: Side>(side: &mut S, steps: &[Step], given: &[S::Handle]) {
    for step in steps {
        black_box(side.step(given, *step));
    }
}

/// Calls that make so many nodes, in about the mixture that tables have. Two of five ask for a leaf, mostly main cells of this
/// row and the next that others have asked for too; the others read what was made, four of five base values; one in twelve is
/// a constraint. Constants are few.
fn steps(nodes: usize) -> Vec<Step> {
    let mut random = Random::new(SEED);
    let columns = (nodes / 8).clamp(16, 4_000);
    let mut builder = Builder::new();
    let (mut steps, mut given) = (Vec::new(), Vec::new());
    let (mut base, mut ext) = (Vec::new(), Vec::new());
    let mut constraints = 0;
    while builder.node_count() < nodes {
        let step = next_step(&mut random, columns, &base, &ext, &mut constraints);
        let made = builder.step(&given, step);
        if !matches!(step, Step::Emit(..)) {
            let class = if made.is_ext() { &mut ext } else { &mut base };
            class.push(given.len());
        }
        given.push(made);
        steps.push(step);
    }
    steps
}

fn next_step(random: &mut Random, columns: usize, base: &[usize], ext: &[usize], constraints: &mut usize) -> Step {
    if base.is_empty() || ext.is_empty() || random.below(5) < 2 {
        return match random.below(50) {
            0..30 => Step::Main(random.below(2) as u8, random.below(columns)),
            30..36 => Step::ConstBase(random.uniform() % CONSTANTS),
            36..44 => Step::Aux(random.below(2) as u8, random.below(columns)),
            44..46 => Step::AlphaPower(random.below(64)),
            46..49 => Step::Challenge(random.below(8)),
            _ => Step::TableOffset,
        };
    }
    // Half of the operands are among the last few.
    let mut pick = |from: &[usize]| {
        if random.once_in(2) {
            from[from.len() - 1 - random.below(from.len().min(8))]
        } else {
            random.pick(from)
        }
    };
    let (a, b, c, d) = (pick(base), pick(base), pick(ext), pick(ext));
    let (a, b) = match random.below(10) {
        0 => (c, d),
        1 => (a, d),
        _ => (a, b),
    };
    match random.below(24) {
        0..6 => Step::Add(a, b),
        6..12 => Step::Sub(a, b),
        12..21 => Step::Mul(a, b),
        21 => Step::Neg(a),
        _ => {
            *constraints += 1;
            Step::Emit(*constraints - 1, a)
        }
    }
}

/// The calls, with memory for the host's that half of the hash places stay free in.
struct Case {
    steps: Vec<Step>,
    /// Calls whose nodes are there.
    asked: Vec<Step>,
    filled: Filled,
    nodes: Vec<u32>,
    places: Vec<u32>,
    base_consts: Vec<u64>,
    roots: Vec<u32>,
    given: Vec<Handle>,
    given_owned: Vec<Expr>,
    given_published: Vec<published::Expr>,
    /// Of the published side and of ours, to be asked.
    published: IrBuilder,
    owned: Builder,
}

macro_rules! lend {
    ($case:ident) => {
        Tables {
            filled: $case.filled,
            nodes: &mut $case.nodes,
            places: &mut $case.places,
            base_consts: &mut $case.base_consts,
            ext_consts: &mut [],
            roots: &mut $case.roots,
        }
    };
}

impl Case {
    fn new(steps: Vec<Step>, nodes: usize) -> Self {
        let mut random = Random::new(SEED + 1);
        let makes_one = |step: &&Step| !matches!(step, Step::Emit(..));
        let there: Vec<Step> = steps.iter().filter(makes_one).copied().collect();
        let constraints = steps.len() - there.len();
        let mut case = Case {
            asked: (0..TIMED_CALLS).map(|_| random.pick(&there)).collect(),
            filled: Filled::default(),
            nodes: vec![0; 4 * nodes],
            places: vec![0; 2 * nodes],
            base_consts: vec![0; 1_000],
            roots: vec![0; constraints],
            given: Vec::with_capacity(steps.len()),
            given_owned: Vec::with_capacity(steps.len()),
            given_published: Vec::with_capacity(steps.len()),
            published: IrBuilder::new(),
            owned: Builder::new(),
            steps,
        };
        case.published();
        case.owned();
        case.ours();
        case.compare(nodes);
        case
    }

    /// A fresh builder on lent memory and all calls.
    #[inline(never)]
    fn ours(&mut self) {
        let mut tables = lend!(self);
        tables.fresh(&mut Handle::default()).expect("there is room");
        build(&mut tables, black_box(&self.steps), &mut self.given);
        self.filled = tables.filled;
    }

    #[inline(never)]
    fn owned(&mut self) {
        self.owned = Builder::new();
        build(&mut self.owned, black_box(&self.steps), &mut self.given_owned);
    }

    #[inline(never)]
    fn published(&mut self) {
        self.published = IrBuilder::new();
        build(&mut self.published, black_box(&self.steps), &mut self.given_published);
    }

    #[inline(never)]
    fn ask_ours(&mut self) {
        ask(&mut lend!(self), black_box(&self.asked), &self.given);
    }

    /// How many places are looked at for a node that is there, on average.
    fn walked(&mut self) -> f64 {
        let nodes = self.filled.nodes;
        let tables = lend!(self);
        let places: usize = (0..nodes).map(|id| walked(&tables, id)).sum();
        places as f64 / nodes as f64
    }

    #[inline(never)]
    fn ask_published(&mut self) {
        ask(&mut self.published, black_box(&self.asked), &self.given_published);
    }

    /// A time says nothing if the sides do different work: they have to make the same program.
    fn compare(&mut self, nodes: usize) {
        let published: Published = std::mem::take(&mut self.published).finish(0);
        let published = words(&published);
        assert_eq!(self.filled.nodes, nodes);
        assert!(self.nodes == published.nodes && self.roots == published.roots);
        let constants = published.base_consts.iter().map(|word| word % host::P);
        assert!(constants.eq(self.base_consts[..self.filled.base_consts].iter().copied()));
        let owned = self
            .owned
            .clone()
            .finish(0)
            .expect("a builder's program is well-formed");
        assert!(*owned.words().nodes.as_flattened() == self.nodes && owned.words().roots == self.roots);
        self.published();
    }

    /// How many calls were made and how long they took.
    fn run(&mut self, side: usize) -> (usize, Duration) {
        let repeats = TIMED_CALLS.div_ceil(self.steps.len());
        let timed = |calls: usize, body: &mut dyn FnMut()| {
            let start = Instant::now();
            body();
            (calls, start.elapsed())
        };
        let made = repeats * self.steps.len();
        match side {
            OURS => timed(made, &mut || (0..repeats).for_each(|_| self.ours())),
            OWNED => timed(made, &mut || (0..repeats).for_each(|_| self.owned())),
            PUBLISHED => timed(made, &mut || (0..repeats).for_each(|_| self.published())),
            ASK_OURS => timed(self.asked.len(), &mut || self.ask_ours()),
            ASK_PUBLISHED => timed(self.asked.len(), &mut || self.ask_published()),
            _ => unreachable!("there are five sides"),
        }
    }
}

/// The host's calls on lent memory.
const OURS: usize = 0;
/// The host's builder that owns its tables and grows.
const OWNED: usize = 1;
const PUBLISHED: usize = 2;
/// Nodes that are there.
const ASK_OURS: usize = 3;
const ASK_PUBLISHED: usize = 4;
const SIDES: usize = 5;

/// Nanoseconds a call, by side, one for each counted round.
type Times = [Vec<f64>; SIDES];

fn measure(cases: &mut [Case]) -> Vec<Times> {
    let mut all: Vec<Times> = cases.iter().map(|_| Times::default()).collect();
    for round in 0..UNCOUNTED + ROUNDS {
        for (case, times) in cases.iter_mut().zip(&mut all) {
            for turn in 0..SIDES {
                let side = (round + turn) % SIDES;
                let (calls, taken) = case.run(side);
                if UNCOUNTED <= round {
                    times[side].push(taken.as_nanos() as f64 / calls as f64);
                }
            }
        }
    }
    all
}

fn print(name: &str, time: &Summary) {
    println!(
        "  {name:<24}{:>8.2} ns a call{:>8.2} best{:>10.1} million calls/s",
        time.median,
        time.best,
        1e3 / time.median
    );
}

fn print_ratio(what: &str, ours: &Summary, published: &Summary) {
    println!(
        "  {what} {:.2}x published; by the best rounds {:.2}x",
        published.median / ours.median,
        published.best / ours.best
    );
}

pub fn run() -> Vec<Row> {
    println!("{}; the builder", cpu_model());
    println!(
        "nanoseconds a call: median and best of {ROUNDS} rounds of about {TIMED_CALLS} calls; ratios are of calls a second"
    );
    println!(
        "ours: calls on lent memory, twice as many hash places as nodes; a fresh builder, which clears them, is counted"
    );
    println!("ours, owned: the same by the type that owns its tables, which grow");
    println!("published: IrBuilder as published, which grows its tables");
    println!("found: calls for nodes that are there, in any order, in the full table");
    let mut cases: Vec<Case> = NODES.iter().map(|nodes| Case::new(steps(*nodes), *nodes)).collect();
    let times = measure(&mut cases);
    let mut rows = Vec::new();
    for (case, times) in cases.iter_mut().zip(times) {
        let [ours, owned, published, ask_ours, ask_published] = times.map(Summary::of);
        let walked = case.walked();
        println!();
        println!(
            "{} nodes made by {} calls, {} of them constraints; {} constants; a walk for one takes {walked:.2} places",
            case.filled.nodes,
            case.steps.len(),
            case.roots.len(),
            case.filled.base_consts
        );
        for (name, time) in [
            ("ours", &ours),
            ("ours, owned", &owned),
            ("published", &published),
            ("ours, found", &ask_ours),
            ("published, found", &ask_published),
        ] {
            print(name, time);
        }
        print_ratio("ours", &ours, &published);
        print_ratio("ours, owned", &owned, &published);
        print_ratio("found: ours", &ask_ours, &ask_published);
        let nodes = case.filled.nodes;
        for (what, ours, published) in [
            ("building", &ours, &published),
            ("building in tables that grow", &owned, &published),
            ("finding nodes", &ask_ours, &ask_published),
        ] {
            rows.push(Row::new(format!("{what}, {nodes} nodes"), "a call", ours, published));
        }
    }
    rows
}
