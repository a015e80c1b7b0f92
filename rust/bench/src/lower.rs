//! Time of lowering: the host's against the published one, on the same programs; and how it grows with the program.
//!
//! The sides take turns in short rounds, and another one goes first each round. The programs stay.

use std::hint::black_box;
use std::time::Instant;

use differential::blobs::published::words as blob_words;
use differential::lowering::Lengths;
use differential::programs::Words;
use differential::programs::published::{Published, words};
use host::lent::blob::BlobCounts;
use host::lent::lower::{self, Lists, Rooms};
use host::lent::program;
use stark::constraint_ir::device::DeviceProgram;

use crate::report::Row;
use crate::summary::{Summary, cpu_model};
use crate::walk::mixture;

/// What is measured together: programs of so many nodes, so many rounds, and between two looks at the clock as many calls as
/// make up so many nodes.
struct Plan<const CASES: usize> {
    nodes: [usize; CASES],
    rounds: usize,
    timed_nodes: usize,
}

const SPEED: Plan<3> = Plan {
    nodes: [100, 1_000, 5_000],
    rounds: 3_000,
    timed_nodes: 10_000,
};

const GROWTH: Plan<4> = Plan {
    nodes: [1_000, 10_000, 100_000, 1_000_000],
    rounds: 25,
    timed_nodes: 1_000_000,
};

/// Rounds at the start that are not counted.
const UNCOUNTED: usize = 5;

/// The host's whole call: it checks the program, clears the lists before and after, and lowers.
const OURS: usize = 0;
const PUBLISHED: usize = 1;
/// The host's program check by itself.
const CHECK: usize = 2;
const SIDES: usize = 3;

/// A program on both sides, with its memory.
struct Case {
    words: Words,
    program: Published,
    lists: [Vec<u32>; 5],
    nodes: Vec<u32>,
    base_consts: Vec<u64>,
    ext_consts: Vec<u64>,
    roots: Vec<u32>,
}

impl Case {
    fn new(nodes: usize) -> Self {
        let program = realistic(nodes);
        let words = words(&program);
        let lengths = Lengths::of(&words, &blob_words(&DeviceProgram::lower(&program)));
        let list = |len| vec![0; len];
        Case {
            lists: [
                list(lengths.used),
                list(lengths.last_use),
                list(lengths.is_root),
                list(lengths.slot_of),
                list(lengths.free_slots),
            ],
            nodes: list(lengths.nodes),
            base_consts: vec![0; lengths.base_consts],
            ext_consts: vec![0; lengths.ext_consts],
            roots: list(lengths.roots),
            words,
            program,
        }
    }

    fn ours(&mut self) -> BlobCounts {
        let [used, last_use, is_root, slot_of, free_slots] = &mut self.lists;
        let lists = Lists {
            used,
            last_use,
            is_root,
            slot_of,
            free_slots,
        };
        let tables = Rooms {
            nodes: &mut self.nodes,
            base_consts: &mut self.base_consts,
            ext_consts: &mut self.ext_consts,
            roots: &mut self.roots,
        };
        lower::lower(&black_box(&self.words).lend(), lists, tables)
            .expect("the program is well-formed and there is room")
    }

    #[inline(never)]
    fn published(&self) {
        black_box(DeviceProgram::lower(black_box(&self.program)));
    }

    fn check(&self) {
        program::check_program(&black_box(&self.words).lend()).expect("the program is well-formed");
    }

    /// A time says nothing if the sides do different work: they have to make the same blob, but for the constants' words.
    fn compare(&mut self) {
        let counts = self.ours();
        let published = blob_words(&DeviceProgram::lower(&self.program));
        assert_eq!(counts, published.counts);
        assert!(self.nodes == published.nodes && self.roots == published.roots);
    }

    fn run(&mut self, side: usize) {
        match side {
            OURS => _ = self.ours(),
            PUBLISHED => self.published(),
            CHECK => self.check(),
            _ => unreachable!("there are three sides"),
        }
    }
}

/// A program of about so many nodes in the mixture of the walk's programs.
fn realistic(nodes: usize) -> Published {
    // An operation makes up to three nodes, mostly one, so operations are added until there are enough.
    let mut operations = nodes / 2;
    let mut program = mixture(operations);
    while program.len() < nodes {
        operations += 1 + (nodes - program.len()) / 2;
        program = mixture(operations);
    }
    program
}

/// Nanoseconds a node, by side, one for each counted round.
type Times = [Vec<f64>; SIDES];

fn measure<const CASES: usize>(plan: &Plan<CASES>) -> [(Case, Times); CASES] {
    let mut cases = plan.nodes.map(|nodes| (Case::new(nodes), Times::default()));
    for (case, _) in &mut cases {
        case.compare();
    }
    for round in 0..UNCOUNTED + plan.rounds {
        for (case, times) in &mut cases {
            let nodes = case.words.counts.nodes;
            let calls = plan.timed_nodes.div_ceil(nodes);
            for turn in 0..SIDES {
                let side = (round + turn) % SIDES;
                let start = Instant::now();
                for _ in 0..calls {
                    case.run(side);
                }
                let taken = start.elapsed();
                if UNCOUNTED <= round {
                    times[side].push(taken.as_nanos() as f64 / (calls * nodes) as f64);
                }
            }
        }
    }
    cases
}

fn print<const CASES: usize>(plan: &Plan<CASES>) -> Vec<Row> {
    let mut rows = Vec::new();
    println!();
    println!("{} rounds of {} nodes", plan.rounds, plan.timed_nodes);
    for (case, times) in measure(plan) {
        let [ours, published, check] = times.map(Summary::of);
        println!();
        println!(
            "{} nodes, {} of them emitted; {} roots",
            case.words.counts.nodes,
            case.nodes.len() / 4,
            case.roots.len()
        );
        for (name, time) in [("ours", &ours), ("check", &check), ("published", &published)] {
            println!(
                "  {name:<10}{:>8.2} ns a node{:>8.2} best{:>10.1} million nodes/s",
                time.median,
                time.best,
                1e3 / time.median
            );
        }
        println!(
            "  ours {:.2}x published; by the best rounds {:.2}x; check / ours {:.2}",
            published.median / ours.median,
            published.best / ours.best,
            check.median / ours.median
        );
        let what = format!("lowering, {} nodes, {} rounds", case.words.counts.nodes, plan.rounds);
        rows.push(Row::new(what, "a node", &ours, &published));
    }
    rows
}

pub fn run() -> Vec<Row> {
    println!("{}; lowering", cpu_model());
    println!("nanoseconds a node of the program: median and best of the rounds; ratios are of nodes a second");
    println!(
        "ours: one call, which checks the program and clears the lent lists before and after; nothing is allocated"
    );
    println!("check: our program check by itself");
    println!("published: DeviceProgram::lower as published, which checks nothing and allocates its lists and the blob");
    let mut rows = print(&SPEED);
    rows.extend(print(&GROWTH));
    rows
}
