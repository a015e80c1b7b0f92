//! Small programs, all of them: the check of the host against plain arithmetic on every program over small sets of
//! words, and every well-formed one among them in all five calls.

#![forbid(unsafe_code)]

use differential::inputs::Random;
use differential::plain;
use differential::programs::agree::{Case, agree};
use differential::programs::compare::Answer;
use differential::programs::{Cells, PROVER, VERIFIER, Words, published};
use differential::{P, Score};
use host::lent::program::{Counts, Program, Shape, check_program};

type Node = [u32; 4];

/// Two base constants and one extension constant, of no interest here.
const BASE_CONSTS: [u64; 2] = [7, u64::MAX];
const EXT_CONSTS: [u64; 3] = [P, 2, 3];

/// Counts the programs that were checked, and those that passed.
#[derive(Default)]
struct Seen {
    programs: u64,
    well_formed: u64,
}

impl Seen {
    /// Checks a program on both sides.
    #[track_caller]
    fn check(&mut self, nodes: &[Node], roots: &[u32], base_consts: usize, ext_consts: usize) -> Answer {
        let program = Program {
            counts: Counts {
                nodes: nodes.len(),
                base_consts,
                ext_consts,
                roots: roots.len(),
                num_base: 1,
            },
            nodes: nodes.as_flattened(),
            base_consts: &BASE_CONSTS[..base_consts],
            ext_consts: &EXT_CONSTS[..3 * ext_consts],
            roots,
        };
        let ours = check_program(&program);
        let plain = plain::program::check_program(&program);
        assert_eq!(ours, plain, "the answers, ours and plain, for {program:?}");
        self.programs += 1;
        self.well_formed += u64::from(ours.is_ok());
        ours
    }

    fn say(&self, test: &str) {
        println!(
            "{test}: {} programs, {} of them well-formed",
            self.programs, self.well_formed
        );
    }
}

/// The nodes of the small set: tags 0 to 12, operands 0 to 3, dims 0 to 2. A cell's y is one of two steps of either
/// trace, or has a row.
fn small_nodes() -> Vec<Node> {
    let mut nodes = Vec::new();
    for tag in 0..=12 {
        for x in 0..=3 {
            for y in if tag == 2 {
                [0, 1, 0x100, 0x1_0000]
            } else {
                [0, 1, 2, 3]
            } {
                nodes.extend([0, 1, 2].map(|dim| [tag, x, y, dim]));
            }
        }
    }
    nodes
}

/// One node: every single bit of x and y, every pair of a few others, for all sizes of the two tables of constants.
#[test]
fn every_program_of_one_node() {
    let mut seen = Seen::default();
    let mut words = vec![0, 3, 65_535, u32::MAX];
    words.extend((0..32).map(|bit| 1 << bit));
    let mut packed = words.clone();
    // A cell of the main trace, its last step, and each bit besides.
    packed.extend([0x1_FF00, 0xFF00, 0x1_0100, 0x1_FFFF, 0x2_FF00]);
    packed.extend((0..32).map(|bit| 0x1_0000 | 1 << bit));
    for base_consts in 0..=2 {
        for ext_consts in 0..=1 {
            for tag in (0..=12).chain([255, 256, 1 << 16, u32::MAX]) {
                for x in &words {
                    for y in &packed {
                        for dim in [0, 1, 2, 256, u32::MAX] {
                            let _ = seen.check(&[[tag, *x, *y, dim]], &[0], base_consts, ext_consts);
                        }
                    }
                }
            }
        }
    }
    seen.say("every program of one node");
}

/// All programs of one and two nodes over the small set, and of three nodes where the first is well-formed. Where it is
/// not, or the build is not optimised, every first and second node with a few third ones.
#[test]
fn every_program_of_up_to_three_nodes() {
    let nodes = small_nodes();
    let few = [[0, 0, 0, 0], [2, 3, 0x100, 1], [6, 0, 1, 0], [12, 0, 0, 2]];
    let mut seen = Seen::default();
    let _ = seen.check(&[], &[], 2, 1);
    for first in &nodes {
        let fine = seen.check(&[*first], &[0], 2, 1).is_ok() && !cfg!(debug_assertions);
        for second in &nodes {
            let _ = seen.check(&[*first, *second], &[1], 2, 1);
            for third in if fine { &nodes[..] } else { &few[..] } {
                let _ = seen.check(&[*first, *second, *third], &[2, 0], 2, 1);
            }
        }
    }
    seen.say("every program of up to three nodes");
}

/// All programs of three nodes over the small set, 243 million of them.
#[test]
#[ignore = "a quarter of a minute"]
fn every_program_of_three_nodes() {
    let nodes = small_nodes();
    let mut seen = Seen::default();
    for first in &nodes {
        for second in &nodes {
            for third in &nodes {
                let _ = seen.check(&[*first, *second, *third], &[2, 0], 2, 1);
            }
        }
    }
    seen.say("every program of three nodes");
}

/// All lists of up to three roots over a few words, for programs of up to three nodes.
#[test]
fn every_list_of_roots() {
    let nodes = [[0, 0, 0, 0], [5, 0, 0, 1], [8, 0, 1, 1]];
    let roots = [0, 1, 2, 3, 4, 256, 1 << 16, 1 << 31, u32::MAX];
    let mut seen = Seen::default();
    for n in 0..=3 {
        let _ = seen.check(&nodes[..n], &[], 2, 1);
        for a in roots {
            let _ = seen.check(&nodes[..n], &[a], 2, 1);
            for b in roots {
                let _ = seen.check(&nodes[..n], &[a, b], 2, 1);
                for c in roots {
                    let _ = seen.check(&nodes[..n], &[a, b, c], 2, 1);
                }
            }
        }
    }
    seen.say("every list of roots");
}

/// Every well-formed program of one to three nodes over the small set, in all five calls and against the published Rust.
/// Every node is a constraint.
#[test]
fn every_small_well_formed_program_evaluated() {
    const SEED: u64 = 0x736D_616C;
    let mut random = Random::new(SEED);
    let mut score = Score::new("every well-formed program of up to three nodes");
    let shape = Shape {
        steps: 2,
        main_width: 4,
        aux_width: 4,
        challenges: 4,
        alphas: 4,
    };
    let (prover, verifier) = (
        Cells::random(&mut random, shape, PROVER),
        Cells::random(&mut random, shape, VERIFIER),
    );
    let mut seen = Seen::default();
    let mut evaluate = |nodes: &[Node]| {
        let mut words = Words {
            counts: Counts {
                nodes: nodes.len(),
                base_consts: BASE_CONSTS.len(),
                ext_consts: EXT_CONSTS.len() / 3,
                roots: nodes.len(),
                num_base: 0,
            },
            nodes: nodes.concat(),
            base_consts: BASE_CONSTS.to_vec(),
            ext_consts: EXT_CONSTS.to_vec(),
            roots: (0..nodes.len() as u32).collect(),
        };
        words.counts.num_base = words.leading_base_roots();
        let case = Case {
            words: &words,
            program: &published::program(&words),
            prover: &prover,
            verifier: &verifier,
        };
        assert!(agree(
            &mut score,
            &mut random,
            &case,
            format_args!("{nodes:?} of seed {SEED:#x}")
        ));
    };
    let all = small_nodes();
    let mut well_formed = |nodes: &[Node]| seen.check(nodes, &[], 2, 1).is_ok();
    for first in all.iter().filter(|node| node[3] < 2) {
        if !well_formed(&[*first]) {
            continue;
        }
        evaluate(&[*first]);
        for second in &all {
            if !well_formed(&[*first, *second]) {
                continue;
            }
            evaluate(&[*first, *second]);
            for third in &all {
                if well_formed(&[*first, *second, *third]) {
                    evaluate(&[*first, *second, *third]);
                }
            }
        }
    }
    assert_eq!(score.agreed, seen.well_formed);
    score.finish(&[0, 12, 13]);
}
