//! Small legal blobs, and changes to them.

use std::mem;

use host::lent::program::Shape;
use stark::program_e;

use super::BlobWords;
use crate::P;
use crate::inputs::Random;
use crate::programs::build::{Recipe, build};
use crate::programs::sample::stated_case;
use crate::programs::{Cells, PROVER, published};

pub const BIT_31: u32 = 1 << 31;

/// Words that mean something else almost anywhere: counts and tags and their neighbours, limits of columns and of packed
/// cells, every operand kind with small payloads, results and roots of either class.
pub fn hostile_words() -> Vec<u32> {
    let mut words: Vec<u32> = (0..=12).collect();
    // Columns, and the bits of a packed trace cell: row, step, main, and the first spare one.
    for middle in [
        255,
        256,
        257,
        511,
        512,
        513,
        65_535,
        65_536,
        65_537,
        65_792,
        66_048,
        131_071,
        1 << 17,
    ] {
        words.push(middle);
    }
    for kind in 0..8_u32 {
        words.extend((0..4).map(|payload| kind << 29 | payload));
        words.push(kind << 29 | ((1 << 29) - 1));
    }
    words.extend((0..4).map(|slot| BIT_31 | slot));
    words.extend([BIT_31 - 1, u32::MAX - 1, u32::MAX, 0x5555_5555, 0xAAAA_AAAA]);
    words.sort_unstable();
    words.dedup();
    words
}

/// The small frame that most blobs here are for.
pub const SHAPE: Shape = Shape {
    steps: 2,
    main_width: 3,
    aux_width: 2,
    challenges: 2,
    alphas: 1,
};

/// A blob with every tag and every kind of operand, and roots of both classes that are written as each.
pub fn every_tag() -> BlobWords {
    let (base_const, ext_const, challenge, alpha, offset) = (2 << 29, 3 << 29, 4 << 29, 5 << 29, 6 << 29);
    let ext_slot = 1 << 29;
    BlobWords::of(
        &[
            [0, 1, 0, 0],
            [1, 0, 0, BIT_31],
            [2, 2, 1 << 16 | 1 << 8, 1],
            [2, 1, 0, BIT_31 | 1],
            [3, 1, 0, BIT_31 | 2],
            [4, 0, 0, BIT_31 | 3],
            [5, 0, 0, BIT_31 | 4],
            [6, 0, base_const, 2],
            [7, 2, 1, 2],
            [8, ext_slot | 1, ext_const | 1, BIT_31 | 1],
            [6, challenge, alpha, BIT_31 | 5],
            [7, offset, 1, BIT_31 | 5],
            [9, base_const | 1, 0, 0],
            [9, ext_slot | 5, 0, BIT_31],
            [10, 2, 0, BIT_31 | 2],
            [10, ext_slot | 4, 0, BIT_31 | 2],
        ],
        &[P - 1, u64::MAX],
        &[[1, 2, P], [P + 1, 0, 5]],
        &[2, 0, 1, BIT_31, BIT_31 | 2, BIT_31 | 5],
        [2, 3, 6],
    )
}

/// Small legal blobs with frames: E, the one with every tag, and lowered programs of a few nodes.
pub fn small_blobs(random: &mut Random, count: usize, most_nodes: u32) -> Vec<(BlobWords, Cells)> {
    let mut blobs = vec![
        (super::published::lower(&program_e()), stated_case().prover),
        (every_tag(), Cells::random(random, SHAPE, PROVER)),
    ];
    while blobs.len() < count {
        let recipe = Recipe {
            calls: 6 + random.below(8),
            shape: SHAPE,
            row_only: random.once_in(5),
            constraints: 4,
        };
        let mut program = build(random, &recipe);
        program.num_base = published::words(&program).fitting_num_base(random).min(7);
        let words = super::published::lower(&program);
        if words.counts.roots != 0 && (2..=most_nodes).contains(&words.counts.nodes) {
            let cells = Cells::random(random, SHAPE, PROVER);
            blobs.push((words, cells));
        }
    }
    blobs
}

/// Word `at` of nodes and roots becomes `new`; gives what it was.
pub fn set(words: &mut BlobWords, at: usize, new: u32) -> u32 {
    let nodes = words.nodes.len();
    let word = if at < nodes {
        &mut words.nodes[at]
    } else {
        &mut words.roots[at - nodes]
    };
    mem::replace(word, new)
}

/// Up to three changes at once: words, bits, nodes, counts, constants and cells.
pub fn change_some(random: &mut Random, words: &mut BlobWords, cells: &mut Cells) {
    for _ in 0..1 + random.below(3) {
        let len = words.nodes.len() + words.roots.len();
        let at = random.below(len);
        match random.below(10) {
            0 => {
                let old = set(words, at, 0);
                set(words, at, old ^ 1 << random.below(32));
            }
            1..3 => {
                set(words, at, random.pick(&hostile_words()));
            }
            3 => {
                // A word of another place of the same kind: mostly still legal.
                let other = at % 4 + 4 * random.below(words.nodes.len() / 4);
                let word = words.nodes[other];
                set(words, at, word);
            }
            4 => {
                let old = set(words, at, 0);
                set(words, at, old.wrapping_add_signed(random.pick(&[-1, 1])));
            }
            5 => {
                let nodes = words.nodes.len() / 4;
                let (a, b) = (random.below(nodes), random.below(nodes));
                for word in 0..4 {
                    words.nodes.swap(4 * a + word, 4 * b + word);
                }
            }
            6 => words.counts.num_base = random.pick(&[0, 1, 2, 3, u32::MAX]),
            7 => {
                // More slots: what reads one that was not there is then read too early.
                words.counts.base_slots += random.below(3) as u32;
                words.counts.ext_slots += random.below(3) as u32;
            }
            8 => {
                let table = random.pick(&[0, 1, 2]);
                let table = [&mut words.base_consts, &mut words.ext_consts, &mut cells.main]
                    .into_iter()
                    .nth(table)
                    .expect("there are three");
                if !table.is_empty() {
                    let at = random.below(table.len());
                    table[at] = random.pick(&[0, 1, P - 1, P, P + 1, u64::MAX]);
                }
            }
            _ => {
                // A tag that takes the same operands.
                let node = random.below(words.nodes.len() / 4);
                let tag = words.nodes[4 * node];
                words.nodes[4 * node] = match tag {
                    6..=8 => random.pick(&[6, 7, 8]),
                    9 | 10 => random.pick(&[9, 10]),
                    _ => random.pick(&[0, 1, 2, 3, 4, 5, tag]),
                };
            }
        }
    }
}
