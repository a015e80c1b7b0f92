//! A fixed sample of small programs and what lowering has to say of them, as lines of numbers: for the Rattle program
//! `blob_cases`, which reads them from its file `stdin`, after those of blobs. [`crate::lines`] says what a line is.
//!
//! The numbers of a line, in this order:
//!
//! 1. how many numbers follow on the line;
//! 2. the kind of the line: 2, a program to be lowered;
//! 3. the counts: nodes, base constants, extension constants, roots, num_base;
//! 4. how many words of each are lent: nodes, base constants, extension constants, roots, used, last_use, is_root, slot_of,
//!    free_slots, and for the blob nodes, base constants, extension constants, roots;
//! 5. the program: what is lent for reading, in the order of 4;
//! 6. the answer and, if it is 0, the blob: its nodes, base slots and extension slots, then four words for each of its
//!    nodes, its base constants, three words for each of its extension constants, its roots.
//!
//! Where the answer is 0 or 10, the lists are 0 afterwards: a word a node, two of free_slots. All else that is lent for
//! writing stays as it was, and so does what is lent past the need.

use host::lent::lower::{Lists, Rooms, Sizes};
use stark::program_e;

use super::{Lease, NEEDS, OF_INPUT};
use crate::P;
use crate::blobs::published::lower;
use crate::inputs::Random;
use crate::lines::Line;
use crate::plain::lower as plain;
use crate::programs::sample::{built, raw};
use crate::programs::{Words, foreign, published, small_shape};

/// The same sample in every run.
const SEED: u64 = 0x6C6F_7773;

/// Kind 2 of a line.
const LOWERED: usize = 2;

/// A well-formed program and exactly what it needs.
fn exact(words: Words) -> Lease {
    let blob = lower(&published::program(&words));
    Lease::new(words, &blob)
}

/// A main cell and an aux cell of this column.
fn main(column: u32) -> [u32; 4] {
    [2, column, 1 << 16, 0]
}

fn aux(column: u32) -> [u32; 4] {
    [2, column, 0, 1]
}

const OFFSET: [u32; 4] = [5, 0, 0, 1];

/// Programs that are each there for something, E first.
fn chosen() -> Vec<Words> {
    let nodes = |nodes: &[[u32; 4]], roots: &[u32]| raw(nodes, &[], &[], roots, 0);
    vec![
        published::words(&program_e()),
        raw(&[], &[], &[], &[], 0),
        raw(&[], &[P, u64::MAX], &[[P + 1, 2, P - 1]], &[], 4_294_967_295),
        // emit(2) alone: roots 0, 0 and the node; node 0 gets a slot.
        built(3, |b| {
            let cell = b.main(0, 0);
            b.emit(2, cell);
        }),
        // A cell whose only reader is dead is emitted, and its slot is never used again.
        nodes(&[main(0), [9, 0, 0, 0], main(1)], &[2]),
        // The dead reader comes after a live one; then a chain of which only the last is dead.
        nodes(&[main(0), [9, 0, 0, 0], [6, 0, 0, 0], main(1)], &[1, 3]),
        nodes(&[aux(0), [9, 0, 0, 1], [9, 1, 0, 1], aux(1), [7, 3, 2, 1]], &[3]),
        // A cell that nobody reads; and readers with no root at all.
        nodes(&[main(0), main(1)], &[1]),
        nodes(&[main(0), aux(0), [8, 0, 1, 1], [9, 2, 0, 1]], &[]),
        // The same operand twice is freed once; the next two take that slot and a new one.
        nodes(&[main(0), [8, 0, 0, 0], main(1), main(2)], &[1, 2, 3]),
        // Two operands are freed, the first then the second: the result takes the second's slot, the next the first's.
        nodes(&[main(0), main(1), [7, 0, 1, 0], main(2)], &[2, 3]),
        nodes(&[aux(0), aux(1), aux(2), [7, 1, 0, 1], aux(3), aux(4)], &[2, 3, 4, 5]),
        // A uniform leaf of each kind as operand; as root; as both.
        raw(
            &[
                [0, 0, 0, 0],
                [1, 0, 0, 1],
                [3, 7, 0, 1],
                [4, 65_535, 0, 1],
                OFFSET,
                [6, 0, 1, 1],
                [7, 2, 3, 1],
                [8, 4, 0, 1],
            ],
            &[3],
            &[[4, 5, 6]],
            &[5, 6, 7],
            0,
        ),
        raw(
            &[[0, 0, 0, 0], [1, 0, 0, 1], [3, 7, 0, 1], [4, 65_535, 0, 1], OFFSET],
            &[3],
            &[[4, 5, 6]],
            &[4, 3, 2, 1, 0],
            0,
        ),
        raw(&[[0, 0, 0, 0], OFFSET, [6, 0, 1, 1]], &[3], &[], &[0, 1, 2, 1], 1),
        // Slots of both classes are used again, each its own: sums of cells of both traces, an embedding between.
        nodes(
            &[
                main(0),
                aux(0),
                [9, 0, 0, 0],
                [9, 1, 0, 1],
                [10, 2, 0, 1],
                main(1),
                [6, 4, 3, 1],
                [6, 5, 6, 1],
                [10, 7, 0, 1],
            ],
            &[8],
        ),
        // A root that is read later keeps its slot; a root that stands twice.
        nodes(&[main(0), [9, 0, 0, 0], [9, 1, 0, 0], [9, 2, 0, 0]], &[1, 3, 1]),
        // Equal nodes apart, constants equal and unused; the last column and step.
        raw(
            &[
                [0, 1, 0, 0],
                [0, 1, 0, 0],
                [8, 0, 1, 0],
                [8, 0, 1, 0],
                [2, 65_535, 1 << 16 | 255 << 8, 0],
            ],
            &[P, u64::MAX, P],
            &[[P, P, P]],
            &[2, 3, 4],
            3,
        ),
    ]
}

/// Something of every table, and fewer nodes in the blob than in the program.
fn something_of_each() -> Words {
    raw(
        &[main(0), [0, 0, 0, 0], [6, 0, 1, 0], [1, 0, 0, 1], [8, 2, 3, 1]],
        &[P],
        &[[1, P, 3]],
        &[4, 2],
        0,
    )
}

/// What is refused: each number, in each way that is small, and each before the next in the order.
fn refused() -> Vec<Lease> {
    let legal = exact(something_of_each());
    let mut ill = legal.clone();
    ill.words.nodes[4 * 2 + 1] = 2;
    let mut leases: Vec<Lease> = (0..NEEDS.len()).map(|need| legal.short_by_one(need)).collect();
    // 1 before 7, 7 before 10.
    leases.extend([OF_INPUT - 1, OF_INPUT, NEEDS.len() - 1].map(|need| ill.short_by_one(need)));
    // The lowest node; the lowest root where no node is at fault, and a node though a root is too.
    let mut root = legal.clone();
    root.words.roots[1] = 5;
    let mut both = root.clone();
    both.words.nodes[4 * 4] = 11;
    leases.extend([ill, root, both]);
    // Counts at their limits and one over: 1, then 8 or 9; 8 before 9.
    for nodes in [536_870_911, 536_870_912] {
        let mut large = legal.clone();
        large.words.counts.nodes = nodes;
        leases.push(large);
    }
    let mut large = legal.clone();
    large.words.counts.num_base = 4_294_967_296;
    leases.push(large.clone());
    large.words.counts.base_consts = 536_870_912;
    leases.push(large);
    let mut large = legal;
    large.words.counts.roots = 4_294_967_296;
    leases.push(large);
    leases
}

/// Chosen programs and random ones, of which two of three are lent more than they need, then what is refused.
pub fn cases() -> Vec<Lease> {
    let mut random = Random::new(SEED);
    let mut programs = chosen();
    for nodes in 10..14 {
        let shape = small_shape(&mut random);
        let counts = host::lent::program::Counts {
            nodes,
            base_consts: 2,
            ext_consts: 1,
            roots: 3,
            num_base: 0,
        };
        programs.push(foreign::well_formed(&mut random, counts, &shape, 4));
    }
    let mut leases: Vec<Lease> = programs.into_iter().map(exact).collect();
    for (i, lease) in leases.iter_mut().enumerate() {
        if i % 3 != 0 {
            lease.lengths = lease.lengths.and_more(i);
            lease.words.lengthen(&mut random);
        }
    }
    leases.extend(refused());
    leases
}

/// A case as its line, with the answer of the plain reading.
fn line(lease: &Lease) -> String {
    let mut lease = lease.clone();
    let mut line = Line::default();
    let counts = lease.words.counts;
    line.counts(&[
        LOWERED,
        counts.nodes,
        counts.base_consts,
        counts.ext_consts,
        counts.roots,
        counts.num_base,
    ]);
    for need in 0..NEEDS.len() {
        line.counts(&[lease.len(need)]);
    }
    let Lease { words, lengths } = lease;
    line.short_words(&words.nodes);
    line.words(&words.base_consts);
    line.words(&words.ext_consts);
    line.short_words(&words.roots);

    let list = |len: usize| vec![0; len];
    let lists = Lists {
        used: &mut list(lengths.used),
        last_use: &mut list(lengths.last_use),
        is_root: &mut list(lengths.is_root),
        slot_of: &mut list(lengths.slot_of),
        free_slots: &mut list(lengths.free_slots),
    };
    let (mut nodes, mut roots) = (list(lengths.nodes), list(lengths.roots));
    let (mut base_consts, mut ext_consts) = (vec![0; lengths.base_consts], vec![0; lengths.ext_consts]);
    let tables = Rooms {
        nodes: &mut nodes,
        base_consts: &mut base_consts,
        ext_consts: &mut ext_consts,
        roots: &mut roots,
    };
    let mut sizes = Sizes::default();
    if line.answer(plain::lower(&words.lend(), lists, tables, &mut sizes)) {
        line.short_words(&[sizes.nodes, sizes.base_slots, sizes.ext_slots]);
        line.short_words(&nodes[..4 * sizes.nodes as usize]);
        line.words(&base_consts[..counts.base_consts]);
        line.words(&ext_consts[..3 * counts.ext_consts]);
        line.short_words(&roots[..counts.roots]);
    }
    line.finish()
}

/// The lines of lowering.
pub fn lines() -> Vec<String> {
    cases().iter().map(line).collect()
}
