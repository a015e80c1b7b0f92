//! A fixed sample of small blobs with frames and what the check and the walk have to say of them, as lines of numbers: for
//! the Rattle program `blob_cases`, which reads them from its file `stdin`. [`crate::lines`] says what a line is.
//!
//! The numbers of a line, in this order:
//!
//! 1. how many numbers follow on the line;
//! 2. the kind of the line: 1, a blob with a frame; for kind 2 see [`crate::lowering::sample`];
//! 3. the counts: nodes, base constants, extension constants, roots, num_base, base slots, extension slots;
//! 4. the shape: steps, main width, aux width, challenges, alphas;
//! 5. the table offset: three words;
//! 6. how many words of each are lent: nodes, roots, bytes, base constants, extension constants, main cells, aux cells,
//!    challenges, alpha powers, slots, base evals, extension evals; of bytes, how many bytes;
//! 7. what is lent for reading, in the order of 6: all but bytes, slots and evals;
//! 8. the blob check: its answer;
//! 9. the walk: its answer and, if it is 0, the base evals (as many as the smaller of num_base and the root count), three
//!    words for each constraint from num_base on, and the slots: one word a base slot, then three an extension slot.
//!
//! Where a call answers 0, 11 or 12, the bytes are 0 afterwards, one a slot. All else that is lent for writing stays as it
//! was, and so does what is lent past the need.

use host::lent::blob::Written;
use host::lent::program::Shape;

use super::damage::{BIT_31, SHAPE, every_tag};
use super::lease::{Lease, NEEDS, OF_CHECK, OF_WALK};
use super::{BlobWords, published as device};
use crate::P;
use crate::inputs::Random;
use crate::lines::Line;
use crate::lowering::sample as lowering;
use crate::plain::{blob as plain, program as plain_program};
use crate::programs::{Cells, PROVER, published, sample};

/// The same sample in every run.
const SEED: u64 = 0x626C_6F62;

/// Kind 1 of a line.
const BLOB: usize = 1;

/// The programs of the sample of programs, lowered, on the prover's frames: those whose blob has more than one node. E is
/// the first.
fn lowered() -> Vec<Lease> {
    let mut leases = Vec::new();
    for case in sample::cases() {
        if plain_program::check_program(&case.words.lend()).is_err() {
            continue;
        }
        let words = device::lower(&published::program(&case.words));
        if 1 < words.counts.nodes {
            leases.push(Lease::new(words, case.prover));
        }
    }
    leases
}

/// A frame of small words that are all different.
fn counted(shape: Shape) -> Cells {
    let mut last = 0;
    let mut words = |count: usize| {
        let first = last + 1;
        last += count as u64;
        (first..=last).collect()
    };
    Cells {
        shape,
        main: words(shape.steps * shape.main_width),
        aux: words(3 * shape.steps * shape.aux_width),
        challenges: words(3 * shape.challenges),
        alphas: words(3 * shape.alphas),
        table_offset: [7, 8, 9],
    }
}

/// Legal blobs that are each there for something.
fn chosen(random: &mut Random) -> Vec<Lease> {
    let mut leases = vec![
        Lease::new(every_tag(), Cells::random(random, SHAPE, PROVER)),
        // No nodes; the second with constants that nobody reads and slots that nobody fills.
        Lease::new(BlobWords::default(), Cells::default()),
        Lease::new(
            BlobWords::of(&[], &[P], &[[1, 2, 3]], &[], [u32::MAX, 3, 2]),
            counted(SMALL),
        ),
        // The last of 257 columns: the column is not 8 bits.
        Lease::new(
            BlobWords::of(&[[2, 256, 1 << 16, 0]], &[], &[], &[0], [1, 1, 0]),
            counted(Shape {
                steps: 1,
                main_width: 257,
                ..Shape::default()
            }),
        ),
        // Slots of both classes are filled again, after they were read and by a node that reads them.
        Lease::new(
            BlobWords::of(
                &[
                    [0, 0, 0, 0],
                    [9, 0, 0, 1],
                    [0, 1, 0, 0],
                    [8, 0, 1, 0],
                    [10, 0, 0, BIT_31],
                    [6, 1 << 29, 1, BIT_31],
                ],
                &[P - 5, u64::MAX],
                &[],
                &[0, BIT_31, 1],
                [1, 2, 1],
            ),
            counted(SMALL),
        ),
    ];
    // Slots that no node fills, beside one that a node fills; num_base below, between and past the roots.
    for num_base in [0, 1, u32::MAX] {
        let nodes = [[0, 0, 0, 3], [10, 3, 0, 2 | BIT_31]];
        let words = BlobWords::of(&nodes, &[P + 5], &[], &[3, 3], [num_base, 5, 4]);
        leases.push(Lease::new(words, Cells::default()));
    }
    leases
}

/// The frame of blobs that are refused.
const SMALL: Shape = Shape {
    steps: 2,
    main_width: 2,
    aux_width: 1,
    challenges: 1,
    alphas: 1,
};

/// After a main cell in base slot 0 and an aux cell in extension slot 0, a node; there are two slots of each class. The
/// constraints are the two cells, of which the first is base.
fn after_cells(node: [u32; 4]) -> BlobWords {
    BlobWords::of(
        &[[2, 0, 1 << 16, 0], [2, 0, 0, BIT_31], node],
        &[7],
        &[[1, 2, 3]],
        &[0, BIT_31],
        [1, 2, 2],
    )
}

/// Results that a node after the cells may fill.
const BASE: u32 = 1;
const EXT: u32 = BIT_31 | 1;

/// Nodes that are legal after the cells, each with a word of it and with what the word becomes: a step that the rule
/// stops at.
const STOPS: [([u32; 4], usize, u32); 45] = [
    // No such tag; no such kind, on either side.
    ([9, 0, 0, BASE], 0, 11),
    ([6, 0, 0, BASE], 1, 7 << 29),
    ([8, 0, 0, EXT], 2, 7 << 29),
    // A result of the other class than the tag's.
    ([0, 0, 0, BASE], 3, EXT),
    ([1, 0, 0, EXT], 3, BASE),
    ([2, 1, 1 << 16, BASE], 3, EXT),
    ([2, 0, 1 << 8, EXT], 3, BASE),
    ([3, 0, 0, EXT], 3, BASE),
    ([4, 0, 0, EXT], 3, BASE),
    ([5, 0, 0, EXT], 3, BASE),
    ([10, 0, 0, EXT], 3, BASE),
    // A base result of an operand of each extension kind.
    ([6, 0, 0, BASE], 1, 1 << 29),
    ([7, 0, 0, BASE], 2, 3 << 29),
    ([8, 0, 0, BASE], 1, 4 << 29),
    ([6, 0, 0, BASE], 2, 5 << 29),
    ([9, 0, 0, BASE], 1, 6 << 29),
    // A spare bit of each word of a cell, and a row.
    ([2, 1, 1 << 16, BASE], 1, 1 << 16 | 1),
    ([2, 1, 1 << 16, BASE], 2, 1 << 17 | 1 << 16),
    ([2, 0, 1 << 8, EXT], 2, 1 << 8 | 1),
    // A word that the tag does not use.
    ([0, 0, 0, BASE], 2, 1),
    ([1, 0, 0, EXT], 2, 1),
    ([3, 0, 0, EXT], 2, 1),
    ([4, 0, 0, EXT], 2, 1),
    ([5, 0, 0, EXT], 1, 1),
    ([5, 0, 0, EXT], 2, 1),
    ([9, 0, 0, BASE], 2, 1),
    ([10, 0, 0, EXT], 2, 1),
    // The payload of the table offset.
    ([6, 6 << 29, 0, EXT], 1, 6 << 29 | 1),
    // An index outside its table: leaves, cells by column and by step, operands.
    ([0, 0, 0, BASE], 1, 1),
    ([1, 0, 0, EXT], 1, 1),
    ([2, 1, 1 << 16, BASE], 1, 2),
    ([2, 1, 1 << 16, BASE], 2, 1 << 16 | 2 << 8),
    ([2, 0, 0, EXT], 1, 1),
    ([3, 0, 0, EXT], 1, 1),
    ([4, 0, 0, EXT], 1, 1),
    ([6, 2 << 29, 0, BASE], 1, 2 << 29 | 1),
    ([7, 0, 3 << 29, EXT], 2, 3 << 29 | 1),
    ([8, 4 << 29, 0, EXT], 1, 4 << 29 | 1),
    ([6, 0, 5 << 29, EXT], 2, 5 << 29 | 1),
    // A result that is no slot; an operand that is none, and one that nobody filled.
    ([9, 0, 0, BASE], 3, 2),
    ([10, 0, 0, EXT], 3, BIT_31 | 2),
    ([9, 0, 0, BASE], 1, 2),
    ([7, 0, 0, BASE], 2, 1),
    ([9, 1 << 29, 0, EXT], 1, 1 << 29 | 2),
    ([10, 1 << 29, 0, EXT], 1, 1 << 29 | 1),
];

/// Each stop, before the word is changed and after it.
pub fn stops() -> Vec<[Lease; 2]> {
    let lease = |node| Lease::new(after_cells(node), counted(SMALL));
    let stop = |(node, word, new): ([u32; 4], usize, u32)| {
        let mut changed = node;
        changed[word] = new;
        [lease(node), lease(changed)]
    };
    STOPS.map(stop).to_vec()
}

/// Roots at fault, and several things at fault at once: 11 before 12, nodes before roots, the lowest of each.
fn roots_and_places() -> Vec<Lease> {
    let stopped = [11, 0, 0, 0];
    let offset = [5, 0, 0, BIT_31];
    [
        // A root that nobody filled, and one that is no slot, of each class.
        (vec![], vec![0, 1], 0),
        (vec![], vec![0, BIT_31 | 1], 0),
        (vec![], vec![2], 0),
        (vec![], vec![0, 0, BIT_31 | 2], 0),
        // An extension root below num_base: the first, the last, the lowest of two.
        (vec![], vec![BIT_31], 1),
        (vec![], vec![0, 0, BIT_31], 3),
        (vec![], vec![0, BIT_31, BIT_31], u32::MAX),
        // The same, and a later root that nobody filled.
        (vec![], vec![BIT_31, 1], 2),
        // Two nodes and a root.
        (vec![offset, stopped, stopped], vec![1], 0),
        (vec![stopped], vec![BIT_31, 1], 2),
    ]
    .into_iter()
    .map(|(more, roots, num_base): (Vec<[u32; 4]>, Vec<u32>, u32)| {
        let mut nodes = vec![[2, 0, 1 << 16, 0], [2, 0, 0, BIT_31]];
        nodes.extend(more);
        Lease::new(
            BlobWords::of(&nodes, &[], &[], &roots, [num_base, 2, 2]),
            counted(SMALL),
        )
    })
    .collect()
}

/// 2, 1 and 14, and those before 11 and 12.
fn short_or_over() -> Vec<Lease> {
    let legal = Lease::new(after_cells([7, 0, 2 << 29, BASE]), counted(SMALL));
    let illegal = Lease::new(after_cells([7, 0, 7 << 29, BASE]), counted(SMALL));
    // A shape over its limit: one of cells that are all missing, one of uniforms, and one where a node is at fault too.
    let (mut steps, mut alphas, mut columns) = (legal.clone(), legal.clone(), illegal.clone());
    steps.cells.shape.steps = 257;
    steps.cut(5, 0);
    alphas.cells.shape.alphas = 65_537;
    columns.cells.shape.aux_width = 65_537;
    let mut leases = vec![steps, alphas, columns];
    leases.extend((0..OF_WALK).map(|need| legal.short_by_one(need)));
    // What the check needs comes before 11, what the walk needs only does so in the walk.
    leases.extend([OF_CHECK - 1, OF_CHECK].map(|need| illegal.short_by_one(need)));
    leases.extend((OF_WALK..NEEDS.len()).flat_map(|need| [legal.short_by_one(need), illegal.short_by_one(need)]));
    // Counts as large as they can be: one of them, then all. Sums and products of counts must not wrap.
    for count in [0, 6] {
        let mut large = legal.clone();
        *large.words.counts_mut()[count] = u32::MAX;
        leases.push(large);
    }
    let mut large = legal;
    for count in large.words.counts_mut() {
        *count = u32::MAX;
    }
    leases.push(large);
    leases
}

/// Lowered programs and chosen blobs, then what is refused.
pub fn cases() -> Vec<Lease> {
    let mut random = Random::new(SEED);
    let mut leases = lowered();
    leases.extend(chosen(&mut random));
    // Two of three are lent more than they need, but not E.
    for (i, lease) in leases.iter_mut().enumerate() {
        if i % 3 != 0 {
            lease.lengths = lease.lengths.and_more(i % 3);
            lease.words.lengthen(&mut random);
            lease.cells.lengthen(&mut random);
        }
    }
    leases.extend(stops().into_iter().map(|[_, after]| after));
    leases.extend(roots_and_places());
    leases.extend(short_or_over());
    leases
}

/// A case as its line, with the answers of plain arithmetic.
fn line(lease: &Lease) -> String {
    let Lease { words, cells, lengths } = lease;
    let mut line = Line::default();
    line.counts(&[BLOB]);
    let mut counted = words.clone();
    line.short_words(&counted.counts_mut().map(|count| *count));
    line.shape(&cells.shape);
    line.words(&cells.table_offset);
    for need in 0..NEEDS.len() {
        line.counts(&[lease.len(need)]);
    }
    line.short_words(&words.nodes);
    line.short_words(&words.roots);
    for table in [
        &words.base_consts,
        &words.ext_consts,
        &cells.main,
        &cells.aux,
        &cells.challenges,
        &cells.alphas,
    ] {
        line.words(table);
    }

    let (blob, counts) = (words.lend(), &words.counts);
    line.answer(plain::check_blob(&blob, &cells.shape, &mut vec![0; lengths.bytes]));
    let (mut base, mut ext) = (vec![0; lengths.base_evals], vec![0; lengths.ext_evals]);
    let mut slots = vec![0; lengths.slots];
    let written = Written {
        base_evals: &mut base,
        ext_evals: &mut ext,
        bytes: &mut vec![0; lengths.bytes],
        slots: &mut slots,
    };
    if line.answer(plain::walk(&blob, &cells.lend(), written)) {
        line.evals(counts.num_base as usize, counts.roots as usize, &base, &ext);
        line.words(&slots[..counts.slot_words()]);
    }
    line.finish()
}

/// The sample: blobs, then programs to be lowered.
pub fn lines() -> Vec<String> {
    cases().iter().map(line).chain(lowering::lines()).collect()
}
