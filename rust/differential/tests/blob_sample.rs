//! The printed sample of blobs and of programs to be lowered: its lines hold what their description says, the host gives the answers in them, and the
//! Rattle program that replays it reads the same lines.

#![forbid(unsafe_code)]

use std::collections::BTreeSet;

use differential::Score;
use differential::blobs::agree::agree;
use differential::blobs::sample::{cases, lines, stops};
use differential::blobs::{BlobWords, Lengths};
use differential::lines::{Numbers, file_has};
use differential::lowering::agree::{Case, agree as lowering_agrees};
use differential::lowering::{self, compare, sample};
use differential::programs::compare::Answer;
use differential::programs::{Cells, Words, published};
use host::Refusal;
use host::lent::blob::{BlobCounts, Written, check_blob, walk};
use host::lent::lower::{Lists, Rooms, Sizes, lower_into};
use host::lent::program::Counts;

/// What is lent for writing holds this beforehand: no call writes it.
const KEPT: u64 = u64::MAX;
const KEPT_SHORT: u32 = u32::MAX;
const KEPT_BYTE: u8 = 7;

/// A line of kind 1 up to its answers.
fn read(numbers: &mut Numbers) -> (BlobWords, Cells, Lengths) {
    let counts = BlobCounts {
        nodes: numbers.short(),
        base_consts: numbers.short(),
        ext_consts: numbers.short(),
        roots: numbers.short(),
        num_base: numbers.short(),
        base_slots: numbers.short(),
        ext_slots: numbers.short(),
    };
    let (shape, table_offset) = (numbers.shape(), numbers.limbs());
    let [nodes, roots, bytes] = [numbers.count(), numbers.count(), numbers.count()];
    let [base_consts, ext_consts] = [numbers.count(), numbers.count()];
    let [main, aux] = [numbers.count(), numbers.count()];
    let [challenges, alphas] = [numbers.count(), numbers.count()];
    let lengths = Lengths {
        bytes,
        slots: numbers.count(),
        base_evals: numbers.count(),
        ext_evals: numbers.count(),
    };
    let words = BlobWords {
        counts,
        nodes: numbers.short_words(nodes),
        roots: numbers.short_words(roots),
        base_consts: numbers.words(base_consts),
        ext_consts: numbers.words(ext_consts),
    };
    let cells = Cells {
        shape,
        main: numbers.words(main),
        aux: numbers.words(aux),
        challenges: numbers.words(challenges),
        alphas: numbers.words(alphas),
        table_offset,
    };
    (words, cells, lengths)
}

/// What the lent bytes have to hold.
fn bytes_after(answer: Answer, counts: &BlobCounts, lent: usize) -> Vec<u8> {
    let mut bytes = vec![KEPT_BYTE; lent];
    if answer.map_or_else(|refusal| [11, 12].contains(&refusal.number), |()| true) {
        bytes[..counts.bytes()].fill(0);
    }
    bytes
}

/// A line of kind 1: the check and the walk.
#[track_caller]
fn blob(numbers: &mut Numbers, answered: &mut BTreeSet<u8>, what: &str) {
    let (words, cells, lengths) = read(numbers);
    let (lent, counts) = (words.lend(), &words.counts);

    let mut bytes = vec![KEPT_BYTE; lengths.bytes];
    let answer = check_blob(&lent, &cells.shape, &mut bytes);
    numbers.answer(answer, answered, what);
    assert_eq!(bytes, bytes_after(answer, counts, lengths.bytes), "{what}");

    let mut bytes = vec![KEPT_BYTE; lengths.bytes];
    let (mut base, mut ext) = (vec![KEPT; lengths.base_evals], vec![KEPT; lengths.ext_evals]);
    let mut slots = vec![KEPT; lengths.slots];
    let written = Written {
        base_evals: &mut base,
        ext_evals: &mut ext,
        bytes: &mut bytes,
        slots: &mut slots,
    };
    let answer = walk(&lent, &cells.lend(), written);
    let (mut base_after, mut ext_after) = (vec![KEPT; lengths.base_evals], vec![KEPT; lengths.ext_evals]);
    let mut slots_after = vec![KEPT; lengths.slots];
    if numbers.answer(answer, answered, what) {
        let roots = counts.roots as usize;
        let leading = roots.min(counts.num_base as usize);
        base_after[..leading].copy_from_slice(&numbers.words(leading));
        if leading < roots {
            ext_after[3 * leading..3 * roots].copy_from_slice(&numbers.words(3 * (roots - leading)));
        }
        let used = counts.base_slots as usize + 3 * counts.ext_slots as usize;
        slots_after[..used].copy_from_slice(&numbers.words(used));
    }
    assert_eq!((base, ext, slots), (base_after, ext_after, slots_after), "{what}");
    assert_eq!(bytes, bytes_after(answer, counts, lengths.bytes), "{what}");
}

/// A line of kind 2 up to its answer.
fn read_program(numbers: &mut Numbers) -> (Words, lowering::Lengths) {
    let counts = Counts {
        nodes: numbers.count(),
        base_consts: numbers.count(),
        ext_consts: numbers.count(),
        roots: numbers.count(),
        num_base: numbers.count(),
    };
    let [nodes, base_consts] = [numbers.count(), numbers.count()];
    let [ext_consts, roots] = [numbers.count(), numbers.count()];
    let lengths = lowering::Lengths {
        used: numbers.count(),
        last_use: numbers.count(),
        is_root: numbers.count(),
        slot_of: numbers.count(),
        free_slots: numbers.count(),
        nodes: numbers.count(),
        base_consts: numbers.count(),
        ext_consts: numbers.count(),
        roots: numbers.count(),
    };
    let words = Words {
        counts,
        nodes: numbers.short_words(nodes),
        base_consts: numbers.words(base_consts),
        ext_consts: numbers.words(ext_consts),
        roots: numbers.short_words(roots),
    };
    (words, lengths)
}

/// What lowering is lent for writing.
#[derive(Clone, Debug, PartialEq)]
struct Memory {
    lists: [Vec<u32>; 5],
    nodes: Vec<u32>,
    base_consts: Vec<u64>,
    ext_consts: Vec<u64>,
    roots: Vec<u32>,
    sizes: Sizes,
}

impl Memory {
    fn kept(lengths: &lowering::Lengths) -> Self {
        let shorts = |len| vec![KEPT_SHORT; len];
        Memory {
            lists: [
                shorts(lengths.used),
                shorts(lengths.last_use),
                shorts(lengths.is_root),
                shorts(lengths.slot_of),
                shorts(lengths.free_slots),
            ],
            nodes: shorts(lengths.nodes),
            base_consts: vec![KEPT; lengths.base_consts],
            ext_consts: vec![KEPT; lengths.ext_consts],
            roots: shorts(lengths.roots),
            sizes: Sizes {
                nodes: KEPT_SHORT,
                base_slots: KEPT_SHORT,
                ext_slots: KEPT_SHORT,
            },
        }
    }

    fn lower(&mut self, words: &Words) -> Answer {
        let [used, last_use, is_root, slot_of, free_slots] = &mut self.lists;
        let lists = Lists {
            used,
            last_use,
            is_root,
            slot_of,
            free_slots,
        };
        let tables = Rooms {
            nodes: &mut self.nodes,
            base_consts: &mut self.base_consts,
            ext_consts: &mut self.ext_consts,
            roots: &mut self.roots,
        };
        lower_into(&words.lend(), lists, tables, &mut self.sizes)
    }
}

/// A line of kind 2: lowering.
#[track_caller]
fn lowered(numbers: &mut Numbers, answered: &mut BTreeSet<u8>, what: &str) {
    let (words, lengths) = read_program(numbers);
    let mut memory = Memory::kept(&lengths);
    let mut after = memory.clone();
    let answer = memory.lower(&words);
    let counts = &words.counts;
    if answer.map_or_else(|refusal| refusal.number == 10, |()| true) {
        for (list, a_node) in after.lists.iter_mut().zip([1, 1, 1, 1, 2]) {
            list[..a_node * counts.nodes].fill(0);
        }
    }
    if numbers.answer(answer, answered, what) {
        after.sizes = Sizes {
            nodes: numbers.short(),
            base_slots: numbers.short(),
            ext_slots: numbers.short(),
        };
        let node_words = 4 * after.sizes.nodes as usize;
        after.nodes[..node_words].copy_from_slice(&numbers.short_words(node_words));
        after.base_consts[..counts.base_consts].copy_from_slice(&numbers.words(counts.base_consts));
        after.ext_consts[..3 * counts.ext_consts].copy_from_slice(&numbers.words(3 * counts.ext_consts));
        after.roots[..counts.roots].copy_from_slice(&numbers.short_words(counts.roots));
    }
    assert_eq!(memory, after, "{what}");
}

#[test]
fn host_gives_the_sample() {
    let lines = lines();
    let mut answered = [BTreeSet::new(), BTreeSet::new()];
    let mut counted = [0, 0];
    for (at, line) in lines.iter().enumerate() {
        let what = &format!("case {at}: {line}");
        let mut numbers = Numbers::of(line);
        let kind = numbers.count();
        match kind {
            1 => blob(&mut numbers, &mut answered[0], what),
            2 => lowered(&mut numbers, &mut answered[1], what),
            _ => panic!("no kind of a line, {what}"),
        }
        counted[kind - 1] += 1;
        numbers.end(what);
    }
    println!(
        "the sample of blobs: {} cases with answers {:?}",
        counted[0], answered[0]
    );
    println!(
        "the sample of lowering: {} cases with answers {:?}",
        counted[1], answered[1]
    );
    assert_eq!(answered[0], BTreeSet::from([0, 1, 2, 11, 12, 14]));
    assert_eq!(answered[1], BTreeSet::from([0, 1, 7, 8, 9, 10]));
}

/// The first line is program E as the scope document lists it, with the evals that it says.
#[test]
fn program_e_comes_first() {
    let parts = [
        "94 1",
        "7 2 0 2 1 2 1",
        "2 1 3 1 0",
        "0 0 0",
        "28 2 3 2 0 2 18 3 0 5 1 6",
        "2 0 65536 0",
        "2 0 65792 1",
        "7 1 0 0",
        "7 0 1073741825 0",
        "2 2 0 2147483648",
        "8 536870912 2147483648 2147483648",
        "6 536870912 0 2147483648",
        "0 2147483648",
        "0 1",
        "5 9",
        "0 0 0 0 0 0 1 2 3 0 0 0 0 0 0 0 0 0",
        "4 5 6",
        "0",
        "0 3 61 49 28 3 9 61 49 28",
    ];
    assert_eq!(lines()[0], parts.join(" "));
}

/// The Rattle program that replays the sample has it in a file of its own.
#[test]
fn blob_cases_has_the_sample() {
    let (file, kept) = (
        "crates/blob_cases/stdin",
        include_str!("../../../crates/blob_cases/stdin"),
    );
    file_has(file, kept, &lines(), "blob_sample");
}

/// The answers in the sample are those of plain arithmetic; here the published walk confirms those that are values.
#[test]
fn published_walk_confirms_the_sample() {
    let mut score = Score::new("the sample of blobs");
    for (at, case) in cases().iter().enumerate() {
        let what = format_args!("case {at}");
        if case.run(&mut score, what) == [Ok(()); 2] {
            agree(&mut score, &case.words, &case.cells, 0, what);
        }
    }
    assert!(20 <= score.agreed);
    score.finish(&[0, 1, 2, 11, 12, 14]);
}

/// A blob that stops by its last node is one word away from a legal one.
#[test]
fn one_word_stops_a_blob() {
    let mut score = Score::new("stops of the sample");
    for (at, [before, after]) in stops().iter().enumerate() {
        let what = format_args!("stop {at}");
        assert_eq!(before.run(&mut score, what), [Ok(()); 2], "{what}");
        let stopped = Err(Refusal { number: 11, place: 2 });
        assert_eq!(after.run(&mut score, what), [stopped; 2], "{what}");
        let changed = before
            .words
            .nodes
            .iter()
            .zip(&after.words.nodes)
            .filter(|(a, b)| a != b)
            .count();
        assert_eq!(changed, 1, "{what}");
    }
    score.finish(&[0, 11]);
}

/// E's line of lowering: its nodes as the builder makes them, and its blob as the scope document lists it.
#[test]
fn program_e_is_lowered_first() {
    let parts = [
        "99 2",
        "10 2 0 2 1",
        "40 2 0 2 10 10 10 10 20 28 2 0 2",
        "0 0 0 0",
        "2 0 65536 0",
        "2 0 65792 0",
        "7 2 1 0",
        "0 1 0 0",
        "7 3 4 0",
        "2 2 0 1",
        "3 0 0 1",
        "8 6 7 1",
        "6 8 5 1",
        "0 1",
        "5 9",
        "0 7 2 1",
        "2 0 65536 0",
        "2 0 65792 1",
        "7 1 0 0",
        "7 0 1073741825 0",
        "2 2 0 2147483648",
        "8 536870912 2147483648 2147483648",
        "6 536870912 0 2147483648",
        "0 1",
        "0 2147483648",
    ];
    assert_eq!(sample::lines()[0], parts.join(" "));
}

/// The published `lower` confirms the blobs in the sample; the answers are those of the plain reading.
#[test]
fn published_lower_confirms_the_sample() {
    let mut score = Score::new("the sample of lowering");
    for (at, lowering::Lease { words, lengths }) in sample::cases().iter().enumerate() {
        let what = format_args!("case {at}");
        if compare::lower(&mut score, words, *lengths, what).answer.is_ok() {
            let program = &published::program(words);
            lowering_agrees(&mut score, Case { words, program }, 0, what);
        }
    }
    assert!(20 <= score.agreed);
    score.finish(&[0, 1, 7, 8, 9, 10]);
}
