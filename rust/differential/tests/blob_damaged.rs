//! Blobs with something changed: the answer, with its place, and every lent word as the plain reading has them; where the
//! answer is 0, the values of the published walk.

#![forbid(unsafe_code)]

use std::fmt::Arguments;

use differential::blobs::agree::agree;
use differential::blobs::damage::{BIT_31, SHAPE, change_some, hostile_words, set, small_blobs};
use differential::blobs::lease::{Lease, NEEDS};
use differential::blobs::{BlobWords, Lengths, compare};
use differential::inputs::Random;
use differential::programs::{Cells, PROVER};
use differential::{P, Score};

/// So many where the build is optimised, else a few of them.
const fn many(blobs: usize) -> usize {
    if cfg!(debug_assertions) { blobs / 10 } else { blobs }
}

/// Compares a blob in both calls, and counts it.
#[track_caller]
fn compared(score: &mut Score, count: &mut u64, words: &BlobWords, cells: &Cells, what: Arguments<'_>) {
    let more = (*count % 3) as usize;
    agree(score, words, cells, more, what);
    *count += 1;
}

/// What a blob and its frame were before something was changed.
type Before = (BlobWords, Cells);

/// Compares a changed blob, and counts it. What comes out as it was is left out.
#[track_caller]
fn damaged(
    score: &mut Score,
    count: &mut u64,
    before: &Before,
    (words, cells): (&BlobWords, &Cells),
    what: Arguments<'_>,
) {
    if (words, cells) != (&before.0, &before.1) {
        compared(score, count, words, cells, what);
    }
}

#[track_caller]
fn said(score: Score, test: &str, count: u64, numbers: &[usize]) {
    println!("{test}: {count} blobs");
    score.finish(numbers);
}

/// Every word of nodes and roots to each hostile word.
#[test]
fn single_words() {
    const SEED: u64 = 0x6461_6D31;
    let mut random = Random::new(SEED);
    let mut score = Score::new("single words");
    let mut count = 0;
    let hostile = hostile_words();
    for (i, before) in small_blobs(&mut random, many(250), 12).iter().enumerate() {
        let (words, cells) = before;
        let mut changed = words.clone();
        for at in 0..words.nodes.len() + words.roots.len() {
            for new in &hostile {
                let old = set(&mut changed, at, *new);
                let what = format_args!("blob {i} of seed {SEED:#x}, word {at} from {old:#x} to {new:#x}");
                damaged(&mut score, &mut count, before, (&changed, cells), what);
                set(&mut changed, at, old);
            }
        }
    }
    assert!(cfg!(debug_assertions) || 100_000 <= count);
    said(score, "single words", count, &[0, 11, 12]);
}

/// Every single bit of nodes and roots.
#[test]
fn single_bits() {
    const SEED: u64 = 0x6461_6D32;
    let mut random = Random::new(SEED);
    let mut score = Score::new("single bits");
    let mut count = 0;
    for (i, before) in small_blobs(&mut random, many(250), 12).iter().enumerate() {
        let (words, cells) = before;
        let mut changed = words.clone();
        for at in 0..words.nodes.len() + words.roots.len() {
            for bit in 0..32 {
                let old = set(&mut changed, at, 0);
                set(&mut changed, at, old ^ 1 << bit);
                let what = format_args!("blob {i} of seed {SEED:#x}, bit {bit} of word {at}, {old:#x}");
                damaged(&mut score, &mut count, before, (&changed, cells), what);
                set(&mut changed, at, old);
            }
        }
    }
    assert!(cfg!(debug_assertions) || 50_000 <= count);
    said(score, "single bits", count, &[0, 11, 12]);
}

/// Nodes swapped, moved, left out and doubled; roots moved to every slot of either class, and swapped.
#[test]
fn moved_nodes_and_roots() {
    const SEED: u64 = 0x6461_6D33;
    let mut random = Random::new(SEED);
    let mut score = Score::new("moved nodes and roots");
    let mut count = 0;
    for (i, before) in small_blobs(&mut random, many(200), 16).iter().enumerate() {
        let (words, cells) = before;
        let nodes: Vec<&[u32]> = words.nodes.chunks_exact(4).collect();
        let mut with_nodes = |nodes: &[&[u32]], what: Arguments<'_>| {
            let mut changed = words.clone();
            changed.nodes = nodes.concat();
            changed.counts.nodes = nodes.len() as u32;
            damaged(&mut score, &mut count, before, (&changed, cells), what);
        };
        for a in 0..nodes.len() {
            for b in 0..nodes.len() {
                let what = format_args!("blob {i} of seed {SEED:#x}, nodes {a} and {b}");
                if a < b {
                    let mut swapped = nodes.clone();
                    swapped.swap(a, b);
                    with_nodes(&swapped, format_args!("swapped, {what}"));
                }
                let mut moved = nodes.clone();
                let node = moved.remove(a);
                if b == 0 {
                    with_nodes(&moved, format_args!("left out, {what}"));
                }
                moved.insert(b, node);
                with_nodes(&moved, format_args!("moved, {what}"));
                let mut doubled = nodes.clone();
                doubled.insert(b, nodes[a]);
                with_nodes(&doubled, format_args!("doubled, {what}"));
            }
        }
        for at in 0..words.roots.len() {
            let slots = (0..=words.counts.base_slots).chain((0..=words.counts.ext_slots).map(|slot| slot | BIT_31));
            for root in slots {
                let mut changed = words.clone();
                changed.roots[at] = root;
                for num_base in [0, words.counts.num_base, at as u32, at as u32 + 1, u32::MAX] {
                    changed.counts.num_base = num_base;
                    let what = format_args!("blob {i} of seed {SEED:#x}, root {at} to {root:#x}, num_base {num_base}");
                    damaged(&mut score, &mut count, before, (&changed, cells), what);
                }
            }
        }
    }
    said(score, "moved nodes and roots", count, &[0, 11, 12]);
}

/// Counts and shape changed by one or two, with memory that is exactly as long as before and with memory to spare; the
/// calls are lent what the changed counts need, but the tables are as they were. Constants are not lent to the check, so
/// its answer and the walk's are compared one by one.
#[test]
fn counts_and_shapes_off() {
    const SEED: u64 = 0x6461_6D34;
    let mut random = Random::new(SEED);
    let mut score = Score::new("counts and shapes off");
    let mut count = 0;
    for (i, (words, cells)) in small_blobs(&mut random, many(500), 16).iter().enumerate() {
        let mut spare = (words.clone(), cells.clone());
        // Words to spare are mostly hostile, at times a copy of the first node, which is a leaf and would pass.
        for _ in 0..2 {
            let node: Vec<u32> = if random.once_in(3) {
                words.nodes[..4].to_vec()
            } else {
                (0..4).map(|_| random.pick(&hostile_words())).collect()
            };
            spare.0.nodes.extend(node);
            spare.0.roots.push(random.pick(&[0, BIT_31, 1, BIT_31 | 1, u32::MAX]));
            spare.0.base_consts.push(random.word());
            spare.0.ext_consts.extend(random.limbs());
        }
        let tables = [
            (&mut spare.1.main, 2 * 8),
            (&mut spare.1.aux, 3 * 2 * 8),
            (&mut spare.1.challenges, 6),
            (&mut spare.1.alphas, 6),
        ];
        for (table, more) in tables {
            table.extend(random.words(more));
        }
        for before in [&(words.clone(), cells.clone()), &spare] {
            for field in 0..12 {
                for step in [-2, -1, 1, 2] {
                    let (mut words, mut cells) = before.clone();
                    let shape = &mut cells.shape;
                    let shape = [
                        &mut shape.steps,
                        &mut shape.main_width,
                        &mut shape.aux_width,
                        &mut shape.challenges,
                        &mut shape.alphas,
                    ];
                    if field < 7 {
                        let count = &mut *words.counts_mut()[field];
                        *count = count.saturating_add_signed(step);
                    } else {
                        let count = &mut *shape.into_iter().nth(field - 7).expect("a shape has five fields");
                        *count = count.saturating_add_signed(step as isize);
                    }
                    if (&words, &cells) == (&before.0, &before.1) {
                        continue;
                    }
                    let what = format_args!("blob {i} of seed {SEED:#x}, count {field} by {step}");
                    let lengths = Lengths::of(&words.counts).and_more((count % 3) as usize);
                    let checked = compare::check_blob(&mut score, &words, &cells.shape, lengths.bytes, what);
                    let walked = compare::walk(&mut score, &words, &cells, lengths, what);
                    if walked.answer.is_ok() {
                        assert_eq!(checked, Ok(()), "{what}");
                        agree(&mut score, &words, &cells, 0, what);
                    }
                    count += 1;
                }
            }
        }
    }
    said(score, "counts and shapes off", count, &[0, 1, 11, 12]);
}

/// Tables cut at every length, and the rooms too: 1 or 14, or 0 where the cut is past the need.
#[test]
fn cut_tables() {
    const SEED: u64 = 0x6461_6D35;
    let mut random = Random::new(SEED);
    let mut score = Score::new("cut tables");
    let mut count = 0;
    for (i, (words, cells)) in small_blobs(&mut random, many(200), 12).iter().enumerate() {
        let lease = Lease::new(words.clone(), cells.clone());
        for (need, name) in NEEDS.iter().enumerate() {
            for len in 0..lease.len(need) {
                let mut lease = lease.clone();
                lease.cut(need, len);
                _ = lease.run(
                    &mut score,
                    format_args!("blob {i} of seed {SEED:#x}, {name} cut to {len}"),
                );
                count += 1;
            }
        }
    }
    said(score, "cut tables", count, &[0, 1, 14]);
}

/// Several changes at once, at random, in blobs of up to 40 nodes; constants and cells become hostile too.
#[test]
fn several_changes() {
    const SEED: u64 = 0x6461_6D36;
    let mut random = Random::new(SEED);
    let mut score = Score::new("several changes");
    let mut count = 0;
    let blobs = small_blobs(&mut random, 300, 40);
    for i in 0..many(400_000) {
        let before = &blobs[random.below(blobs.len())];
        let (mut words, mut cells) = before.clone();
        change_some(&mut random, &mut words, &mut cells);
        let what = format_args!("damaged blob {i} of seed {SEED:#x}");
        damaged(&mut score, &mut count, before, (&words, &cells), what);
    }
    let agreed = score.agreed;
    assert!(cfg!(debug_assertions) || 50_000 <= agreed, "{agreed}");
    said(score, "several changes", count, &[0, 11, 12]);
}

/// After a cell of each class, one node of every tag over a small set of words, with the roots that it may fill.
#[test]
fn every_node_over_a_small_set() {
    let mut random = Random::new(0x6461_6D37);
    let mut score = Score::new("every node over a small set");
    let mut count = 0;
    let cells = Cells::random(&mut random, SHAPE, PROVER);
    let mut words_of_a: Vec<u32> = (0..8)
        .flat_map(|kind| (0..3).map(move |payload| kind << 29 | payload))
        .collect();
    words_of_a.extend([
        3,
        65_536,
        1 << 16,
        1 << 16 | 1 << 8,
        1 << 16 | 2 << 8,
        1 << 8,
        1,
        1 << 17,
        u32::MAX,
    ]);
    words_of_a.sort_unstable();
    words_of_a.dedup();
    let tags: Vec<u32> = (0..=11).chain([u32::MAX]).collect();
    for tag in tags {
        for a in &words_of_a {
            for b in &words_of_a {
                for res in [0, 1, 2, BIT_31, BIT_31 | 1, BIT_31 | 2, u32::MAX] {
                    let words = BlobWords::of(
                        &[[2, 0, 1 << 16, 0], [2, 0, 0, BIT_31], [tag, *a, *b, res]],
                        &[3, u64::MAX],
                        &[[1, P, 5], [0, 0, P - 1]],
                        &[0, res, BIT_31],
                        [1 + (count % 2) as u32, 2, 2],
                    );
                    let what = format_args!("node {tag} {a:#x} {b:#x} {res:#x}");
                    compared(&mut score, &mut count, &words, &cells, what);
                }
            }
        }
    }
    said(score, "every node over a small set", count, &[0, 11, 12]);
}
