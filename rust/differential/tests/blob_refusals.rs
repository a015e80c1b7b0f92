//! What the blob calls refuse, with which number and place, in which order; and that a refusal changes nothing but the
//! bytes after 11 and 12.
//!
//! Every call here is compared with plain arithmetic, answer and all of the lent memory; the expected number is said as
//! well.

#![forbid(unsafe_code)]

use differential::blobs::agree::agree;
use differential::blobs::damage::{BIT_31, SHAPE, every_tag, small_blobs};
use differential::blobs::lease::{Lease, NEEDS, OF_CHECK, OF_WALK};
use differential::blobs::{BlobWords, Lengths};
use differential::inputs::Random;
use differential::programs::compare::Answer;
use differential::programs::{Cells, PROVER};
use differential::{P, Score};
use host::Refusal;
use host::lent::blob::{Written, check_blob, walk};
use host::lent::program::Shape;

fn refusal(number: u8, place: u64) -> Answer {
    Err(Refusal { number, place })
}

fn every_tag_lease() -> Lease {
    let mut random = Random::new(0x7265_6631);
    Lease::new(every_tag(), Cells::random(&mut random, SHAPE, PROVER))
}

/// Everything exact passes; each need one word short, half and zero is refused, by 1 or by 14.
#[test]
fn every_need() {
    let mut random = Random::new(0x7265_6632);
    let mut score = Score::new("needs of blob calls");
    let mut leases = vec![every_tag_lease()];
    leases.extend(
        small_blobs(&mut random, 400, 30)
            .into_iter()
            .map(|(words, cells)| Lease::new(words, cells)),
    );
    for lease in leases {
        assert_eq!(lease.run(&mut score, format_args!("exact")), [Ok(()); 2]);
        for (need, name) in NEEDS.iter().enumerate() {
            let len = lease.len(need);
            for cut in [len.wrapping_sub(1), len / 2, 0] {
                if len <= cut {
                    continue;
                }
                let mut lease = lease.clone();
                lease.cut(need, cut);
                let walk = refusal(if need < OF_WALK { 1 } else { 14 }, 0);
                let check = if need < OF_CHECK { walk } else { Ok(()) };
                let answers = lease.run(&mut score, format_args!("{name} cut from {len} to {cut}"));
                assert_eq!(answers, [check, walk], "{name} cut from {len} to {cut}");
            }
        }
    }
    score.finish(&[0, 1, 14]);
}

/// No words of evals are needed where no root asks for them.
#[test]
fn needless_evals() {
    let mut score = Score::new("evals that are not needed");
    let mut lease = every_tag_lease();
    // All roots at or past num_base: no base evals. All below it: no extension evals.
    lease.words.counts.num_base = 0;
    lease.lengths = Lengths::of(&lease.words.counts);
    assert_eq!((lease.lengths.base_evals, lease.lengths.ext_evals), (0, 18));
    assert_eq!(lease.run(&mut score, format_args!("num_base 0")), [Ok(()); 2]);
    lease.words.counts.roots = 3;
    for num_base in [3, 4, u32::MAX] {
        lease.words.counts.num_base = num_base;
        lease.lengths = Lengths::of(&lease.words.counts);
        assert_eq!((lease.lengths.base_evals, lease.lengths.ext_evals), (3, 0));
        assert_eq!(
            lease.run(&mut score, format_args!("num_base past the roots")),
            [Ok(()); 2]
        );
        lease.lengths.base_evals = 2;
        assert_eq!(
            lease.run(&mut score, format_args!("one word short")),
            [Ok(()), refusal(14, 0)]
        );
    }
    score.finish(&[0, 14]);
}

/// Every set of refusals that can hold at once, made in every way: the first of 2, 1, 14, 11, 12 is given.
#[test]
fn every_set_in_its_order() {
    let mut score = Score::new("sets of refusals of blob calls");
    let mut sets = 0;
    let over: [Option<usize>; 6] = [None, Some(0), Some(1), Some(2), Some(3), Some(4)];
    let short: Vec<Option<usize>> = [None].into_iter().chain((0..OF_WALK).map(Some)).collect();
    let evals = [None, Some(10), Some(11)];
    for over in over {
        for short in &short {
            for evals in evals {
                for illegal in 0..5 {
                    for ext_root in [false, true] {
                        let mut lease = every_tag_lease();
                        let words = &mut lease.words;
                        // A slot that no node fills.
                        words.counts.ext_slots = 7;
                        let illegal = match illegal {
                            0 => None,
                            1 => {
                                words.nodes[4 * 15] = 11;
                                Some(15)
                            }
                            2 => {
                                words.nodes[4 * 13 + 1] = 7 << 29;
                                // A root is at fault too, and a node comes first.
                                words.roots[0] = BIT_31 | 6;
                                Some(13)
                            }
                            3 => {
                                words.roots[4] = BIT_31 | 6;
                                Some(4)
                            }
                            _ => {
                                words.roots[5] = 3;
                                Some(5)
                            }
                        };
                        if ext_root {
                            words.roots[1] = BIT_31;
                        }
                        lease.lengths = Lengths::of(&words.counts);
                        for need in short.iter().chain(&evals) {
                            lease.cut(*need, lease.len(*need) - 1);
                        }
                        let shape = &mut lease.cells.shape;
                        match over {
                            Some(0) => shape.steps = 257,
                            Some(1) => shape.main_width = 65_537,
                            Some(2) => shape.aux_width = 65_537,
                            Some(3) => shape.challenges = 65_537,
                            Some(4) => shape.alphas = 65_537,
                            _ => (),
                        }
                        let last = match (illegal, ext_root) {
                            (Some(place), _) => refusal(11, place),
                            (None, true) => refusal(12, 1),
                            (None, false) => Ok(()),
                        };
                        let check = match (over, short) {
                            (Some(_), _) => refusal(2, 0),
                            (None, Some(need)) if *need < OF_CHECK => refusal(1, 0),
                            _ => last,
                        };
                        let walk = match (over, short, evals) {
                            (Some(_), ..) => refusal(2, 0),
                            (None, Some(_), _) => refusal(1, 0),
                            (None, None, Some(_)) => refusal(14, 0),
                            (None, None, None) => last,
                        };
                        let what = format!("{over:?}, {short:?}, {evals:?}, {illegal:?}, {ext_root}");
                        assert_eq!(lease.run(&mut score, format_args!("{what}")), [check, walk], "{what}");
                        sets += 1;
                    }
                }
            }
        }
    }
    println!("sets of refusals of blob calls: {sets} sets");
    assert_eq!(sets, 6 * 11 * 3 * 5 * 2);
    score.finish(&[0, 1, 2, 11, 12, 14]);
}

fn fields(shape: &mut Shape) -> [&mut usize; 5] {
    [
        &mut shape.steps,
        &mut shape.main_width,
        &mut shape.aux_width,
        &mut shape.challenges,
        &mut shape.alphas,
    ]
}

/// Each field of the shape at its limit, one over, and as large as a number can be; with memory and without.
#[test]
fn shapes_at_their_limits() {
    const LIMITS: [usize; 5] = [256, 65_536, 65_536, 65_536, 65_536];
    let mut random = Random::new(0x7265_6633);
    let mut score = Score::new("limits of shapes");
    let empty = BlobWords::of(&[], &[], &[], &[], [0, 0, 0]);
    for field in 0..5 {
        for value in [LIMITS[field], LIMITS[field] + 1, 1 << 32, usize::MAX / 3, usize::MAX] {
            for others in [0, 1] {
                let mut shape = Shape::default();
                for other in fields(&mut shape) {
                    *other = others;
                }
                *fields(&mut shape)[field] = value;
                let over = LIMITS[field] < value;
                let cells = Cells {
                    shape,
                    ..Cells::default()
                };
                // Without memory: 2, or 1 where anything has to be lent.
                let lease = Lease::new(empty.clone(), cells);
                let has_cells = shape.steps != 0 && (shape.main_width != 0 || shape.aux_width != 0);
                let needs_words = has_cells || 3 <= field || others == 1;
                let [check, walk] = if over {
                    [refusal(2, 0); 2]
                } else {
                    [Ok(()), if needs_words { refusal(1, 0) } else { Ok(()) }]
                };
                let what = format!("field {field} is {value}, the others {others}");
                assert_eq!(lease.run(&mut score, format_args!("{what}")), [check, walk], "{what}");
                if !over {
                    // With memory: the last column, step, challenge or alpha power is there.
                    let leaf = [
                        [2, 0, 1 << 16 | 255 << 8, 0],
                        [2, 65_535, 1 << 16, 0],
                        [2, 65_535, 0, BIT_31],
                        [3, 65_535, 0, BIT_31],
                        [4, 65_535, 0, BIT_31],
                    ][field];
                    let words = BlobWords::of(&[leaf], &[], &[], &[leaf[3]], [0, 1, 1]);
                    let cells = Cells::random(&mut random, shape, PROVER);
                    let legal = others == 1 || 3 <= field;
                    let answer = agree(&mut score, &words, &cells, 0, format_args!("{what}")).answer;
                    assert_eq!(answer, if legal { Ok(()) } else { refusal(11, 0) }, "{what}");
                    // One less, and it is not.
                    let mut cells = cells.clone();
                    *fields(&mut cells.shape)[field] -= 1;
                    let answer = agree(&mut score, &words, &cells, 0, format_args!("{what}, less")).answer;
                    assert_eq!(answer, refusal(11, 0), "{what}, less");
                }
            }
        }
    }
    score.finish(&[0, 1, 2, 11]);
}

/// Counts as large as they can be: 1 where memory would have to be lent.
#[test]
fn largest_counts() {
    let mut score = Score::new("largest counts");
    for large in [u32::MAX, 1 << 31, 1 << 30, 0x5555_5556, 0xAAAA_AAAB] {
        for count in 0..7 {
            let mut lease = every_tag_lease();
            *lease.words.counts_mut()[count] = large;
            // Roots below the new num_base that are extension: the lowest is root 3.
            let [check, walk] = match count {
                1 | 2 => [Ok(()), refusal(1, 0)],
                4 => [refusal(12, 3), refusal(14, 0)],
                _ => [refusal(1, 0); 2],
            };
            assert_eq!(
                lease.run(&mut score, format_args!("large")),
                [check, walk],
                "count {count} is {large}"
            );
        }
        // All of them at once; sums and products of counts must not wrap.
        let mut lease = every_tag_lease();
        for count in lease.words.counts_mut() {
            *count = large;
        }
        assert_eq!(lease.run(&mut score, format_args!("all large")), [refusal(1, 0); 2]);
    }
    score.finish(&[0, 1, 12, 14]);
}

/// All of 11 comes before 12.
#[test]
fn unfilled_root_after_extension_root() {
    let mut score = Score::new("11 before 12");
    let mut random = Random::new(0x7265_6634);
    let cells = Cells::random(&mut random, SHAPE, PROVER);
    let nodes = [[5, 0, 0, BIT_31]];
    for (roots, expected) in [
        (vec![BIT_31], refusal(12, 0)),
        (vec![BIT_31, 0], refusal(11, 1)),
        (vec![BIT_31, BIT_31 | 1], refusal(11, 1)),
        (vec![BIT_31, BIT_31, BIT_31, u32::MAX], refusal(11, 3)),
        (vec![BIT_31, BIT_31, BIT_31], refusal(12, 0)),
    ] {
        let words = BlobWords::of(&nodes, &[], &[], &roots, [2, 1, 2]);
        let answer = agree(&mut score, &words, &cells, 1, format_args!("{roots:x?}")).answer;
        assert_eq!(answer, expected, "{roots:x?}");
    }
    // The lowest node at fault, though a later one and a root are at fault too.
    let words = BlobWords::of(
        &[[5, 0, 0, BIT_31], [9, 1 << 29 | 1, 0, BIT_31], [11, 0, 0, 0]],
        &[],
        &[],
        &[BIT_31, 0],
        [2, 1, 2],
    );
    let answer = agree(&mut score, &words, &cells, 1, format_args!("three nodes")).answer;
    assert_eq!(answer, refusal(11, 1));
    score.finish(&[11, 12]);
}

/// Tags from 11 on and operands of kind 7 are illegal, in every place.
#[test]
fn tags_and_kinds_past_the_last() {
    let mut score = Score::new("tags and kinds past the last");
    let mut random = Random::new(0x7265_6635);
    let cells = Cells::random(&mut random, SHAPE, PROVER);
    let mut nodes: Vec<[u32; 4]> = Vec::new();
    for tag in [11, 12, 13, 15, 16, 255, 256, 1 << 16, 1 << 31, u32::MAX] {
        nodes.extend([[tag, 0, 0, 1], [tag, 0, 0, BIT_31 | 1]]);
    }
    for payload in [0, 1, (1 << 29) - 1] {
        let seven = 7 << 29 | payload;
        for tag in 6..=8 {
            nodes.extend([
                [tag, seven, 0, BIT_31 | 1],
                [tag, 0, seven, BIT_31 | 1],
                [tag, seven, seven, 1],
            ]);
        }
        nodes.extend([[9, seven, 0, BIT_31 | 1], [9, seven, 0, 1], [10, seven, 0, BIT_31 | 1]]);
    }
    for node in nodes {
        let words = BlobWords::of(&[[2, 0, 1 << 16, 0], node], &[1], &[], &[0], [1, 2, 2]);
        let answer = agree(&mut score, &words, &cells, 1, format_args!("{node:x?}")).answer;
        assert_eq!(answer, refusal(11, 1), "{node:x?}");
    }
    score.finish(&[11]);
}

/// A frame without steps has no cell; everything else of it is there.
#[test]
fn frames_without_steps() {
    let mut score = Score::new("frames without steps");
    let mut random = Random::new(0x7265_6636);
    for [main_width, aux_width] in [[0, 0], [1, 1], [65_536, 65_536]] {
        let shape = Shape {
            steps: 0,
            main_width,
            aux_width,
            challenges: 1,
            alphas: 1,
        };
        let cells = Cells::random(&mut random, shape, PROVER);
        let run = |score: &mut Score, node: [u32; 4]| {
            let words = BlobWords::of(&[node], &[P], &[], &[node[3]], [0, 1, 1]);
            agree(score, &words, &cells, 1, format_args!("{node:x?}")).answer
        };
        assert_eq!(run(&mut score, [2, 0, 1 << 16, 0]), refusal(11, 0));
        assert_eq!(run(&mut score, [2, 0, 0, BIT_31]), refusal(11, 0));
        for node in [
            [0, 0, 0, 0],
            [3, 0, 0, BIT_31],
            [4, 0, 0, BIT_31],
            [5, 0, 0, BIT_31],
            [8, 4 << 29, 5 << 29, BIT_31],
        ] {
            assert_eq!(run(&mut score, node), Ok(()), "{node:x?}");
        }
    }
    score.finish(&[0, 11]);
}

/// What the lent bytes hold beforehand makes no difference.
#[test]
fn bytes_of_any_content() {
    let mut random = Random::new(0x7265_6637);
    let cells = Cells::random(&mut random, SHAPE, PROVER);
    // Reads a slot that was never filled; and the same with that slot filled first.
    let unfilled = BlobWords::of(&[[9, 1, 0, 0]], &[1], &[], &[0], [1, 2, 1]);
    let filled = BlobWords::of(&[[0, 0, 0, 1], [9, 1, 0, 0]], &[1], &[], &[0], [1, 2, 1]);
    for (words, expected) in [(unfilled, refusal(11, 0)), (filled, Ok(()))] {
        for byte in 0..=255 {
            let mut bytes = [byte; 5];
            assert_eq!(check_blob(&words.lend(), &SHAPE, &mut bytes), expected);
            assert_eq!(bytes, [0, 0, 0, byte, byte]);
            let mut bytes = [byte; 5];
            let answer = walk(
                &words.lend(),
                &cells.lend(),
                Written {
                    base_evals: &mut [7],
                    ext_evals: &mut [],
                    bytes: &mut bytes,
                    slots: &mut [7; 5],
                },
            );
            assert_eq!(answer, expected);
            assert_eq!(bytes, [0, 0, 0, byte, byte]);
        }
    }
}
