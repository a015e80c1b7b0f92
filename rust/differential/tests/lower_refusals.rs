//! What lowering refuses, with which number and place, in which order; and that a refusal changes nothing but the lists
//! after 10.
//!
//! Every call here is compared with the plain reading, answer and all of the lent memory; the expected number is said as
//! well.

#![forbid(unsafe_code)]

use differential::blobs::damage::hostile_words;
use differential::blobs::published::lower;
use differential::inputs::Random;
use differential::lowering::agree::{Case, agree};
use differential::lowering::{Lease, Lengths, NEEDS, OF_INPUT, compare};
use differential::programs::compare::Answer;
use differential::programs::published;
use differential::programs::{Words, foreign, small_shape};
use differential::{P, Score};
use host::Refusal;
use host::lent::lower::{Lists, Rooms, Sizes, lower_into};
use host::lent::program::Counts;

fn refusal(number: u8, place: u64) -> Answer {
    Err(Refusal { number, place })
}

/// A well-formed program and exactly what it needs.
fn lease(words: Words) -> Lease {
    let blob = lower(&published::program(&words));
    Lease::new(words, &blob)
}

/// A program with something of every table, whose blob has fewer nodes than it: a constant, two cells and their sum, the
/// offset, a product with it; a dead node. The constraints are the sum, the product and the constant.
fn something_of_each() -> Words {
    let nodes = [
        [0, 1, 0, 0],
        [2, 3, 1 << 16, 0],
        [2, 1, 1 << 8, 1],
        [6, 1, 2, 1],
        [5, 0, 0, 1],
        [8, 3, 4, 1],
        [1, 0, 0, 1],
        [7, 6, 5, 1],
    ];
    Words {
        counts: Counts {
            nodes: nodes.len(),
            base_consts: 2,
            ext_consts: 1,
            roots: 3,
            num_base: 2,
        },
        nodes: nodes.concat(),
        base_consts: vec![P, u64::MAX],
        ext_consts: vec![P + 1, 2, u64::MAX],
        roots: vec![3, 5, 0],
    }
}

/// A small random program that needs something of everything.
fn small_lease(random: &mut Random) -> Lease {
    loop {
        let shape = small_shape(random);
        let counts = foreign::small_counts(random, 20);
        let mut lease = lease(foreign::well_formed(random, counts, &shape, 3));
        if (0..NEEDS.len()).all(|need| lease.len(need) != 0) {
            return lease;
        }
    }
}

/// Everything exact passes; each need one word short, half and zero is refused, by 1 or by 10.
#[test]
fn every_need() {
    let mut random = Random::new(0x6C72_6631);
    let mut score = Score::new("needs of lowering");
    let mut leases = vec![lease(something_of_each())];
    leases.extend((0..400).map(|_| small_lease(&mut random)));
    for mut lease in leases {
        assert_eq!(lease.run(&mut score, format_args!("exact")), Ok(()));
        for (need, name) in NEEDS.iter().enumerate() {
            let len = lease.len(need);
            for cut in [len - 1, len / 2, 0] {
                let mut lease = lease.clone();
                lease.cut(need, cut);
                let expected = refusal(if need < OF_INPUT { 1 } else { 10 }, 0);
                let answer = lease.run(&mut score, format_args!("{name} cut from {len} to {cut}"));
                assert_eq!(answer, expected, "{name} cut from {len} to {cut}");
            }
        }
    }
    score.finish(&[0, 1, 10]);
}

/// Room for as many nodes as the blob has is enough, though the program has more.
#[test]
fn nodes_that_are_not_emitted_need_no_room() {
    let mut lease = lease(something_of_each());
    assert_eq!(lease.words.counts.nodes, 8);
    assert_eq!(lease.lengths.nodes, 4 * 5);
    let mut score = Score::new("room for emitted nodes");
    assert_eq!(lease.run(&mut score, format_args!("exact")), Ok(()));
    lease.lengths.nodes -= 1;
    assert_eq!(lease.run(&mut score, format_args!("one short")), refusal(10, 0));
    score.finish(&[0, 10]);
}

/// Every set of refusals that can hold at once, made in every way: the first of 8, 9, 1, 7, 10 is given. A count of nodes,
/// constants or roots over its limit makes memory short too, since no such memory is lent here.
#[test]
fn every_set_in_its_order() {
    let mut score = Score::new("sets of refusals of lowering");
    let mut sets = 0;
    let short: Vec<Option<usize>> = [None].into_iter().chain((0..OF_INPUT).map(Some)).collect();
    let output: Vec<Option<usize>> = [None].into_iter().chain((OF_INPUT..NEEDS.len()).map(Some)).collect();
    for over in 0..4 {
        for many in 0..3 {
            for short in &short {
                for ill in 0..4 {
                    for output in &output {
                        let mut lease = lease(something_of_each());
                        let words = &mut lease.words;
                        let ill = match ill {
                            0 => None,
                            1 => {
                                words.nodes[4 * 5] = 11;
                                Some(5)
                            }
                            2 => {
                                words.nodes[4 * 3 + 1] = 3;
                                // A root is at fault too, and a node comes first.
                                words.roots[0] = 8;
                                Some(3)
                            }
                            _ => {
                                words.roots[1] = 8;
                                Some(1)
                            }
                        };
                        for need in short.iter().chain(output) {
                            lease = lease.short_by_one(*need);
                        }
                        let counts = &mut lease.words.counts;
                        match over {
                            1 => counts.nodes = 536_870_912,
                            2 => counts.base_consts = 536_870_912,
                            3 => counts.ext_consts = 536_870_912,
                            _ => (),
                        }
                        match many {
                            1 => counts.roots = 4_294_967_296,
                            2 => counts.num_base = 4_294_967_296,
                            _ => (),
                        }
                        let expected = match (over, many, short, ill, output) {
                            (1.., ..) => refusal(8, 0),
                            (0, 1.., ..) => refusal(9, 0),
                            (0, 0, Some(_), ..) => refusal(1, 0),
                            (0, 0, None, Some(place), _) => refusal(7, place),
                            (0, 0, None, None, Some(_)) => refusal(10, 0),
                            _ => Ok(()),
                        };
                        let what = format!("{over}, {many}, {short:?}, {ill:?}, {output:?}");
                        assert_eq!(lease.run(&mut score, format_args!("{what}")), expected, "{what}");
                        sets += 1;
                    }
                }
            }
        }
    }
    println!("sets of refusals of lowering: {sets} sets");
    assert_eq!(sets, 4 * 3 * 10 * 4 * 5);
    score.finish(&[0, 1, 7, 8, 9, 10]);
}

/// Each count at its limit, one over, and as large as a number can be. Memory is as before, so a count at its limit is 1,
/// but for `num_base`, which needs none.
#[test]
fn counts_at_their_limits() {
    let mut score = Score::new("limits of counts in lowering");
    let (nodes, roots) = (536_870_911, 4_294_967_295);
    for (count, limit, number) in [
        (0, nodes, 8),
        (1, nodes, 8),
        (2, nodes, 8),
        (3, roots, 9),
        (4, roots, 9),
    ] {
        for value in [
            limit,
            limit + 1,
            1 << 33,
            1 << 61,
            1 << 62,
            usize::MAX / 3 + 1,
            usize::MAX,
        ] {
            for mut lease in [lease(something_of_each()), lease(Words::default())] {
                let counts = &mut lease.words.counts;
                *[
                    &mut counts.nodes,
                    &mut counts.base_consts,
                    &mut counts.ext_consts,
                    &mut counts.roots,
                    &mut counts.num_base,
                ][count] = value;
                let expected = match (limit < value, count) {
                    (true, _) => refusal(number, 0),
                    (false, 4) => Ok(()),
                    (false, _) => refusal(1, 0),
                };
                let what = format!("count {count} is {value}");
                assert_eq!(lease.run(&mut score, format_args!("{what}")), expected, "{what}");
            }
        }
    }
    score.finish(&[0, 1, 8, 9]);
}

/// A program with nothing is lent nothing and is lowered; a root without nodes, or a constant without room, is not.
#[test]
fn nothing_is_lent() {
    let mut score = Score::new("lowering of the empty program");
    let empty = lease(Words::default());
    assert_eq!(empty.lengths, Lengths::default());
    let lowered = compare::lower(&mut score, &empty.words, empty.lengths, format_args!("empty"));
    assert_eq!((lowered.answer, lowered.sizes), (Ok(()), Sizes::default()));
    let mut rooted = empty.clone();
    rooted.words.roots = vec![0];
    rooted.words.counts.roots = 1;
    assert_eq!(rooted.run(&mut score, format_args!("a root")), refusal(7, 0));
    let mut constant = empty.clone();
    constant.words.base_consts = vec![P];
    constant.words.counts.base_consts = 1;
    assert_eq!(constant.run(&mut score, format_args!("a constant")), refusal(10, 0));
    let mut one_node = empty;
    one_node.words.nodes = vec![5, 0, 0, 1];
    one_node.words.counts.nodes = 1;
    assert_eq!(one_node.run(&mut score, format_args!("no lists")), refusal(1, 0));
    score.finish(&[0, 1, 7, 10]);
}

/// What the lent lists and tables hold beforehand makes no difference.
#[test]
fn lists_of_any_content() {
    let mut random = Random::new(0x6C72_6632);
    for _ in 0..2_000 {
        let Lease { words, lengths } = small_lease(&mut random);
        let mut blobs = Vec::new();
        // The same word everywhere, or words that look like flags, like nodes and slots, or like nothing.
        for fill in [Some(0), Some(1), Some(u32::MAX), None, None] {
            let most = random.pick(&[2, 20, usize::MAX]);
            let mut list = |len: usize| -> Vec<u32> {
                let mut word = || fill.unwrap_or_else(|| random.below(most) as u32);
                (0..len).map(|_| word()).collect()
            };
            let mut lists = [
                list(lengths.used),
                list(lengths.last_use),
                list(lengths.is_root),
                list(lengths.slot_of),
                list(lengths.free_slots),
            ];
            let [used, last_use, is_root, slot_of, free_slots] = &mut lists;
            let (mut nodes, mut roots) = (list(lengths.nodes), list(lengths.roots));
            let (mut base_consts, mut ext_consts) = (vec![7; lengths.base_consts], vec![7; lengths.ext_consts]);
            let mut sizes = Sizes {
                nodes: 7,
                base_slots: 8,
                ext_slots: 9,
            };
            let answer = lower_into(
                &words.lend(),
                Lists {
                    used,
                    last_use,
                    is_root,
                    slot_of,
                    free_slots,
                },
                Rooms {
                    nodes: &mut nodes,
                    base_consts: &mut base_consts,
                    ext_consts: &mut ext_consts,
                    roots: &mut roots,
                },
                &mut sizes,
            );
            assert_eq!(answer, Ok(()));
            assert!(lists.concat().iter().all(|word| *word == 0), "a list is not 0");
            blobs.push((nodes, base_consts, ext_consts, roots, sizes));
        }
        assert!(blobs.iter().all(|blob| *blob == blobs[0]), "{words:?}");
    }
}

/// Well-formed programs with one word of nodes or roots changed: 7 with the place, or 0; then the published `lower` says the
/// same.
#[test]
fn one_word_changed() {
    const SEED: u64 = 0x6C72_6633;
    let programs = if cfg!(debug_assertions) { 2_000 } else { 100_000 };
    let mut random = Random::new(SEED);
    let hostile = hostile_words();
    let mut score = Score::new("lowering of programs with one word changed");
    let sources: Vec<Lease> = (0..300).map(|_| small_lease(&mut random)).collect();
    for i in 0..programs {
        let Lease { mut words, lengths } = sources[random.below(sources.len())].clone();
        let at = random.below(words.nodes.len() + words.roots.len());
        let (nodes, n) = (words.nodes.len(), words.counts.nodes as u32);
        let word = if at < nodes {
            &mut words.nodes[at]
        } else {
            &mut words.roots[at - nodes]
        };
        *word = match random.below(4) {
            0 => *word ^ 1 << random.below(32),
            1 => word.wrapping_add_signed(random.pick(&[-1, 1])),
            2 => random.below(n as usize + 2) as u32,
            _ => random.pick(&hostile),
        };
        let what = format_args!("changed program {i} of seed {SEED:#x}");
        // There is room for every node, which the changed program may need.
        let lengths = Lengths {
            nodes: 4 * n as usize,
            ..lengths
        };
        if compare::lower(&mut score, &words, lengths, what).answer.is_ok() {
            let program = published::program(&words);
            let case = Case {
                words: &words,
                program: &program,
            };
            agree(&mut score, case, 0, what);
        }
    }
    assert!(programs as u64 / 4 < score.times(7) && programs as u64 / 10 < score.agreed);
    score.finish(&[0, 7]);
}
