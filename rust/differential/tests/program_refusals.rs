//! What the program calls refuse, with which number and place, in which order; and that a refusal changes nothing.
//!
//! Every call here is compared with plain arithmetic, answer and all of the lent memory. Where the expected number can
//! be said without it, it is said as well.

#![forbid(unsafe_code)]

use differential::inputs::Random;
use differential::programs::compare::{self, Answer, Asked, Lengths};
use differential::programs::lease::Call::{self, Base, Prover, Reads, Verifier};
use differential::programs::lease::{Lease, ORDERS, any, main_words, needs_of};
use differential::programs::published::{self, ext_element};
use differential::programs::{Cells, Words};
use differential::{P, Score};
use host::Refusal;
use host::lent::program::{Counts, Shape};
use stark::constraint_ir::IrBuilder;

/// So many where the build is optimised, else a few of them.
const fn many(cases: usize) -> usize {
    if cfg!(debug_assertions) { cases / 10 } else { cases }
}

fn refused(number: u8, place: usize) -> Answer {
    Err(Refusal {
        number,
        place: place as u64,
    })
}

/// A lease that the call answers, in which there is something to spoil for every refusal.
fn good(random: &mut Random, call: Call) -> Lease {
    let mut builder: IrBuilder = IrBuilder::new();
    let first = builder.main(0, 0);
    let second = builder.main(1, 1);
    let sum = builder.add(first, second);
    let constant = builder.const_base(5);
    let base = builder.mul(sum, constant);
    let triple = builder.const_ext(ext_element(random.limbs()));
    let embedded = builder.embed(base);
    let mut ext = builder.sub(embedded, triple);
    if call != Base {
        let challenge = builder.challenge(1);
        ext = builder.add(challenge, ext);
        // Nobody reads these.
        builder.aux(1, 2);
        builder.alpha_power(1);
        builder.table_offset();
    }
    for (c, root) in [base, ext, sum, embedded].into_iter().enumerate() {
        builder.emit(c, root);
    }
    let words = published::words(&builder.finish(1));
    let shape = Shape {
        steps: 2,
        main_width: 2,
        aux_width: 3,
        challenges: 2,
        alphas: 2,
    };
    let cells = Cells::random(random, shape, main_words(call));
    let row = random.words(shape.main_width);
    Lease::new(call, words, cells, row)
}

/// Makes one refusal hold, in one of several ways, and says the place that it names. To make several hold, the last in
/// the call's order comes first: then no later one takes back what an earlier one needs.
fn spoil(random: &mut Random, call: Call, number: u8, lease: &mut Lease) -> usize {
    let words = &mut lease.words;
    let counts = &mut words.counts;
    let shape = &mut lease.cells.shape;
    match number {
        1 | 10 | 14 => {
            let mut needs = needs_of(call);
            needs.retain(|need| need.number == number && (need.len)(lease).get() != 0);
            let len = (needs[random.below(needs.len())].len)(lease);
            let needed = len.get();
            len.set(random.pick(&[0, needed / 2, needed - 1]));
        }
        2 => {
            let over = random.pick(&[1, 2, 1_000, usize::MAX - 65_536]);
            match (call, random.below(5)) {
                (Reads | Base, _) => lease.width = 65_536 + over,
                (_, 0) => shape.steps = 256 + over,
                (_, 1) => shape.main_width = 65_536 + over,
                (_, 2) => shape.aux_width = 65_536 + over,
                (_, 3) => shape.challenges = 65_536 + over,
                (_, _) => shape.alphas = 65_536 + over,
            }
        }
        6 => lease.constraint = random.pick(&[counts.roots, counts.roots + 1, usize::MAX]),
        7 if random.once_in(4) => {
            let place = random.below(words.roots.len());
            words.roots[place] = random.pick(&[counts.nodes as u32, counts.nodes as u32 + 1, u32::MAX]);
            return place;
        }
        7 => {
            let place = random.below(counts.nodes);
            match random.below(3) {
                0 => words.nodes[4 * place] = random.pick(&[11, 12, u32::MAX]),
                1 => words.nodes[4 * place + 3] ^= random.pick(&[1, 2, 1 << 31]),
                // No operand is that large, and elsewhere the bit is spare or the word unused.
                _ => words.nodes[4 * place + 2] |= 1 << 30,
            }
            return place;
        }
        8 => {
            let over = 536_870_911 + random.pick(&[1, 2, 1_000, usize::MAX - 536_870_911]);
            match random.below(3) {
                0 => counts.nodes = over,
                1 => counts.base_consts = over,
                _ => counts.ext_consts = over,
            }
        }
        9 => {
            let over = 4_294_967_295 + random.pick(&[1, 2, 1_000, usize::MAX - 4_294_967_295]);
            match random.below(2) {
                0 => counts.num_base = over,
                _ => counts.roots = over,
            }
        }
        12 if call == Base => {
            lease.constraint = random.pick(&[1, 3]);
            return lease.constraint;
        }
        12 => {
            counts.num_base = random.pick(&[2, 3, 4, 4_294_967_295]);
            lease.fit(call);
            return 1;
        }
        13 if call == Base && random.once_in(2) => {
            // The first cell has column 0, the second column 1.
            lease.width = random.below(2);
            lease.fit(call);
            return 1 + lease.width;
        }
        13 if call == Base => {
            // A leaf of another kind at the end, which nobody reads.
            let leaf = random.pick(&[[2, 0, 0, 1], [3, 0, 0, 1], [4, 0, 0, 1], [5, 0, 0, 1]]);
            words.nodes.extend(leaf);
            counts.nodes += 1;
            let place = counts.nodes - 1;
            lease.fit(call);
            return place;
        }
        13 => {
            let (n, nodes) = (counts.nodes, &words.nodes);
            let of_tag = |tag: u32| (0..n).filter(move |id| nodes[4 * id] == tag);
            let place = match random.below(6) {
                0 => {
                    shape.steps = 0;
                    of_tag(2).next()
                }
                1 => {
                    shape.steps = 1;
                    of_tag(2).nth(1)
                }
                2 => {
                    shape.main_width = 1;
                    of_tag(2).nth(1)
                }
                3 => {
                    shape.aux_width = 2;
                    of_tag(2).nth(2)
                }
                4 => {
                    shape.challenges = 1;
                    of_tag(3).next()
                }
                _ => {
                    shape.alphas = 1;
                    of_tag(4).next()
                }
            };
            // Fewer cells, which then go by another width.
            lease.fit(call);
            return place.expect("the program has such a leaf");
        }
        _ => unreachable!("{number} is no refusal of a program call"),
    }
    0
}

/// Every set of refusals that can hold at once, in every call: the first in the call's order is given, with its place.
#[test]
fn order() {
    const SEED: u64 = 0x6F72_6465;
    let rounds = many(100);
    let mut random = Random::new(SEED);
    let mut score = Score::new("every set of refusals");
    for (call, numbers) in ORDERS {
        for set in 0..1_usize << numbers.len() {
            for round in 0..rounds {
                let mut lease = good(&mut random, call);
                let mut expected = Ok(());
                for (at, number) in numbers.iter().enumerate().rev() {
                    if set >> at & 1 == 1 {
                        let place = spoil(&mut random, call, *number, &mut lease);
                        expected = refused(*number, place);
                    }
                }
                let what = format_args!("set {set:#b} of {numbers:?}, round {round} of seed {SEED:#x}");
                assert_eq!(lease.run(&mut score, call, what), expected, "{call:?}, {what}");
            }
        }
    }
    score.finish(&[0, 1, 2, 6, 7, 8, 9, 10, 12, 13, 14]);
}

/// Each need of each call exact, one word short and at zero, all others exact.
#[test]
fn needs() {
    const SEED: u64 = 0x6E65_6564;
    let mut random = Random::new(SEED);
    let mut score = Score::new("needs exact, one short and zero");
    for (call, _) in ORDERS {
        for i in 0..many(2_000) {
            let lease = any(&mut random, call);
            let what = format_args!("program {i} of seed {SEED:#x}");
            let exact = lease.run(&mut score, call, what);
            for need in needs_of(call) {
                let needed = (need.len)(&mut lease.clone()).get();
                for len in [0, needed.saturating_sub(1)] {
                    let mut lease = lease.clone();
                    (need.len)(&mut lease).set(len);
                    let what = format_args!(
                        "{len} of {needed} words of {}, program {i} of seed {SEED:#x}",
                        need.name
                    );
                    let answer = lease.run(&mut score, call, what);
                    // 10 comes last, 1 and 14 before all that an exact lease is refused for.
                    let expected = match exact {
                        _ if len == needed => exact,
                        Err(_) if need.number == 10 => exact,
                        _ => refused(need.number, 0),
                    };
                    assert_eq!(answer, expected, "{call:?}, {what}");
                }
                let mut longer = lease.clone();
                (need.len)(&mut longer).set(needed + 1);
                let what = format_args!("one word of {} too many, program {i} of seed {SEED:#x}", need.name);
                assert_eq!(longer.run(&mut score, call, what), exact, "{call:?}, {what}");
            }
        }
    }
    score.finish(&[0, 1, 6, 10, 12, 13, 14]);
}

/// The greatest counts are not too large, only the memory is too short; one more is.
#[test]
fn count_limits() {
    let mut random = Random::new(0);
    let mut score = Score::new("limits of counts");
    for (call, _) in ORDERS {
        let good = good(&mut random, call);
        let mut try_counts = |change: &dyn Fn(&mut Counts), expected: Answer| {
            let mut lease = good.clone();
            change(&mut lease.words.counts);
            let what = format!("{:?}", lease.words.counts);
            let answer = lease.run(&mut score, call, format_args!("{what}"));
            assert_eq!(answer, expected, "{call:?}, {what}");
        };
        type Field = fn(&mut Counts) -> &mut usize;
        let fields: [Field; 3] = [
            |counts| &mut counts.nodes,
            |counts| &mut counts.base_consts,
            |counts| &mut counts.ext_consts,
        ];
        for field in fields {
            try_counts(&|counts| *field(counts) = 536_870_911, refused(1, 0));
            for over in [536_870_912, 1 << 30, 1 << 32, 1 << 61, 1 << 62, 1 << 63, usize::MAX] {
                try_counts(&|counts| *field(counts) = over, refused(8, 0));
                // 8 comes before 9.
                try_counts(
                    &|counts| (*field(counts), counts.roots) = (over, usize::MAX),
                    refused(8, 0),
                );
                try_counts(
                    &|counts| (*field(counts), counts.num_base) = (over, usize::MAX),
                    refused(8, 0),
                );
            }
        }
        for over in [1 << 32, 1 << 33, 1 << 61, 1 << 62, 1 << 63, usize::MAX] {
            try_counts(&|counts| counts.roots = over, refused(9, 0));
            try_counts(&|counts| counts.num_base = over, refused(9, 0));
        }
        try_counts(&|counts| counts.roots = 4_294_967_295, refused(1, 0));
        // So many base constraints are not too many; but then the second root may not be an extension value.
        let mut lease = good.clone();
        lease.words.counts.num_base = 4_294_967_295;
        lease.fit(call);
        let expected = if call == Prover { refused(12, 1) } else { Ok(()) };
        let what = format_args!("the greatest num_base");
        assert_eq!(lease.run(&mut score, call, what), expected, "{call:?}, {what}");
    }
    score.finish(&[0, 1, 8, 9, 12]);
}

/// The largest shape of each kind is not too large, one more is; the memory is counted only then.
#[test]
fn shape_limits() {
    let mut random = Random::new(0);
    let mut score = Score::new("limits of shapes");
    type Field = fn(&mut Shape) -> &mut usize;
    let fields: [(Field, usize); 5] = [
        (|shape| &mut shape.steps, 256),
        (|shape| &mut shape.main_width, 65_536),
        (|shape| &mut shape.aux_width, 65_536),
        (|shape| &mut shape.challenges, 65_536),
        (|shape| &mut shape.alphas, 65_536),
    ];
    for call in [Prover, Verifier] {
        for (field, most) in fields {
            let mut lease = good(&mut random, call);
            let mut try_shape = |value: usize, expected: Answer| {
                *field(&mut lease.cells.shape) = value;
                let what = format!("{:?}", lease.cells.shape);
                let answer = lease.run(&mut score, call, format_args!("{what}"));
                assert_eq!(answer, expected, "{call:?}, {what}");
            };
            try_shape(most, refused(1, 0));
            for over in [
                most + 1,
                most + 2,
                1 << 17,
                1 << 32,
                1 << 60,
                1 << 61,
                1 << 62,
                1 << 63,
                usize::MAX,
            ] {
                try_shape(over, refused(2, 0));
            }
        }
        // All of it at the limit, with memory to match, and a program that reads none of it.
        for (field, most) in fields {
            let mut builder: IrBuilder = IrBuilder::new();
            let zero = builder.const_base(0);
            builder.emit(0, zero);
            let mut shape = Shape::default();
            *field(&mut shape) = most;
            let cells = Cells::random(&mut random, shape, main_words(call));
            let lease = Lease::new(call, published::words(&builder.finish(1)), cells, vec![]);
            assert_eq!(
                lease.run(&mut score, call, format_args!("{shape:?}")),
                Ok(()),
                "{call:?}, {shape:?}"
            );
        }
    }
    for call in [Reads, Base] {
        let mut lease = good(&mut random, call);
        lease.row.resize(65_536, 0);
        lease.width = 65_536;
        assert_eq!(
            lease.run(&mut score, call, format_args!("width 65,536")),
            Ok(()),
            "{call:?}"
        );
        for over in [65_537, 1 << 17, 1 << 32, 1 << 62, usize::MAX] {
            lease.width = over;
            let what = format_args!("width {over}");
            assert_eq!(lease.run(&mut score, call, what), refused(2, 0), "{call:?}, {what}");
        }
    }
    score.finish(&[0, 1, 2]);
}

/// No nodes and no roots is well-formed, with nothing lent at all.
#[test]
fn empty_program() {
    let mut score = Score::new("the empty program");
    for (call, _) in ORDERS {
        let empty = Lease::new(call, Words::default(), Cells::default(), vec![]);
        let what = format_args!("nothing");
        // No constraint to ask for.
        let expected = if call == Base { refused(6, 0) } else { Ok(()) };
        assert_eq!(empty.run(&mut score, call, what), expected, "{call:?}");

        let mut constants = empty.clone();
        constants.words.counts.base_consts = 2;
        constants.words.counts.ext_consts = 1;
        constants.words.base_consts = vec![u64::MAX; 2];
        constants.words.ext_consts = vec![u64::MAX; 3];
        constants.words.counts.num_base = 5;
        let what = format_args!("constants only");
        assert_eq!(constants.run(&mut score, call, what), expected, "{call:?}, {what}");

        let mut root = empty;
        root.words.counts.roots = 1;
        root.words.roots = vec![0];
        root.lengths = match call {
            Verifier => Lengths::verifier(&root.words),
            _ => Lengths::prover(&root.words),
        };
        let what = format_args!("a root and no node");
        assert_eq!(root.run(&mut score, call, what), refused(7, 0), "{call:?}, {what}");
    }
    score.finish(&[0, 6, 7]);
}

/// One word of a program changed: all five calls against plain arithmetic.
#[test]
fn damaged_programs() {
    const SEED: u64 = 0x6461_6D61;
    let mut random = Random::new(SEED);
    let mut score = Score::new("programs with one word changed");
    for i in 0..many(60_000) {
        for (call, _) in ORDERS {
            let mut lease = any(&mut random, call);
            lease.change_word(&mut random);
            let _ = lease.run(&mut score, call, format_args!("program {i} of seed {SEED:#x}"));
        }
    }
    score.finish(&[0, 6, 7, 12, 13]);
}

/// Counts, shape and lengths changed a little, several at once: all five calls against plain arithmetic.
#[test]
fn damaged_leases() {
    const SEED: u64 = 0x6C65_6173;
    let mut random = Random::new(SEED);
    let mut score = Score::new("leases with several things changed");
    for i in 0..many(60_000) {
        for (call, _) in ORDERS {
            let mut lease = any(&mut random, call);
            lease.change_some(&mut random, call);
            let _ = lease.run(&mut score, call, format_args!("program {i} of seed {SEED:#x}"));
        }
    }
    score.finish(&[0, 1, 2, 6, 7, 8, 9, 10, 12, 13, 14]);
}

/// The rules of a well-formed program, one by one, said here and not by plain arithmetic. Each node stands after three
/// others: a base constant, an extension constant and a main cell, with two base constants and one extension constant in
/// the tables.
#[test]
fn rules_of_a_well_formed_program() {
    #[rustfmt::skip]
    const WELL_FORMED: [[u32; 4]; 33] = [
        [0, 0, 0, 0], [0, 1, 0, 0],
        [1, 0, 0, 1],
        // A main cell is base, an aux cell extension; column in x, main at bit 16 of y, step in its bits 8 to 15.
        [2, 0, 0x1_0000, 0], [2, 65_535, 0x1_FF00, 0], [2, 256, 0x1_0100, 0],
        [2, 0, 0, 1], [2, 65_535, 0xFF00, 1], [2, 256, 0x100, 1],
        [3, 0, 0, 1], [3, 65_535, 0, 1],
        [4, 0, 0, 1], [4, 65_535, 0, 1],
        [5, 0, 0, 1],
        // Base exactly if both operands are.
        [6, 0, 0, 0], [6, 0, 1, 1], [6, 1, 0, 1], [6, 1, 1, 1], [6, 2, 0, 0], [6, 2, 2, 0], [6, 2, 1, 1],
        [7, 0, 2, 0], [7, 0, 1, 1], [7, 1, 2, 1], [7, 1, 1, 1],
        [8, 0, 2, 0], [8, 0, 1, 1], [8, 1, 2, 1], [8, 1, 1, 1],
        // Neg keeps, Embed is extension, also of an extension value.
        [9, 0, 0, 0], [9, 1, 0, 1],
        [10, 0, 0, 1], [10, 1, 0, 1],
    ];
    #[rustfmt::skip]
    const NOT: [[u32; 4]; 71] = [
        // An index at its table's count or past it, an unused word, a wrong dim.
        [0, 2, 0, 0], [0, u32::MAX, 0, 0], [0, 0, 1, 0], [0, 0, 0, 1], [0, 0, 0, 2],
        [1, 1, 0, 1], [1, 3, 0, 1], [1, 0, 1, 1], [1, 0, 0, 0], [1, 0, 0, 2],
        // A column past 16 bits, a row, a spare bit, a wrong dim.
        [2, 65_536, 0x1_0000, 0], [2, 1 << 31, 0x1_0000, 0], [2, 65_536, 0, 1],
        [2, 0, 0x1_0001, 0], [2, 0, 0x1_0080, 0], [2, 0, 1, 1], [2, 0, 0x80, 1],
        [2, 0, 0x3_0000, 0], [2, 0, 0x8001_0000, 0], [2, 0, 0x2_0000, 1], [2, 0, 0x2_0000, 0], [2, 0, 0x8000_0000, 1],
        [2, 0, 0x1_0000, 1], [2, 0, 0x1_0000, 2], [2, 0, 0, 0], [2, 0, 0, 2],
        // A uniform index past 65,535.
        [3, 65_536, 0, 1], [3, u32::MAX, 0, 1], [3, 0, 1, 1], [3, 0, 0, 0], [3, 0, 0, 2],
        [4, 65_536, 0, 1], [4, u32::MAX, 0, 1], [4, 0, 1, 1], [4, 0, 0, 0], [4, 0, 0, 2],
        [5, 1, 0, 1], [5, 0, 1, 1], [5, 0, 0, 0], [5, 0, 0, 2],
        // An operand that is this node or a later one, a wrong dim.
        [6, 3, 0, 0], [6, 0, 3, 0], [6, 4, 0, 0], [6, 0, u32::MAX, 0], [6, 0, 0, 1], [6, 0, 1, 0], [6, 1, 0, 0],
        [6, 1, 3, 1], [6, 3, 1, 1], [7, 1, 3, 1], [7, 3, 1, 1], [8, 1, 3, 1], [8, 3, 1, 1],
        [7, 3, 0, 0], [7, 0, 3, 0], [7, 0, 0, 1], [7, 1, 2, 0], [7, 1, 1, 2],
        [8, 3, 0, 0], [8, 0, 3, 0], [8, 0, 0, 1], [8, 1, 2, 0],
        [9, 3, 0, 0], [9, 0, 0, 1], [9, 1, 0, 0], [9, 0, 1, 0],
        [10, 3, 0, 1], [10, 0, 0, 0], [10, 0, 1, 1],
        // No tags.
        [11, 0, 0, 0], [256, 0, 0, 0],
    ];
    let mut score = Score::new("the rules one by one");
    let around = |node: [u32; 4]| {
        let nodes = [[0, 1, 0, 0], [1, 0, 0, 1], [2, 0, 0x1_0000, 0], node, [5, 0, 0, 1]];
        Words {
            counts: Counts {
                nodes: nodes.len(),
                base_consts: 2,
                ext_consts: 1,
                roots: 2,
                num_base: 0,
            },
            nodes: nodes.concat(),
            // Longer than the counts say, so that an index past the count still is inside what was lent.
            base_consts: vec![P; 9],
            ext_consts: vec![P; 30],
            roots: vec![4, 3],
        }
    };
    let frame = Shape {
        steps: 256,
        main_width: 65_536,
        ..Shape::default()
    };
    for (nodes, expected) in [(&WELL_FORMED[..], Ok(())), (&NOT[..], refused(7, 3))] {
        for node in nodes {
            let words = around(*node);
            let what = format_args!("node {node:?}");
            assert_eq!(compare::check_program(&mut score, &words, what), expected, "{what}");
            let answer = compare::next_row_trace_reads(&mut score, &words, frame.main_width, 1, what).answer;
            assert_eq!(answer, expected, "{what}");
        }
    }
    // A root may be the last node and no later one; a wrong node comes before a wrong root.
    let mut words = around(WELL_FORMED[0]);
    for (place, root) in [(0, 5), (1, 5), (1, u32::MAX)] {
        let mut words = words.clone();
        words.roots[place] = root;
        let what = format_args!("root {place} is {root}");
        assert_eq!(
            compare::check_program(&mut score, &words, what),
            refused(7, place),
            "{what}"
        );
        words.nodes[4 * 2] = 11;
        let what = format_args!("root {place} is {root}, and node 2 has tag 11");
        assert_eq!(
            compare::check_program(&mut score, &words, what),
            refused(7, 2),
            "{what}"
        );
    }
    words.roots = vec![5, 5];
    let what = format_args!("both roots wrong");
    assert_eq!(
        compare::check_program(&mut score, &words, what),
        refused(7, 0),
        "{what}"
    );
    score.finish(&[0, 7]);
}

/// The base evaluator: the step of a cell counts for nothing, roots that nobody asked for may be anything.
#[test]
fn one_row() {
    let mut builder: IrBuilder = IrBuilder::new();
    let first = builder.main(0, 0);
    let same = builder.main(255, 0);
    let last = builder.main(7, 2);
    let difference = builder.sub(first, same);
    let value = builder.add(difference, last);
    let ext = builder.embed(value);
    builder.emit(0, ext);
    builder.emit(1, value);
    // num_base says that both are base: it has no part in this.
    let words = published::words(&builder.finish(2));
    let row = vec![P + 9, 5, P + 3, 4];
    let mut score = Score::new("one row");
    let mut ask = |words: &Words, width: usize, constraint: usize| {
        let room = 4 * words.counts.nodes;
        let asked = Asked {
            width,
            constraint,
            row: &row,
        };
        let evaluated = compare::eval_program_base(&mut score, words, asked, room, format_args!("one row"));
        (evaluated.answer, evaluated.value)
    };
    let kept = compare::fresh_words(1)[0];
    assert_eq!(ask(&words, 3, 1), (Ok(()), 3));
    assert_eq!(ask(&words, 4, 1), (Ok(()), 3));
    assert_eq!(ask(&words, 3, 0), (refused(12, 0), kept));
    assert_eq!(ask(&words, 3, 2), (refused(6, 0), kept));
    assert_eq!(ask(&words, 2, 1), (refused(13, 3), kept));
    assert_eq!(ask(&words, 0, 0), (refused(13, 1), kept));
    assert_eq!(ask(&words, 5, 1), (refused(1, 0), kept));
    // Any other leaf, read or not.
    for leaf in [[2, 0, 0, 1], [3, 0, 0, 1], [4, 0, 0, 1], [5, 0, 0, 1]] {
        let mut words = words.clone();
        words.nodes.extend(leaf);
        words.counts.nodes += 1;
        assert_eq!(ask(&words, 3, 1), (refused(13, 7), kept));
    }
    score.finish(&[0, 1, 6, 12, 13]);
}

/// Next-row reads: sorted, each once, aux columns moved up and mixed with main ones, dead nodes too.
#[test]
fn next_row_columns() {
    let mut builder: IrBuilder = IrBuilder::new();
    // Columns 9, 2 + w, 2, 65,535, 65,535 + w and 0; the ones at step 0 do not count.
    for (step, column) in [(1, 9), (255, 2), (3, 65_535), (0, 5), (2, 9), (1, 0)] {
        builder.main(step, column);
    }
    for (step, column) in [(1, 65_535), (0, 7), (1, 2)] {
        builder.aux(step, column);
    }
    let words = published::words(&builder.finish(0));
    let mut score = Score::new("columns of next-row reads");
    for (main_width, columns) in [
        (0, vec![0, 2, 9, 65_535]),
        (7, vec![0, 2, 9, 65_535, 65_542]),
        (10, vec![0, 2, 9, 12, 65_535, 65_545]),
        (65_536, vec![0, 2, 9, 65_535, 65_538, 131_071]),
    ] {
        for room in 0..9 {
            let reads =
                compare::next_row_trace_reads(&mut score, &words, main_width, room, format_args!("room {room}"));
            if room < columns.len() {
                assert_eq!(reads.answer, refused(10, 0));
                assert_eq!(reads.count, compare::fresh_words(1)[0]);
            } else {
                assert_eq!(reads.answer, Ok(()));
                assert_eq!(reads.count, columns.len() as u64);
                assert_eq!(reads.out[..columns.len()], columns);
            }
        }
    }
    score.finish(&[0, 10]);
}
