//! Check, lowering and walk over bytes: against the calls on words, the published `lower` and a plain writer and reader of
//! stored form A; every lent word and byte is compared, those that must stay too.

#![forbid(unsafe_code)]

use differential::Score;
use differential::blobs::damage::{change_some, hostile_words, small_blobs};
use differential::blobs::{Lengths, published as device};
use differential::inputs::Random;
use differential::programs::build::{Recipe, build};
use differential::programs::{Cells, Words, foreign, published, small_shape};
use differential::stored::files::{Lent, compare_check, compare_file, compare_walk};
use differential::stored::lower::{Memory, compare_lower, program_bytes};
use differential::stored::{Four, change_file, fitting, form_a, lens_for};

/// So many where the build is optimised, else a few of them.
const fn many(cases: usize) -> usize {
    if cfg!(debug_assertions) { cases / 10 } else { cases }
}

#[test]
fn published_blobs() {
    const SEED: u64 = 0x6279_7431;
    let mut random = Random::new(SEED);
    let mut score = Score::new("blobs in bytes");
    for _ in 0..many(6_000) {
        let shape = small_shape(&mut random);
        let recipe = Recipe {
            calls: random.below(40),
            shape,
            row_only: random.once_in(4),
            constraints: random.pick(&[0, 1, 3, 8]),
        };
        let mut program = build(&mut random, &recipe);
        program.num_base = published::words(&program).fitting_num_base(&mut random);
        let blob = device::lower(&program);
        let mut cells = Cells::random(&mut random, shape, differential::programs::PROVER);
        cells.lengthen(&mut random);
        let file = form_a(&blob);
        let rooms = Four::new(&mut random, lens_for(&file), 1);
        let lent = Lent::new(&mut random, &blob, &cells);
        let checked = compare_check(&mut score, &cells, &file, rooms.clone(), lent.marks.clone());
        let walked = compare_walk(&mut score, &cells, &file, rooms, lent);
        assert_eq!((checked, walked), (0, 0));
        score.agreed += 1;
    }
    score.finish(&[0]);
}

/// Files that are cut, lengthened or changed in their trailer, and blobs that are changed in their words.
#[test]
fn damaged_files() {
    let mut random = Random::new(0x6279_7432);
    let mut score = Score::new("damaged files");
    let blobs = small_blobs(&mut random, many(400), 20);
    for (blob, cells) in &blobs {
        for _ in 0..10 {
            let (mut blob, mut cells) = (blob.clone(), cells.clone());
            if random.once_in(2) {
                change_some(&mut random, &mut blob, &mut cells);
            }
            if random.once_in(20) {
                cells.shape.steps = 257;
            }
            blob.counts = fitting(&blob);
            let mut file = form_a(&blob);
            if !random.once_in(3) {
                change_file(&mut random, &mut file);
            }
            compare_file(&mut score, &mut random, &blob, &cells, &file);
        }
    }
    score.finish(&[0, 2, 11, 12, 15]);
}

/// Each room, and each slice of bytes, one short.
#[test]
fn short_rooms() {
    let mut random = Random::new(0x6279_7433);
    let mut score = Score::new("rooms one short");
    let blobs = small_blobs(&mut random, many(200), 20);
    for (blob, cells) in &blobs {
        let file = form_a(blob);
        let rooms = Four::new(&mut random, lens_for(&file), 0);
        let mut lent = Lent::new(&mut random, blob, cells);
        let lens = Lengths::of(&blob.counts);
        for (room, table) in lent.words.iter_mut().zip(&lent.tables) {
            room.truncate(table.len() / 8);
        }
        lent.marks.truncate(lens.bytes);
        lent.slots.truncate(lens.slots);
        for k in 0..4 {
            let mut rooms = rooms.clone();
            rooms.cut(k);
            compare_check(&mut score, cells, &file, rooms.clone(), lent.marks.clone());
            compare_walk(&mut score, cells, &file, rooms, lent.clone());
        }
        for k in 0..6 {
            let mut cut = lent.clone();
            cut.words[k].pop();
            compare_walk(&mut score, cells, &file, rooms.clone(), cut.clone());
            // 2 is told before it, since the shape needs no words.
            let mut over = cells.clone();
            over.shape.steps = 257;
            compare_walk(&mut score, &over, &file, rooms.clone(), cut);
            let mut cut = lent.clone();
            let len = cut.tables[k].len().saturating_sub(8);
            cut.tables[k].truncate(len);
            compare_walk(&mut score, cells, &file, rooms.clone(), cut);
        }
        let mut cut = lent.clone();
        cut.marks.pop();
        compare_check(&mut score, cells, &file, rooms.clone(), cut.marks.clone());
        compare_walk(&mut score, cells, &file, rooms.clone(), cut);
        let mut cut = lent.clone();
        cut.slots.pop();
        compare_walk(&mut score, cells, &file, rooms.clone(), cut);
        for len in 0..file.len().min(40) {
            compare_check(&mut score, cells, &file[..len], rooms.clone(), lent.marks.clone());
        }
    }
    score.finish(&[0, 1, 2, 10, 14, 15]);
}

fn a_program(random: &mut Random) -> Words {
    let shape = small_shape(random);
    if random.once_in(2) {
        let counts = foreign::small_counts(random, 20);
        return foreign::well_formed(random, counts, &shape, usize::MAX);
    }
    let recipe = Recipe {
        calls: random.below(40),
        shape,
        row_only: random.once_in(4),
        constraints: random.pick(&[0, 1, 3, 8]),
    };
    let mut words = published::words(&build(random, &recipe));
    words.counts.num_base = words.fitting_num_base(random);
    words
}

#[test]
fn lowered_programs() {
    let mut random = Random::new(0x6279_7434);
    let mut score = Score::new("programs in bytes");
    for _ in 0..many(6_000) {
        let mut words = a_program(&mut random);
        words.lengthen(&mut random);
        let tables = program_bytes(&mut random, &words);
        let more = random.below(3);
        let memory = Memory::new(&mut random, &words, more);
        assert_eq!(compare_lower(&mut score, &words, &tables, memory), 0);
        score.agreed += 1;
    }
    score.finish(&[0]);
}

/// Programs with a changed word, with counts past their limits or their tables, and each room one short.
#[test]
fn refused_programs() {
    let mut random = Random::new(0x6279_7435);
    let mut score = Score::new("programs in bytes that are refused");
    let hostile = hostile_words();
    for _ in 0..many(1_000) {
        let words = a_program(&mut random);
        let tables = program_bytes(&mut random, &words);
        let memory = Memory::new(&mut random, &words, 0);
        for k in 0..4 {
            let mut cut = memory.clone();
            cut.words.cut(k);
            compare_lower(&mut score, &words, &tables, cut);
            let mut cut = memory.clone();
            cut.blob.cut(k);
            compare_lower(&mut score, &words, &tables, cut);
        }
        for k in 0..5 {
            let mut cut = memory.clone();
            cut.lists[k].pop();
            compare_lower(&mut score, &words, &tables, cut);
        }
        let len = form_a(&device::lower(&published::program(&words))).len();
        for short in [1, 4, 33] {
            let mut cut = memory.clone();
            cut.file.truncate(len - short.min(len));
            assert_eq!(compare_lower(&mut score, &words, &tables, cut), 10);
        }
        let mut counts = words.counts;
        match random.below(5) {
            0 => counts.nodes = random.pick(&[536_870_911, 536_870_912, usize::MAX]),
            1 => counts.roots = random.pick(&[4_294_967_295, 4_294_967_296, usize::MAX]),
            2 => counts.num_base = random.pick(&[4_294_967_296, usize::MAX]),
            3 => counts.ext_consts += 1,
            _ => counts.nodes += 1,
        }
        let told = Words {
            counts,
            ..words.clone()
        };
        compare_lower(&mut score, &told, &tables, memory.clone());
        // 8 and 9 are told before a room that is too short, since counts need no words.
        let mut cut = memory.clone();
        cut.words.cut(random.below(4));
        compare_lower(&mut score, &told, &tables, cut);
        if !words.nodes.is_empty() {
            let mut changed = words.clone();
            let at = random.below(changed.nodes.len());
            changed.nodes[at] = random.pick(&hostile);
            let tables = program_bytes(&mut random, &changed);
            compare_lower(&mut score, &changed, &tables, memory);
        }
    }
    score.finish(&[0, 1, 7, 8, 9, 10]);
}
