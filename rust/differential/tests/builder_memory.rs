//! Memory that no builder wrote, under counts that are any numbers: every call is safe, answers by the words that are there,
//! and where it refuses it changes none.

#![forbid(unsafe_code)]

use differential::Score;
use differential::builder::Call;
use differential::builder::compare::{Memory, Words};
use differential::builder::hostile;
use differential::inputs::Random;
use host::lent::builder::{Filled, Handle};

#[test]
fn calls_over_any_memory_answer_by_the_stored_words() {
    const SEED: u64 = 0x616E_7921;
    let memories = if cfg!(debug_assertions) { 10_000 } else { 300_000 };
    let (mut random, mut score) = (Random::new(SEED), Score::new("any memory"));
    let (mut calls, mut found) = (0, 0);
    for i in 0..memories {
        let answered = hostile::case(&mut score, &mut random, format_args!("memory {i} of seed {SEED:#x}"));
        calls += answered.calls;
        found += answered.found;
    }
    println!("any memory: {memories} memories, {calls} calls, {found} of them answered with a node that was there");
    assert!(calls / 30 < found);
    score.finish(&[0, 1, 2, 3, 4, 5, 6, 10]);
}

/// What the places hold, in words and by their number.
type Ring = (&'static str, fn(usize) -> u32);

/// A walk that meets neither a free place nor an equal node ends after each place once, and is a refusal 4: also where the
/// table has room for a node.
#[test]
fn a_walk_without_an_end_is_refused() {
    let mut score = Score::new("walks without an end");
    for len in 1..200 {
        let nodes = 3;
        let rings: [Ring; 5] = [
            ("a ring of nodes", |at| at as u32 % 3 + 1),
            ("one node everywhere", |_| 2),
            ("all ones", |_| u32::MAX),
            ("the first name past the count", |_| 4),
            ("a half of each", |at| if at % 2 == 0 { u32::MAX } else { 1 }),
        ];
        for (ring, word) in rings {
            let words = Words {
                filled: Filled {
                    nodes: nodes.min(len),
                    base_consts: 1,
                    ext_consts: 1,
                    roots: 0,
                },
                nodes: [vec![0, 0, 0, 0, 2, 0, 1 << 16, 0, 5, 0, 0, 1], vec![0; 40]].concat(),
                places: (0..len).map(word).collect(),
                base_consts: vec![3; 2],
                ext_consts: vec![3; 6],
                roots: vec![],
            };
            let mut memory = Memory::of(&words);
            for call in [
                Call::Challenge(7),
                Call::Neg(Handle::default()),
                Call::ConstBase(4),
                Call::ConstExt([4; 3]),
            ] {
                let (answer, _) = memory.call(&mut score, &call, format_args!("{ring}, {len} places"));
                let number = answer.map_err(|refusal| refusal.number);
                assert_eq!(number, Err(4), "{call:?}, {ring}, {len} places");
                assert_eq!(memory.words(), words, "{call:?}, {ring}, {len} places");
            }
        }
    }
    score.finish(&[4]);
}
