//! The builder's calls over bytes, held to the calls on words: every lent byte, every word of the rooms, counts and handles
//! after each call.

#![forbid(unsafe_code)]

use differential::Score;
use differential::builder::agree::Compared;
use differential::builder::bytes::{any_memory, random_row, row_in_short_rooms, short_row};
use differential::inputs::Random;

/// So many where the build is optimised, else a few of them.
const fn many(cases: u64) -> u64 {
    if cfg!(debug_assertions) { cases / 20 } else { cases }
}

#[test]
fn rows_are_those_on_words_and_of_the_published_builder() {
    const SEED: u64 = 0x6262_7931;
    let (mut random, mut score) = (Random::new(SEED), Score::new("rows of calls on bytes"));
    let mut compared = Compared::default();
    for i in 0..many(4_000) {
        let what = format_args!("row {i} of seed {SEED:#x}");
        random_row(&mut score, &mut random, &mut compared, what);
    }
    compared.say();
    assert_eq!(compared.rows, many(4_000));
    assert!(compared.calls / 10 < compared.shared);
    score.finish(&[0, 1, 2, 10]);
}

#[test]
fn rows_in_tables_that_are_full() {
    const SEED: u64 = 0x6262_7932;
    let (mut random, mut score) = (Random::new(SEED), Score::new("full tables in bytes"));
    for i in 0..many(4_000) {
        short_row(&mut score, &mut random, format_args!("row {i} of seed {SEED:#x}"));
    }
    score.finish(&[0, 1, 2, 3, 4, 5, 6, 10]);
}

/// 1, before the call's own refusals, and nothing is written; exact rooms and longer ones are enough.
#[test]
fn each_room_one_word_short_is_refused_first() {
    const SEED: u64 = 0x6262_7933;
    let (mut random, mut score) = (Random::new(SEED), Score::new("rooms one word short"));
    for i in 0..many(1_000) {
        for spare in [0, 3] {
            let what = format_args!("row {i} of seed {SEED:#x}");
            row_in_short_rooms(&mut score, &mut random, spare, what);
        }
    }
    score.finish(&[0, 1, 2, 3, 4, 5, 6]);
}

#[test]
fn bytes_that_no_builder_wrote() {
    const SEED: u64 = 0x6262_7934;
    let (mut random, mut score) = (Random::new(SEED), Score::new("any bytes"));
    for i in 0..many(40_000) {
        any_memory(&mut score, &mut random, format_args!("memory {i} of seed {SEED:#x}"));
    }
    score.finish(&[0, 1, 2, 3, 4, 5, 6, 10]);
}
