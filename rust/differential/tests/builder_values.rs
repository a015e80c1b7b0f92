//! Rows of calls on the host's builder, held to the published builder call by call, and to both plain ones.

#![forbid(unsafe_code)]

use differential::Score;
use differential::builder::agree::{Compared, random_row};
use differential::inputs::Random;

#[test]
fn random_rows_agree_with_the_published_builder() {
    const SEED: u64 = 0x6275_696C;
    let rows = if cfg!(debug_assertions) { 1_000 } else { 20_000 };
    let (mut random, mut score) = (Random::new(SEED), Score::new("rows of calls"));
    let mut compared = Compared::default();
    for i in 0..rows {
        random_row(
            &mut score,
            &mut random,
            &mut compared,
            format_args!("row {i} of seed {SEED:#x}"),
        );
    }
    compared.say();
    assert_eq!(compared.rows, rows);
    // Equal nodes meet, and so do indexes that are too high.
    assert!(compared.calls / 10 < compared.shared && compared.calls / 200 < compared.refused);
    score.finish(&[0, 2]);
}
