//! Cases of the program `blob_list`.

use std::fmt::Arguments;

use crate::Score;
use crate::inputs::Random;
use crate::stored::listing::{LONGEST, compare, program};

/// Why there are no such cases here, if so.
pub(super) fn left_out() -> Option<String> {
    program().err()
}

/// What the program prints for a file, most of them with something changed, some too long.
pub(super) fn case(score: &mut Score, random: &mut Random, what: Arguments<'_>) {
    let (.., mut file) = super::stored::a_file(random);
    if random.once_in(10) {
        file.resize(LONGEST + random.below(3), 0);
    }
    let program = program().unwrap_or_else(|what_to_do| panic!("{what_to_do}"));
    compare(score, &program, &[&file], what);
}
