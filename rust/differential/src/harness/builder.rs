//! Cases of the builder.

use std::fmt::Arguments;

use crate::Score;
use crate::builder::{agree, bytes, hostile};
use crate::inputs::Random;

/// A row of calls where there is room for all, against the published builder.
pub(super) fn calls(score: &mut Score, random: &mut Random, what: Arguments<'_>) {
    agree::random_row(score, random, &mut agree::Compared::default(), what);
}

/// A row of calls in tables that are too short for it.
pub(super) fn full(score: &mut Score, random: &mut Random, what: Arguments<'_>) {
    agree::short_row(score, random, what);
}

/// A few calls over memory that no builder wrote.
pub(super) fn any_memory(score: &mut Score, random: &mut Random, what: Arguments<'_>) {
    hostile::case(score, random, what);
}

/// Calls over bytes: a row where there is room for all, one in tables that are too short for it, or a few over any bytes.
pub(super) fn in_bytes(score: &mut Score, random: &mut Random, what: Arguments<'_>) {
    match random.below(3) {
        0 => bytes::random_row(score, random, &mut agree::Compared::default(), what),
        1 => bytes::short_row(score, random, what),
        _ => bytes::any_memory(score, random, what),
    }
}
