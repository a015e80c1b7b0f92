//! Cases of blobs: the check and the walk.

use std::fmt::Arguments;

use crate::Score;
use crate::blobs::agree::agree;
use crate::blobs::damage::{change_some, small_blobs};
use crate::blobs::lease::{Lease, NEEDS};
use crate::blobs::{BlobWords, published};
use crate::inputs::Random;
use crate::programs::{Cells, PROVER, small_shape};

/// A legal blob and a frame for it: of a lowered program, or now and then of those that have everything.
pub(super) fn legal(random: &mut Random) -> (BlobWords, Cells) {
    if random.once_in(8) {
        let blobs = small_blobs(random, 3, 40);
        return blobs[random.below(blobs.len())].clone();
    }
    let shape = small_shape(random);
    let blob = published::lower(&super::programs::build_one(random, shape));
    (blob, Cells::random(random, shape, PROVER))
}

/// The check and the walk of a blob in which three of four have something changed, against the published walk.
pub(super) fn changed(score: &mut Score, random: &mut Random, what: Arguments<'_>) {
    let (mut words, mut cells) = legal(random);
    // A change needs a node to change.
    if !words.nodes.is_empty() && !random.once_in(4) {
        change_some(random, &mut words, &mut cells);
    }
    words.lengthen(random);
    cells.lengthen(random);
    agree(score, &words.exact(), &cells.exact(), random.below(3), what);
}

/// The check and the walk with something that they are lent cut short.
pub(super) fn cut(score: &mut Score, random: &mut Random, what: Arguments<'_>) {
    let (words, cells) = legal(random);
    let mut lease = Lease::new(words, cells);
    let need = random.below(NEEDS.len());
    let len = lease.len(need);
    lease.cut(need, random.pick(&[0, len / 2, len.saturating_sub(1), len]));
    lease.words = lease.words.exact();
    lease.cells = lease.cells.exact();
    _ = lease.run(score, what);
}
