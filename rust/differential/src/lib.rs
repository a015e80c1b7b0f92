//! What the comparisons in tests/ share: the inputs, the published operations on plain words, the same operations by
//! plain arithmetic, and the comparison itself; and all of that once more for programs, for the builder, for lowering, for
//! blobs and for their stored form.
//! Besides, the lines of the samples that Rattle programs replay.
//!
//! The host promises words below p; the published Rust leaves any word with the right remainder. So a published word
//! is reduced here before it is compared, and the host's is compared as it is.

#![forbid(unsafe_code)]

pub mod blobs;
pub mod builder;
pub mod harness;
pub mod inputs;
pub mod lines;
pub mod lowering;
pub mod plain;
pub mod programs;
pub mod published;
pub mod quiet;
pub mod stored;
mod tally;

pub use math::field::goldilocks::GOLDILOCKS_PRIME as P;
pub use tally::{Score, Tally};

/// An extension value: three words.
pub type Limbs = [u64; 3];
