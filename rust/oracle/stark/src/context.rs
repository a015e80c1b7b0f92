//! Shim for `context.rs`.

use crate::proof::options::ProofOptions;

/// The two fields that `traits.rs` reads.
pub struct AirContext {
    pub proof_options: ProofOptions,
    pub num_transition_constraints: usize,
}
