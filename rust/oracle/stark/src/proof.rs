//! Shim for the folder `proof`.

pub mod options {
    /// Handed on only.
    pub struct ProofOptions;
}
