//! Shim for the crate `crypto`'s module of this name.

pub mod is_transcript {
    /// Named in a signature only.
    pub trait IsStarkTranscript<E, F> {}
}
