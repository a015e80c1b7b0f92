//! Shim for `config.rs`.

/// `traits.rs` writes one as `[0u8; 32]`.
pub type Commitment = [u8; 32];
