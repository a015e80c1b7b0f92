//! Shim for `field/errors.rs`: the one case that the published files name.

#[derive(Clone, Copy, Debug, PartialEq, Eq)]
pub enum FieldError {
    InvZeroError,
}
