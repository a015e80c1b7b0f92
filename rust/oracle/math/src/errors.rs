//! Shim for `errors.rs`: the cases that the published files name.

#[derive(Clone, Copy, Debug, PartialEq, Eq)]
pub enum ByteConversionError {
    FromBEBytesError,
    FromLEBytesError,
}

#[derive(Clone, Copy, Debug, PartialEq, Eq)]
pub enum CreationError {
    InvalidHexString,
}
