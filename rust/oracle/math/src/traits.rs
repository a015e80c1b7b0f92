//! Shim for `traits.rs`: the headers of the two byte traits.

#[cfg(feature = "alloc")]
use alloc::vec::Vec;

use crate::errors::ByteConversionError;

pub trait ByteConversion {
    const BYTE_LEN: usize;

    /// The published files leave this one out for arrays of elements, so it has a body in the original. What that
    /// body does is not known here, and nothing that is compared calls it.
    fn write_bytes_be(&self, _buf: &mut [u8]) {
        unimplemented!("the provided body of write_bytes_be was not published")
    }

    #[cfg(feature = "alloc")]
    fn to_bytes_be(&self) -> Vec<u8>;

    #[cfg(feature = "alloc")]
    fn to_bytes_le(&self) -> Vec<u8>;

    fn from_bytes_be(bytes: &[u8]) -> Result<Self, ByteConversionError>
    where
        Self: Sized;

    fn from_bytes_le(bytes: &[u8]) -> Result<Self, ByteConversionError>
    where
        Self: Sized;
}

pub trait AsBytes {
    #[cfg(feature = "alloc")]
    fn as_bytes(&self) -> Vec<u8>;

    fn stream_bytes(&self, sink: &mut dyn FnMut(&[u8]));
}
