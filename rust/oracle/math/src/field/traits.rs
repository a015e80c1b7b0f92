//! Shim for `field/traits.rs`: the headers of the field traits, read off the published implementations.
//!
//! No trait here has a provided body, so every operation that runs on the two Goldilocks fields is the published one.
//! The one implementation written here is that of a field as a part of itself, which hands each operation on.

use core::fmt::Debug;

use super::element::FieldElement;
use super::errors::FieldError;
use crate::errors::CreationError;

pub trait IsField: Clone + Debug {
    type BaseType: Clone + Debug;

    fn add(a: &Self::BaseType, b: &Self::BaseType) -> Self::BaseType;
    fn mul(a: &Self::BaseType, b: &Self::BaseType) -> Self::BaseType;
    fn square(a: &Self::BaseType) -> Self::BaseType;
    fn sub(a: &Self::BaseType, b: &Self::BaseType) -> Self::BaseType;
    fn neg(a: &Self::BaseType) -> Self::BaseType;
    fn inv(a: &Self::BaseType) -> Result<Self::BaseType, FieldError>;
    fn div(a: &Self::BaseType, b: &Self::BaseType) -> Result<Self::BaseType, FieldError>;
    fn eq(a: &Self::BaseType, b: &Self::BaseType) -> bool;
    fn zero() -> Self::BaseType;
    fn one() -> Self::BaseType;
    fn from_u64(x: u64) -> Self::BaseType;
    fn from_base_type(x: Self::BaseType) -> Self::BaseType;
    fn double(a: &Self::BaseType) -> Self::BaseType;
}

/// `Self` is a part of the field `F`.
pub trait IsSubFieldOf<F: IsField>: IsField {
    fn mul(a: &Self::BaseType, b: &F::BaseType) -> F::BaseType;
    fn add(a: &Self::BaseType, b: &F::BaseType) -> F::BaseType;
    fn div(a: &Self::BaseType, b: &F::BaseType) -> Result<F::BaseType, FieldError>;
    fn sub(a: &Self::BaseType, b: &F::BaseType) -> F::BaseType;
    fn embed(a: Self::BaseType) -> F::BaseType;
    #[cfg(feature = "alloc")]
    fn to_subfield_vec(b: F::BaseType) -> alloc::vec::Vec<Self::BaseType>;
}

// A field is a part of itself: then one operator of `FieldElement` serves two elements of one field as well as an
// element of a field and one of its extension.
impl<F: IsField> IsSubFieldOf<F> for F {
    #[inline(always)]
    fn mul(a: &F::BaseType, b: &F::BaseType) -> F::BaseType {
        <F as IsField>::mul(a, b)
    }

    #[inline(always)]
    fn add(a: &F::BaseType, b: &F::BaseType) -> F::BaseType {
        <F as IsField>::add(a, b)
    }

    #[inline(always)]
    fn div(a: &F::BaseType, b: &F::BaseType) -> Result<F::BaseType, FieldError> {
        <F as IsField>::div(a, b)
    }

    #[inline(always)]
    fn sub(a: &F::BaseType, b: &F::BaseType) -> F::BaseType {
        <F as IsField>::sub(a, b)
    }

    #[inline(always)]
    fn embed(a: F::BaseType) -> F::BaseType {
        a
    }

    #[cfg(feature = "alloc")]
    fn to_subfield_vec(b: F::BaseType) -> alloc::vec::Vec<F::BaseType> {
        alloc::vec![b]
    }
}

pub trait IsPrimeField: IsField {
    type CanonicalType;

    fn canonical(a: &Self::BaseType) -> Self::CanonicalType;
    fn from_hex(hex_string: &str) -> Result<Self::BaseType, CreationError>;
    #[cfg(feature = "std")]
    fn to_hex(a: &Self::BaseType) -> String;
    fn field_bit_size() -> usize;
}

pub trait IsFFTField: IsField {
    const TWO_ADICITY: u64;
    // The name is spelt so in the published files.
    const TWO_ADIC_PRIMITVE_ROOT_OF_UNITY: Self::BaseType;

    fn field_name() -> &'static str;
}

pub trait HasDefaultTranscript: IsField {
    fn sample_field_element_from(next_u64: impl FnMut() -> u64) -> FieldElement<Self>;
}
