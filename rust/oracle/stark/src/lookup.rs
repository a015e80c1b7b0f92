//! Shim for `lookup.rs`.

use core::marker::PhantomData;

use math::field::traits::IsField;

/// Named in signatures only.
pub struct BusPublicInputs<E: IsField>(PhantomData<E>);
