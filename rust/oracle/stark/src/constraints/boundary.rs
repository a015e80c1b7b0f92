//! Shim for `constraints/boundary.rs`.

use core::marker::PhantomData;

use math::field::traits::IsField;

/// Named in a signature only.
pub struct BoundaryConstraints<E: IsField>(PhantomData<E>);
