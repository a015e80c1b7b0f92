//! Shim for `domain.rs`.

use core::marker::PhantomData;

use math::field::traits::IsField;

/// Handed on only.
pub struct Domain<F: IsField>(PhantomData<F>);
