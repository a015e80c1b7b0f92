//! Shim for `field/element.rs`: an element is its field's value and nothing else, and every operation on it is the
//! field's.

use core::fmt::{self, Debug};
use core::ops::{Add, Mul, Neg, Sub};

use super::errors::FieldError;
use super::traits::{IsField, IsSubFieldOf};

#[repr(transparent)]
pub struct FieldElement<F: IsField> {
    value: F::BaseType,
}

impl<F: IsField> FieldElement<F> {
    /// The element of a value, after the field has had its say about it.
    #[inline(always)]
    pub fn new(value: F::BaseType) -> Self {
        Self::from_raw(F::from_base_type(value))
    }

    /// The element that holds exactly this value.
    #[inline(always)]
    pub fn from_raw(value: F::BaseType) -> Self {
        Self { value }
    }

    #[inline(always)]
    pub fn to_raw(self) -> F::BaseType {
        self.value
    }

    #[inline(always)]
    pub fn value(&self) -> &F::BaseType {
        &self.value
    }

    #[inline(always)]
    pub fn zero() -> Self {
        Self::from_raw(F::zero())
    }

    #[inline(always)]
    pub fn one() -> Self {
        Self::from_raw(F::one())
    }

    #[inline(always)]
    pub fn double(&self) -> Self {
        Self::from_raw(F::double(&self.value))
    }

    #[inline(always)]
    pub fn square(&self) -> Self {
        Self::from_raw(F::square(&self.value))
    }

    /// The same element in an extension, by the published embedding.
    #[inline(always)]
    pub fn to_extension<L: IsField>(self) -> FieldElement<L>
    where
        F: IsSubFieldOf<L>,
    {
        FieldElement::from_raw(<F as IsSubFieldOf<L>>::embed(self.value))
    }

    pub fn inv(&self) -> Result<Self, FieldError> {
        F::inv(&self.value).map(Self::from_raw)
    }
}

impl<F: IsField> From<u64> for FieldElement<F> {
    #[inline(always)]
    fn from(value: u64) -> Self {
        Self::from_raw(F::from_u64(value))
    }
}

// Written after the published comment on `from_i64`: "-x becomes p - x". The original body is absent, so a comparison
// with it would compare with this file; none is made.
impl<F: IsField> From<i64> for FieldElement<F> {
    fn from(value: i64) -> Self {
        let size = Self::from(value.unsigned_abs());
        if value < 0 { -size } else { size }
    }
}

// By hand, since a derive would ask for `F: Copy` where the value's being so is what matters.
impl<F: IsField> Clone for FieldElement<F> {
    #[inline(always)]
    fn clone(&self) -> Self {
        Self::from_raw(self.value.clone())
    }
}

impl<F: IsField> Copy for FieldElement<F> where F::BaseType: Copy {}

impl<F: IsField> Debug for FieldElement<F> {
    fn fmt(&self, f: &mut fmt::Formatter<'_>) -> fmt::Result {
        Debug::fmt(&self.value, f)
    }
}

// Equality is the field's: 0 and p are one element.
impl<F: IsField> PartialEq for FieldElement<F> {
    #[inline(always)]
    fn eq(&self, other: &Self) -> bool {
        F::eq(&self.value, &other.value)
    }
}

impl<F: IsField> Eq for FieldElement<F> {}

/// An operator, with its right side by value and by reference. Both have to be there: with one alone, the compiler would
/// take the right side's field from a bound `F: IsSubFieldOf<E>` in scope, and `interp.rs` would not compile.
macro_rules! operator {
    ($trait:ident, $operation:ident) => {
        impl<F: IsSubFieldOf<L>, L: IsField> $trait<FieldElement<L>> for FieldElement<F> {
            type Output = FieldElement<L>;

            #[inline(always)]
            fn $operation(self, rhs: FieldElement<L>) -> FieldElement<L> {
                FieldElement::from_raw(<F as IsSubFieldOf<L>>::$operation(&self.value, &rhs.value))
            }
        }

        impl<F: IsSubFieldOf<L>, L: IsField> $trait<&FieldElement<L>> for FieldElement<F> {
            type Output = FieldElement<L>;

            #[inline(always)]
            fn $operation(self, rhs: &FieldElement<L>) -> FieldElement<L> {
                FieldElement::from_raw(<F as IsSubFieldOf<L>>::$operation(&self.value, &rhs.value))
            }
        }
    };
}

operator!(Add, add);
operator!(Sub, sub);
operator!(Mul, mul);

impl<F: IsField> Neg for FieldElement<F> {
    type Output = FieldElement<F>;

    #[inline(always)]
    fn neg(self) -> FieldElement<F> {
        -&self
    }
}

impl<F: IsField> Neg for &FieldElement<F> {
    type Output = FieldElement<F>;

    #[inline(always)]
    fn neg(self) -> FieldElement<F> {
        FieldElement::from_raw(F::neg(&self.value))
    }
}

/// Values whose stored form can be read in place. Named by `table.rs`, called by nothing that is compared.
pub trait NativeArchived {}

/// Reads stored elements in place. Here a stored element is the element.
pub struct ArchivedFieldElement<F: IsField>(FieldElement<F>);

impl<F: IsField> ArchivedFieldElement<F> {
    pub fn slice_as_native(stored: &[FieldElement<F>]) -> &[FieldElement<F>] {
        stored
    }
}
