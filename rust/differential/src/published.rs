//! The published operations on plain words, as they answer: nothing is reduced here.

use math::field::extensions_goldilocks::Degree3GoldilocksExtensionField as Ext;
use math::field::goldilocks::{GoldilocksElement, GoldilocksField as Base};
use math::field::traits::{IsField, IsPrimeField, IsSubFieldOf};

use crate::Limbs;

pub fn add(a: u64, b: u64) -> u64 {
    <Base as IsField>::add(&a, &b)
}

pub fn sub(a: u64, b: u64) -> u64 {
    <Base as IsField>::sub(&a, &b)
}

pub fn mul(a: u64, b: u64) -> u64 {
    <Base as IsField>::mul(&a, &b)
}

pub fn neg(a: u64) -> u64 {
    Base::neg(&a)
}

pub fn canonical(x: u64) -> u64 {
    Base::canonical(&x)
}

pub fn from_u64(x: u64) -> u64 {
    Base::from_u64(x)
}

type Element = [GoldilocksElement; 3];

fn element(limbs: Limbs) -> Element {
    limbs.map(GoldilocksElement::from_raw)
}

fn limbs(element: Element) -> Limbs {
    element.map(GoldilocksElement::to_raw)
}

pub fn ext_add(a: Limbs, b: Limbs) -> Limbs {
    limbs(<Ext as IsField>::add(&element(a), &element(b)))
}

pub fn ext_sub(a: Limbs, b: Limbs) -> Limbs {
    limbs(<Ext as IsField>::sub(&element(a), &element(b)))
}

pub fn ext_mul(a: Limbs, b: Limbs) -> Limbs {
    limbs(<Ext as IsField>::mul(&element(a), &element(b)))
}

pub fn ext_neg(a: Limbs) -> Limbs {
    limbs(Ext::neg(&element(a)))
}

pub fn ext_from_u64(x: u64) -> Limbs {
    limbs(Ext::from_u64(x))
}

pub fn embed(x: u64) -> Limbs {
    limbs(<Base as IsSubFieldOf<Ext>>::embed(x))
}

/// A base value plus an extension value, by the published short form.
pub fn mixed_add(a: u64, b: Limbs) -> Limbs {
    limbs(<Base as IsSubFieldOf<Ext>>::add(&a, &element(b)))
}

/// A base value minus an extension value, by the published short form.
pub fn mixed_sub(a: u64, b: Limbs) -> Limbs {
    limbs(<Base as IsSubFieldOf<Ext>>::sub(&a, &element(b)))
}

/// A base value times an extension value, by the published short form.
pub fn mixed_mul(a: u64, b: Limbs) -> Limbs {
    limbs(<Base as IsSubFieldOf<Ext>>::mul(&a, &element(b)))
}
