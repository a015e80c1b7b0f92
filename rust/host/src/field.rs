//! The base field.

use crate::error::{Refusal, done};
use crate::lent::call;

/// `x` modulo p.
#[inline]
pub fn reduce(x: u64) -> u64 {
    call!(cir_field_reduce: number u64 x,)
}

/// `a + b` modulo p.
#[inline]
pub fn add(a: u64, b: u64) -> u64 {
    call!(cir_field_add: number u64 a, number u64 b,)
}

/// `a - b` modulo p.
#[inline]
pub fn sub(a: u64, b: u64) -> u64 {
    call!(cir_field_sub: number u64 a, number u64 b,)
}

/// `a · b` modulo p.
#[inline]
pub fn mul(a: u64, b: u64) -> u64 {
    call!(cir_field_mul: number u64 a, number u64 b,)
}

/// `-a` modulo p.
#[inline]
pub fn neg(a: u64) -> u64 {
    call!(cir_field_neg: number u64 a,)
}

/// `v` if it is not negative, else p - |v|.
#[inline]
pub fn from_i64(v: i64) -> u64 {
    call!(cir_field_from_i64: number i64 v,)
}

/// Adds to each word of `xs` the word of `ys` at its place. Refusal 1 if `ys` is the shorter one.
#[inline]
pub fn add_each(xs: &mut [u64], ys: &[u64]) -> Result<(), Refusal> {
    done(call!(cir_field_add_each: write u64 xs, read u64 ys,))
}

/// Subtracts from each word of `xs` the word of `ys` at its place. Refusal 1 if `ys` is the shorter one.
#[inline]
pub fn sub_each(xs: &mut [u64], ys: &[u64]) -> Result<(), Refusal> {
    done(call!(cir_field_sub_each: write u64 xs, read u64 ys,))
}

/// Multiplies each word of `xs` by the word of `ys` at its place. Refusal 1 if `ys` is the shorter one.
#[inline]
pub fn mul_each(xs: &mut [u64], ys: &[u64]) -> Result<(), Refusal> {
    done(call!(cir_field_mul_each: write u64 xs, read u64 ys,))
}

/// `x` plus every word of `ys`, one after the other.
#[inline]
pub fn add_chain(x: u64, ys: &[u64]) -> u64 {
    call!(cir_field_add_chain: number u64 x, read u64 ys,)
}

/// `x` minus every word of `ys`, one after the other.
#[inline]
pub fn sub_chain(x: u64, ys: &[u64]) -> u64 {
    call!(cir_field_sub_chain: number u64 x, read u64 ys,)
}

/// `x` times every word of `ys`, one after the other.
#[inline]
pub fn mul_chain(x: u64, ys: &[u64]) -> u64 {
    call!(cir_field_mul_chain: number u64 x, read u64 ys,)
}
