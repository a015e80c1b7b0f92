//! The cubic extension. A value is the first three words of a slice; a slice of fewer is refused with 1, and words
//! past the third are never touched.

use crate::error::{Refusal, done};
use crate::lent::call;

/// Writes `x` as an extension value, (x, 0, 0), into `out`.
#[inline]
pub fn embed(x: u64, out: &mut [u64]) -> Result<(), Refusal> {
    done(call!(cir_ext_embed: number u64 x, write u64 out,))
}

/// `a` becomes `a + b`.
#[inline]
pub fn add(a: &mut [u64], b: &[u64]) -> Result<(), Refusal> {
    done(call!(cir_ext_add: write u64 a, read u64 b,))
}

/// `a` becomes `a - b`.
#[inline]
pub fn sub(a: &mut [u64], b: &[u64]) -> Result<(), Refusal> {
    done(call!(cir_ext_sub: write u64 a, read u64 b,))
}

/// `a` becomes `a · b`.
#[inline]
pub fn mul(a: &mut [u64], b: &[u64]) -> Result<(), Refusal> {
    done(call!(cir_ext_mul: write u64 a, read u64 b,))
}

/// `a` becomes `-a`.
#[inline]
pub fn neg(a: &mut [u64]) -> Result<(), Refusal> {
    done(call!(cir_ext_neg: write u64 a,))
}

/// Multiplies each triple of `xs` by the triple of `ys` at its place. One or two words of `xs` that are left over stay
/// as they are. Refusal 1 if `ys` is the shorter one; no length is too short besides.
#[inline]
pub fn mul_each(xs: &mut [u64], ys: &[u64]) -> Result<(), Refusal> {
    done(call!(cir_ext_mul_each: write u64 xs, read u64 ys,))
}

/// `x` becomes `x` times every triple of `ys`, one after the other. One or two words of `ys` that are left over count
/// for nothing; without a whole triple `x` keeps its value, and its words are put below p. Refusal 1 if `x` has fewer
/// than three words.
#[inline]
pub fn mul_chain(x: &mut [u64], ys: &[u64]) -> Result<(), Refusal> {
    done(call!(cir_ext_mul_chain: write u64 x, read u64 ys,))
}
