//! The builders that own their tables and give handles of their own: the host's and the published one.

use host::lent::builder::Handle;
use host::{Builder, Error};
use math::field::extensions_goldilocks::Degree3GoldilocksExtensionField as Ext;
use math::field::goldilocks::GoldilocksField as Base;
use stark::constraint_ir as published;

use super::Call;
use crate::programs::published::ext_element;

pub trait Owned {
    type Expr: Copy;
    /// What a call answers.
    type Made;

    /// A call that makes a node; `exprs` has the handles by their numbers.
    fn make(&mut self, exprs: &[Self::Expr], call: &Call) -> Self::Made;
}

macro_rules! owned {
    ($builder:ty, $expr:ty, $made:ty, $ext:expr) => {
        impl Owned for $builder {
            type Expr = $expr;
            type Made = $made;

            fn make(&mut self, exprs: &[$expr], call: &Call) -> $made {
                let expr = |handle: Handle| exprs[handle.id as usize];
                match *call {
                    Call::Main { offset, column } => self.main(offset, column),
                    Call::Aux { offset, column } => self.aux(offset, column),
                    Call::Challenge(index) => self.challenge(index),
                    Call::AlphaPower(index) => self.alpha_power(index),
                    Call::TableOffset => self.table_offset(),
                    Call::ConstBase(value) => self.const_base(value),
                    Call::ConstSigned(value) => self.const_signed(value),
                    Call::ConstExt(limbs) => self.const_ext($ext(limbs)),
                    Call::One => self.one(),
                    Call::Add(a, b) => self.add(expr(a), expr(b)),
                    Call::Sub(a, b) => self.sub(expr(a), expr(b)),
                    Call::Mul(a, b) => self.mul(expr(a), expr(b)),
                    Call::Neg(a) => self.neg(expr(a)),
                    Call::Embed(a) => self.embed(expr(a)),
                    Call::New | Call::Emit(..) => unreachable!("{call:?} makes no node"),
                }
            }
        }
    };
}

/// The published builder over the published fields.
pub type PublishedBuilder = published::IrBuilder<Base, Ext>;

owned!(Builder, host::Expr, Result<host::Expr, Error>, |limbs| limbs);
owned!(PublishedBuilder, published::Expr, published::Expr, ext_element);
