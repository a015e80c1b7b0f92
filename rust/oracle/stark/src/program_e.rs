//! Program E of the scope document, for tests here and beside this crate. No part of the published files.

use crate::constraint_ir::{ConstraintProgram, IrBuilder};

/// Program E, captured by the published builder.
pub fn program_e() -> ConstraintProgram {
    let mut builder: IrBuilder = IrBuilder::new();
    let first = builder.main(0, 0);
    let second = builder.main(1, 0);
    let difference = builder.sub(second, first);
    let one = builder.const_base(1);
    let base = builder.sub(difference, one);
    builder.emit(0, base);
    let aux = builder.aux(0, 2);
    let challenge = builder.challenge(0);
    let product = builder.mul(aux, challenge);
    let sum = builder.add(product, base);
    builder.emit(1, sum);
    builder.finish(1)
}
