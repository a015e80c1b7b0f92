// `builder`, `device`, `interp` and `ir`, from where they stand: the build script writes the declarations.
include!(concat!(env!("OUT_DIR"), "/constraint_ir.rs"));

pub use builder::{Expr, IrBuilder};
pub use ir::{ConstraintProgram, Dim, Op};
