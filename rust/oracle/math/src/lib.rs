//! The published field files, compiled unchanged, inside the module tree that they expect. The modules written here
//! are shims for files that were not published; ../../README.md says what each stands for.

// The published files name `alloc::vec::Vec`.
extern crate alloc;

#[forbid(unsafe_code)]
pub mod errors;
pub mod field;
#[forbid(unsafe_code)]
pub mod traits;
