#[forbid(unsafe_code)]
pub mod element;
#[forbid(unsafe_code)]
pub mod errors;
#[forbid(unsafe_code)]
pub mod traits;

// `goldilocks` and `extensions_goldilocks`, from where they stand: the build script writes the declarations.
include!(concat!(env!("OUT_DIR"), "/field.rs"));
