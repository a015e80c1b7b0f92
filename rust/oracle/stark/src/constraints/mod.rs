#[forbid(unsafe_code)]
pub mod boundary;
#[forbid(unsafe_code)]
pub mod zerofier;

// `builder`, from where it stands: the build script writes the declaration.
include!(concat!(env!("OUT_DIR"), "/constraints.rs"));
