//! The published constraint files, compiled unchanged, inside the module tree that they expect. The modules written
//! here are shims for files that were not published; ../../README.md says what each stands for. One is not:
//! `program_e` is a program for tests.

// Crates that the published files name and that are not at hand: what they use of them is here.
extern crate self as crypto;
extern crate self as itertools;
extern crate self as rkyv;
extern crate self as serde;

#[forbid(unsafe_code)]
pub mod config;
pub mod constraint_ir;
pub mod constraints;
#[forbid(unsafe_code)]
pub mod context;
#[forbid(unsafe_code)]
pub mod debug;
#[forbid(unsafe_code)]
pub mod domain;
#[forbid(unsafe_code)]
pub mod fiat_shamir;
#[forbid(unsafe_code)]
pub mod lookup;
#[forbid(unsafe_code)]
mod outside;
#[forbid(unsafe_code)]
mod program_e;
#[forbid(unsafe_code)]
pub mod proof;
#[forbid(unsafe_code)]
pub mod trace;

pub use oracle_derives::{Archive, Deserialize, Serialize};
pub use outside::{Itertools, StoredLength};
pub use program_e::program_e;

// `frame`, `table` and `traits`, from where they stand: the build script writes the declarations.
include!(concat!(env!("OUT_DIR"), "/stark.rs"));
