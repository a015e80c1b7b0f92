//! Constraint programs and their device blobs, over the project's proved static library.
//!
//! A [`Program`] is a set of constraints as a flat list of nodes, which a [`Builder`] makes; it is evaluated as it is, or
//! lowered to a [`Blob`], which is kept as a file and walked over one [`Frame`] at a time. What a call cannot do is an
//! [`Error`], which has a number and a place.
//!
//! A field value is a 64-bit word that stands for its remainder by [`P`]. Every word is taken; every word that comes back
//! as a value is below `P`. An extension value, [`Ext`], is three words over w with w³ = 2.
//!
//! ```
//! use host::{Blob, Builder, Frame, Shape, Value};
//!
//! // One constraint: the second row's cell, less the first row's.
//! let mut builder = Builder::new();
//! let (this, next) = (builder.main(0, 0)?, builder.main(1, 0)?);
//! let step = builder.sub(next, this)?;
//! builder.emit(0, step)?;
//! let program = builder.finish(1)?;
//! let blob = Blob::read(program.lower()?.stored())?;
//! let shape = Shape { steps: 2, main_width: 1, ..Shape::default() };
//! blob.check(&shape)?;
//! let frame = Frame { shape, main: &[5, 9], ..Frame::default() };
//! assert_eq!(blob.walk(&frame)?, [Value::Base(4)]);
//! assert_eq!(program.eval(&frame)?, [Value::Base(4)]);
//! # Ok::<(), host::Error>(())
//! ```
//!
//! These types own their memory and allocate what a call borrows. [`lent`] has the library's calls as they are, for a
//! program that lends memory of its own; [`field`] and [`ext`] have the arithmetic. No caller needs `unsafe`.

#![deny(missing_docs)]

mod blob;
mod builder;
mod error;
pub mod ext;
pub mod field;
mod frame;
pub mod lent;
mod program;

pub use blob::{Blob, Evals, Walker};
pub use builder::{Builder, Expr};
pub use error::{Error, Refusal};
pub use frame::{Frame, Value};
pub use lent::blob::BlobCounts;
pub use lent::program::Shape;
pub use program::{Program, ProgramWords};

/// The field's prime, 2^64 - 2^32 + 1.
pub const P: u64 = 0xFFFF_FFFF_0000_0001;

/// An extension value: three words.
pub type Ext = [u64; 3];
