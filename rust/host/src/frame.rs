//! What the leaves of a program read, and what its constraints come to.

use std::fmt;

use crate::lent::program as lent;
use crate::{Ext, Shape};

/// What the leaves of a program or blob read at one row: `shape.steps` rows of cells, by step and then by column, and what
/// is the same in all rows. A slice may be longer than the shape says.
///
/// A main cell is one word for the prover; for [`Program::eval_verifier`](crate::Program::eval_verifier) it is an [`Ext`].
#[derive(Clone, Copy, Debug, Default)]
pub struct Frame<'a, Cell = u64> {
    /// How many of each thing there are.
    pub shape: Shape,
    /// The main trace's cells.
    pub main: &'a [Cell],
    /// The aux trace's cells.
    pub aux: &'a [Ext],
    /// The challenges.
    pub challenges: &'a [Ext],
    /// The alpha powers.
    pub alphas: &'a [Ext],
    /// The table offset.
    pub table_offset: Ext,
}

impl<Cell> Frame<'_, Cell> {
    /// The frame in plain words, with those of its main cells.
    fn with<'a>(&'a self, main: &'a [u64]) -> lent::Frame<'a> {
        lent::Frame {
            shape: self.shape,
            main,
            aux: self.aux.as_flattened(),
            challenges: self.challenges.as_flattened(),
            alphas: self.alphas.as_flattened(),
            table_offset: self.table_offset,
        }
    }
}

impl Frame<'_> {
    pub(crate) fn lend(&self) -> lent::Frame<'_> {
        self.with(self.main)
    }
}

impl Frame<'_, Ext> {
    pub(crate) fn lend_ext(&self) -> lent::Frame<'_> {
        self.with(self.main.as_flattened())
    }
}

/// What a constraint comes to. Its words are below [`P`](crate::P).
#[derive(Clone, Copy, Debug, PartialEq, Eq)]
pub enum Value {
    /// A value of the base field.
    Base(u64),
    /// A value of the extension.
    Ext(Ext),
}

impl Value {
    /// Whether the constraint holds.
    pub fn is_zero(&self) -> bool {
        match self {
            Value::Base(word) => *word == 0,
            Value::Ext(limbs) => *limbs == [0; 3],
        }
    }
}

impl fmt::Display for Value {
    fn fmt(&self, f: &mut fmt::Formatter<'_>) -> fmt::Result {
        match self {
            Value::Base(word) => write!(f, "{word}"),
            Value::Ext([a, b, c]) => write!(f, "({a}, {b}, {c})"),
        }
    }
}
