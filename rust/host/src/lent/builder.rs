//! The builder: nodes of a program, made one call at a time and shared.
//!
//! A builder is five lent tables and how much of four of them is filled. [`Tables::fresh`] makes a fresh one, whose node 0 is
//! the base constant 0; each other call makes a node, or finds the one that is there, and gives its [`Handle`]. Equal nodes
//! are found through hash places, which hold 0 where they are free and else a node's id plus 1: a lookup takes the same
//! time in any table if about half of its places are free. The nodes are those of [`program`](super::program).
//!
//! The refusals are taken in the order 1, 2, 3, 6, 5, 4, without those that cannot happen in a call, and the first that
//! holds is answered: then nothing has changed. The tables may hold any words, and the counts may be any numbers: every
//! call is safe, and answers by the words that are there.

use super::call;
use crate::Ext;
use crate::error::{Refusal, done};

/// A node of a builder.
#[derive(Clone, Copy, Debug, Default, PartialEq, Eq, Hash)]
pub struct Handle {
    /// The node's number.
    pub id: u32,
    /// 0 for base, 1 for extension.
    pub dim: u32,
}

/// How much of each table is filled.
#[derive(Clone, Copy, Debug, Default, PartialEq, Eq)]
pub struct Filled {
    /// Nodes.
    pub nodes: usize,
    /// Constants of the base field.
    pub base_consts: usize,
    /// Constants of the extension.
    pub ext_consts: usize,
    /// Constraints up to the highest that has a root.
    pub roots: usize,
}

/// A builder in lent words; in [`builder_bytes`](super::builder_bytes) its tables are bytes. What fits is the least of the
/// nodes, the places and 536,870,911; a table of constants too stops there.
#[derive(Debug)]
pub struct Tables<'a, Short = u32, Long = u64> {
    /// How much of each table is filled.
    pub filled: Filled,
    /// Four words a node.
    pub nodes: &'a mut [Short],
    /// One word a place. Twice as many as nodes is a good number; it has to be the same in every call of one builder, or
    /// equal nodes are not found again.
    pub places: &'a mut [Short],
    /// One word a constant.
    pub base_consts: &'a mut [Long],
    /// Three words a constant.
    pub ext_consts: &'a mut [Long],
    /// One word a constraint.
    pub roots: &'a mut [Short],
}

impl Tables<'_> {
    /// Makes it a fresh builder: every place is free, and node 0 is the base constant 0, whose handle is made. Refusals: 5, 4.
    pub fn fresh(&mut self, made: &mut Handle) -> Result<(), Refusal> {
        done(call!(cir_builder_new: constants base_consts self, made made,))?;
        self.filled.ext_consts = 0;
        self.filled.roots = 0;
        Ok(())
    }

    /// A cell of the main trace at this step, which is base. Refusals: 1, 2, 4.
    pub fn main(&mut self, offset: u8, column: usize, made: &mut Handle) -> Result<(), Refusal> {
        done(call!(cir_builder_main: builder self, number u8 offset, number usize column, made made,))
    }

    /// A cell of the aux trace. Refusals: 1, 2, 4.
    pub fn aux(&mut self, offset: u8, column: usize, made: &mut Handle) -> Result<(), Refusal> {
        done(call!(cir_builder_aux: builder self, number u8 offset, number usize column, made made,))
    }

    /// A challenge. Refusals: 1, 2, 4.
    pub fn challenge(&mut self, index: usize, made: &mut Handle) -> Result<(), Refusal> {
        done(call!(cir_builder_challenge: builder self, number usize index, made made,))
    }

    /// An alpha power. Refusals: 1, 2, 4.
    pub fn alpha_power(&mut self, index: usize, made: &mut Handle) -> Result<(), Refusal> {
        done(call!(cir_builder_alpha_power: builder self, number usize index, made made,))
    }

    /// The table offset. Refusals: 1, 4.
    pub fn table_offset(&mut self, made: &mut Handle) -> Result<(), Refusal> {
        done(call!(cir_builder_table_offset: builder self, made made,))
    }

    /// A constant of the base field, shared by value: 0 and p are one. Refusals: 1, 5, 4.
    pub fn const_base(&mut self, value: u64, made: &mut Handle) -> Result<(), Refusal> {
        done(call!(cir_builder_const_base: constants base_consts self, number u64 value, made made,))
    }

    /// As [`const_base`](Tables::const_base), where a negative value is p less its size.
    pub fn const_signed(&mut self, value: i64, made: &mut Handle) -> Result<(), Refusal> {
        done(call!(cir_builder_const_signed: constants base_consts self, number i64 value, made made,))
    }

    /// A constant of the extension, shared by value. Refusals: 1, 5, 4.
    pub fn const_ext(&mut self, value: Ext, made: &mut Handle) -> Result<(), Refusal> {
        done(
            call!(cir_builder_const_ext: constants ext_consts self, number u64 value[0], number u64 value[1], number u64 value[2], made made,),
        )
    }

    /// The base constant 1. Refusals: 1, 5, 4.
    pub fn one(&mut self, made: &mut Handle) -> Result<(), Refusal> {
        done(call!(cir_builder_one: constants base_consts self, made made,))
    }

    /// `a + b`, which is base exactly if both are. Refusals: 1, 3, 4.
    pub fn add(&mut self, a: Handle, b: Handle, made: &mut Handle) -> Result<(), Refusal> {
        done(call!(cir_builder_add: builder self, handle a, handle b, made made,))
    }

    /// `a - b`, likewise. Refusals: 1, 3, 4.
    pub fn sub(&mut self, a: Handle, b: Handle, made: &mut Handle) -> Result<(), Refusal> {
        done(call!(cir_builder_sub: builder self, handle a, handle b, made made,))
    }

    /// `a * b`, likewise. Refusals: 1, 3, 4.
    pub fn mul(&mut self, a: Handle, b: Handle, made: &mut Handle) -> Result<(), Refusal> {
        done(call!(cir_builder_mul: builder self, handle a, handle b, made made,))
    }

    /// `-a`, of a's dim. Refusals: 1, 3, 4.
    pub fn neg(&mut self, a: Handle, made: &mut Handle) -> Result<(), Refusal> {
        done(call!(cir_builder_neg: builder self, handle a, made made,))
    }

    /// `a` as an extension value, also where it is one. Refusals: 1, 3, 4.
    pub fn embed(&mut self, a: Handle, made: &mut Handle) -> Result<(), Refusal> {
        done(call!(cir_builder_embed: builder self, handle a, made made,))
    }

    /// Makes a node the root of a constraint, in place of the one that it has. Constraints before it that have none get
    /// node 0. Refusals: 1, 3, 6.
    pub fn emit(&mut self, constraint: usize, root: Handle) -> Result<(), Refusal> {
        done(call!(
            cir_builder_emit:
            number usize self.filled.nodes,
            out usize &mut self.filled.roots,
            read u32 self.nodes,
            write u32 self.roots,
            number usize constraint,
            handle root,
        ))
    }
}

/// Writes the constraints below `filled` whose root is node 0, ascending, into the beginning of `out`, and how many they are
/// into `count`. Refusals: 1, then 10.
pub fn gaps(filled: usize, roots: &[u32], out: &mut [u64], count: &mut u64) -> Result<(), Refusal> {
    done(call!(
        cir_builder_gaps:
        number usize filled,
        read u32 roots,
        write u64 out,
        out u64 count,
    ))
}
