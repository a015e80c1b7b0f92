//! The builder over bytes: the calls of [`builder`](super::builder), with the tables as little-endian words.
//!
//! Nodes, places and roots have four bytes a word, constants and the gap report eight. Bytes hold as many words as are
//! whole; those that are left over are neither read nor written. The words go into rooms that are lent beside the bytes.
//!
//! Each call refuses with 1 where a room that it uses has fewer words than its bytes, before its own refusals: then nothing
//! is written. Else the words stand at the front of those rooms, also after a refusal; the bytes change on "done" alone.

use super::builder::{Handle, Tables};
use super::call;
use crate::Ext;
use crate::error::{Refusal, done};

/// Rooms for the words of a builder's tables, each as long as the whole words of its bytes at the least.
#[derive(Debug)]
pub struct TableRooms<'a> {
    /// For the nodes.
    pub nodes: &'a mut [u32],
    /// For the places.
    pub places: &'a mut [u32],
    /// For the constants of one class: those that the call is about.
    pub constants: &'a mut [u64],
    /// For the roots.
    pub roots: &'a mut [u32],
}

/// A builder in lent bytes.
#[derive(Debug)]
pub struct ByteTables<'a> {
    /// How much is filled, and the tables.
    pub bytes: Tables<'a, u8, u8>,
    /// Where a call has the words.
    pub words: TableRooms<'a>,
}

impl ByteTables<'_> {
    /// As [`Tables::fresh`].
    pub fn fresh(&mut self, made: &mut Handle) -> Result<(), Refusal> {
        done(call!(cir_builder_new_bytes: constants_bytes base_consts self, made made,))?;
        self.bytes.filled.ext_consts = 0;
        self.bytes.filled.roots = 0;
        Ok(())
    }

    /// As [`Tables::main`].
    pub fn main(&mut self, offset: u8, column: usize, made: &mut Handle) -> Result<(), Refusal> {
        done(call!(cir_builder_main_bytes: builder_bytes self, number u8 offset, number usize column, made made,))
    }

    /// As [`Tables::aux`].
    pub fn aux(&mut self, offset: u8, column: usize, made: &mut Handle) -> Result<(), Refusal> {
        done(call!(cir_builder_aux_bytes: builder_bytes self, number u8 offset, number usize column, made made,))
    }

    /// As [`Tables::challenge`].
    pub fn challenge(&mut self, index: usize, made: &mut Handle) -> Result<(), Refusal> {
        done(call!(cir_builder_challenge_bytes: builder_bytes self, number usize index, made made,))
    }

    /// As [`Tables::alpha_power`].
    pub fn alpha_power(&mut self, index: usize, made: &mut Handle) -> Result<(), Refusal> {
        done(call!(cir_builder_alpha_power_bytes: builder_bytes self, number usize index, made made,))
    }

    /// As [`Tables::table_offset`].
    pub fn table_offset(&mut self, made: &mut Handle) -> Result<(), Refusal> {
        done(call!(cir_builder_table_offset_bytes: builder_bytes self, made made,))
    }

    /// As [`Tables::const_base`].
    pub fn const_base(&mut self, value: u64, made: &mut Handle) -> Result<(), Refusal> {
        done(call!(cir_builder_const_base_bytes: constants_bytes base_consts self, number u64 value, made made,))
    }

    /// As [`Tables::const_signed`].
    pub fn const_signed(&mut self, value: i64, made: &mut Handle) -> Result<(), Refusal> {
        done(call!(cir_builder_const_signed_bytes: constants_bytes base_consts self, number i64 value, made made,))
    }

    /// As [`Tables::const_ext`].
    pub fn const_ext(&mut self, value: Ext, made: &mut Handle) -> Result<(), Refusal> {
        let [a, b, c] = value;
        done(
            call!(cir_builder_const_ext_bytes: constants_bytes ext_consts self, number u64 a, number u64 b, number u64 c, made made,),
        )
    }

    /// As [`Tables::one`].
    pub fn one(&mut self, made: &mut Handle) -> Result<(), Refusal> {
        done(call!(cir_builder_one_bytes: constants_bytes base_consts self, made made,))
    }

    /// As [`Tables::add`].
    pub fn add(&mut self, a: Handle, b: Handle, made: &mut Handle) -> Result<(), Refusal> {
        done(call!(cir_builder_add_bytes: builder_bytes self, handle a, handle b, made made,))
    }

    /// As [`Tables::sub`].
    pub fn sub(&mut self, a: Handle, b: Handle, made: &mut Handle) -> Result<(), Refusal> {
        done(call!(cir_builder_sub_bytes: builder_bytes self, handle a, handle b, made made,))
    }

    /// As [`Tables::mul`].
    pub fn mul(&mut self, a: Handle, b: Handle, made: &mut Handle) -> Result<(), Refusal> {
        done(call!(cir_builder_mul_bytes: builder_bytes self, handle a, handle b, made made,))
    }

    /// As [`Tables::neg`].
    pub fn neg(&mut self, a: Handle, made: &mut Handle) -> Result<(), Refusal> {
        done(call!(cir_builder_neg_bytes: builder_bytes self, handle a, made made,))
    }

    /// As [`Tables::embed`].
    pub fn embed(&mut self, a: Handle, made: &mut Handle) -> Result<(), Refusal> {
        done(call!(cir_builder_embed_bytes: builder_bytes self, handle a, made made,))
    }

    /// As [`Tables::emit`]. The nodes are only read.
    pub fn emit(&mut self, constraint: usize, root: Handle) -> Result<(), Refusal> {
        done(call!(
            cir_builder_emit_bytes:
            number usize self.bytes.filled.nodes,
            out usize &mut self.bytes.filled.roots,
            read u8 self.bytes.nodes,
            write u8 self.bytes.roots,
            write u32 self.words.nodes,
            write u32 self.words.roots,
            number usize constraint,
            handle root,
        ))
    }
}

/// As [`builder::gaps`](super::builder::gaps), into eight bytes a gap. The roots are only read.
pub fn gaps(
    filled: usize,
    roots: &[u8],
    out: &mut [u8],
    root_words: &mut [u32],
    out_words: &mut [u64],
    count: &mut u64,
) -> Result<(), Refusal> {
    done(call!(
        cir_builder_gaps_bytes:
        number usize filled,
        read u8 roots,
        write u8 out,
        write u32 root_words,
        write u64 out_words,
        out u64 count,
    ))
}
