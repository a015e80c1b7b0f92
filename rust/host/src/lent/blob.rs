//! Blobs, which are lowered programs: the check and the walk.
//!
//! A node is four words: op, a, b, res. The tags of op are those of programs. Bit 31 of res says whether the result goes
//! into an extension slot, the other bits which one. A constant, challenge or alpha power has its index in a; a trace cell
//! has its column in a and in b its step times 256, plus 65,536 if it is of the main trace. An operation has operands: the
//! kind times 2^29 plus a payload. Kinds are 0 base slot, 1 extension slot, 2 base constant, 3 extension constant,
//! 4 challenge, 5 alpha power, 6 table offset; the payload is the slot or index. A base result takes kinds 0 and 2. A root
//! names a slot as res does. A slot that is read has to have been filled by an earlier node. Words that a tag does not use
//! are 0.
//!
//! Both calls take their refusals in one order, 2, 1, 14, 11, 12, and answer the first that holds. They borrow one byte a
//! slot, which may hold anything. The bytes are 0 after "done", 11 and 12, and as they were after 2, 1 and 14.

use super::call;
use super::program::{Frame, Shape};
use crate::error::{Refusal, done};

/// How many of each thing a blob has.
#[derive(Clone, Copy, Debug, Default, PartialEq, Eq)]
pub struct BlobCounts {
    /// Nodes.
    pub nodes: u32,
    /// Base constants.
    pub base_consts: u32,
    /// Extension constants.
    pub ext_consts: u32,
    /// Roots, which are constraints.
    pub roots: u32,
    /// Constraints below this number have base values. It may be past the root count.
    pub num_base: u32,
    /// Slots for base values.
    pub base_slots: u32,
    /// Slots for extension values.
    pub ext_slots: u32,
}

impl BlobCounts {
    /// How many bytes the calls borrow.
    pub fn bytes(&self) -> usize {
        self.base_slots as usize + self.ext_slots as usize
    }

    /// How many words the slot room has: one a base slot, then three an extension slot.
    pub fn slot_words(&self) -> usize {
        self.base_slots as usize + 3 * self.ext_slots as usize
    }
}

/// A blob in lent words.
#[derive(Clone, Copy, Debug)]
pub struct Blob<'a> {
    /// How many of each thing there are.
    pub counts: BlobCounts,
    /// Four words a node.
    pub nodes: &'a [u32],
    /// One word a constant.
    pub base_consts: &'a [u64],
    /// Three words a constant.
    pub ext_consts: &'a [u64],
    /// The slot of each constraint.
    pub roots: &'a [u32],
}

/// What a walk writes; in [`bytes`](super::bytes) the evals are bytes.
#[derive(Debug)]
pub struct Written<'a, Word = u64> {
    /// As many words as the smaller of `num_base` and the root count.
    pub base_evals: &'a mut [Word],
    /// Three words for every root if any is at or past `num_base`, else none.
    pub ext_evals: &'a mut [Word],
    /// One byte a slot.
    pub bytes: &'a mut [u8],
    /// One word a base slot, then three words an extension slot, of any content.
    pub slots: &'a mut [u64],
}

/// Whether the blob may be walked over a frame of this shape. Constants and cells are not looked at, and the tables of
/// constants are not needed. Refusals: 2, 1, 11, 12.
pub fn check_blob(blob: &Blob, shape: &Shape, bytes: &mut [u8]) -> Result<(), Refusal> {
    done(call!(
        cir_check_blob:
        blob_counts blob.counts,
        shape shape,
        read u32 blob.nodes,
        read u32 blob.roots,
        write u8 bytes,
    ))
}

/// Checks the blob and walks it over a frame whose main cells are one word: writes constraint c below `num_base` to
/// `base_evals[c]` and every other to `ext_evals[3 * c..3 * c + 3]`. No other word of the two changes. `slots` is cleared
/// first and is left with the final slots, those never filled 0; after a refusal it is as it was.
///
/// Refusals: 2, 1, 14, 11, 12.
pub fn walk(blob: &Blob, frame: &Frame, written: Written) -> Result<(), Refusal> {
    done(call!(
        cir_walk:
        blob_counts blob.counts,
        shape frame.shape,
        offset frame.table_offset,
        tables u32 u64 blob,
        cells u64 frame,
        write u64 written.base_evals,
        write u64 written.ext_evals,
        write u8 written.bytes,
        write u64 written.slots,
    ))
}
