//! Lowering: a program as a blob.
//!
//! A node of the program becomes a node of the blob if some node reads it, dead or not, or it is a root; but constants,
//! challenges, alpha powers and the table offset are named by their readers and become nodes as roots only. Each node of
//! the blob gets a slot; a slot is used again after the last node that reads it, unless it is a root's.
//!
//! The refusals are taken in the order 8, 9, 1, 7, 10, and the first that holds is answered. The borrowed lists are 0 after
//! "done" and 10, and as they were after 8, 9, 1 and 7. Nothing else changes in a refusal.

use super::blob::BlobCounts;
use super::call;
use super::program::Program;
use crate::error::{Refusal, done};

/// What lowering borrows: six words a node of the program, of any content. Words past these are not touched.
#[derive(Debug)]
pub struct Lists<'a> {
    /// One word a node: whether some node reads it, or it is a root.
    pub used: &'a mut [u32],
    /// One word a node: the last node that reads it.
    pub last_use: &'a mut [u32],
    /// One word a node: whether it is a root.
    pub is_root: &'a mut [u32],
    /// One word a node: its slot.
    pub slot_of: &'a mut [u32],
    /// Two words a node: slots of either class that are free again.
    pub free_slots: &'a mut [u32],
}

impl<'a> Lists<'a> {
    /// The lists for a program of so many nodes, in six words a node.
    ///
    /// # Panics
    ///
    /// Where there are fewer words.
    pub fn of(words: &'a mut [u32], nodes: usize) -> Self {
        let (used, words) = words.split_at_mut(nodes);
        let (last_use, words) = words.split_at_mut(nodes);
        let (is_root, words) = words.split_at_mut(nodes);
        let (slot_of, words) = words.split_at_mut(nodes);
        Lists {
            used,
            last_use,
            is_root,
            slot_of,
            free_slots: &mut words[..2 * nodes],
        }
    }
}

/// Rooms for the words of four tables, which are written from their beginning. Words past what is needed are not touched.
#[derive(Debug)]
pub struct Rooms<'a> {
    /// Four words a node. A blob has at most as many nodes as its program.
    pub nodes: &'a mut [u32],
    /// One word a constant.
    pub base_consts: &'a mut [u64],
    /// Three words a constant.
    pub ext_consts: &'a mut [u64],
    /// One word a root.
    pub roots: &'a mut [u32],
}

/// What a blob counts that its program does not.
#[derive(Clone, Copy, Debug, Default, PartialEq, Eq)]
pub struct Sizes {
    /// Nodes of the blob.
    pub nodes: u32,
    /// Slots for base values.
    pub base_slots: u32,
    /// Slots for extension values.
    pub ext_slots: u32,
}

/// Lowers the program into `rooms` and gives the blob's counts. Constants are put below p. Refusals: 8, 9, 1, 7, 10.
pub fn lower(program: &Program, lists: Lists, rooms: Rooms) -> Result<BlobCounts, Refusal> {
    let mut sizes = Sizes::default();
    lower_into(program, lists, rooms, &mut sizes)?;
    let counts = program.counts;
    // A program with a larger count is refused.
    let carried = |count: usize| count as u32;
    Ok(BlobCounts {
        nodes: sizes.nodes,
        base_consts: carried(counts.base_consts),
        ext_consts: carried(counts.ext_consts),
        roots: carried(counts.roots),
        num_base: carried(counts.num_base),
        base_slots: sizes.base_slots,
        ext_slots: sizes.ext_slots,
    })
}

/// As [`lower`], with the words for the counts lent too, as the library has it.
pub fn lower_into(program: &Program, lists: Lists, rooms: Rooms, sizes: &mut Sizes) -> Result<(), Refusal> {
    done(call!(
        cir_lower:
        counts program.counts,
        tables u32 u64 program,
        lists lists,
        rooms rooms,
        out u32 &mut sizes.nodes,
        out u32 &mut sizes.base_slots,
        out u32 &mut sizes.ext_slots,
    ))
}
