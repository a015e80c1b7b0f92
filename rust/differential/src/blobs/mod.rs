//! Blobs in words of their own, where they come from, and what the tests do with them. Their frames are the prover's.

pub mod agree;
pub mod compare;
pub mod damage;
pub mod lease;
pub mod published;
pub mod sample;

use host::lent::blob::{Blob, BlobCounts};

use crate::inputs::Random;

/// A blob's words. The tables may be longer than the counts say.
#[derive(Clone, Debug, Default, PartialEq, Eq)]
pub struct BlobWords {
    pub counts: BlobCounts,
    pub nodes: Vec<u32>,
    pub base_consts: Vec<u64>,
    pub ext_consts: Vec<u64>,
    pub roots: Vec<u32>,
}

impl BlobWords {
    pub fn lend(&self) -> Blob<'_> {
        Blob {
            counts: self.counts,
            nodes: &self.nodes,
            base_consts: &self.base_consts,
            ext_consts: &self.ext_consts,
            roots: &self.roots,
        }
    }

    /// Nodes, constants, roots and slot counts as they are, the other counts those of the tables.
    pub fn of(
        nodes: &[[u32; 4]],
        base_consts: &[u64],
        ext_consts: &[[u64; 3]],
        roots: &[u32],
        [num_base, base_slots, ext_slots]: [u32; 3],
    ) -> Self {
        BlobWords {
            counts: BlobCounts {
                nodes: nodes.len() as u32,
                base_consts: base_consts.len() as u32,
                ext_consts: ext_consts.len() as u32,
                roots: roots.len() as u32,
                num_base,
                base_slots,
                ext_slots,
            },
            nodes: nodes.concat(),
            base_consts: base_consts.to_vec(),
            ext_consts: ext_consts.concat(),
            roots: roots.to_vec(),
        }
    }

    /// The seven counts: nodes, base constants, extension constants, roots, `num_base`, base slots, extension slots.
    pub fn counts_mut(&mut self) -> [&mut u32; 7] {
        let counts = &mut self.counts;
        [
            &mut counts.nodes,
            &mut counts.base_consts,
            &mut counts.ext_consts,
            &mut counts.roots,
            &mut counts.num_base,
            &mut counts.base_slots,
            &mut counts.ext_slots,
        ]
    }

    /// Makes every table a few words longer than its count says.
    pub fn lengthen(&mut self, random: &mut Random) {
        for _ in 0..random.below(6) {
            self.nodes.push(random.uniform() as u32);
        }
        for _ in 0..random.below(3) {
            self.base_consts.push(random.word());
        }
        for _ in 0..random.below(5) {
            self.ext_consts.push(random.word());
        }
        for _ in 0..random.below(3) {
            self.roots.push(random.uniform() as u32);
        }
    }

    /// The same in allocations of exactly its lengths.
    pub fn exact(mut self) -> Self {
        self.nodes.shrink_to_fit();
        self.base_consts.shrink_to_fit();
        self.ext_consts.shrink_to_fit();
        self.roots.shrink_to_fit();
        self
    }
}

/// How many words and bytes a walk is lent for writing.
#[derive(Clone, Copy, Debug, PartialEq, Eq)]
pub struct Lengths {
    pub base_evals: usize,
    pub ext_evals: usize,
    pub bytes: usize,
    pub slots: usize,
}

impl Lengths {
    /// What the walk needs.
    pub fn of(counts: &BlobCounts) -> Self {
        Lengths {
            base_evals: counts.num_base.min(counts.roots) as usize,
            ext_evals: if counts.num_base < counts.roots {
                3 * counts.roots as usize
            } else {
                0
            },
            bytes: counts.bytes(),
            slots: counts.slot_words(),
        }
    }

    /// A few more of each.
    pub fn and_more(self, more: usize) -> Self {
        Lengths {
            base_evals: self.base_evals + more,
            ext_evals: self.ext_evals + more,
            bytes: self.bytes + more,
            slots: self.slots + more,
        }
    }
}
