//! Lowering from bytes to a stored file, against the published `lower` and the plain writer.

use host::lent::bytes::{ProgramBytes, lower_stored_into};
use host::lent::lower::Lists;
use host::lent::program::check_program;

use super::{Four, and_some, below_p, blob_lens, bytes32, bytes64, form_a, fresh32, number, put, refusal};
use crate::Score;
use crate::blobs::published as device;
use crate::inputs::Random;
use crate::plain::program::counts_fit;
use crate::programs::compare::Answer;
use crate::programs::{Words, published};

/// All that lowering is lent besides the program's bytes.
#[derive(Clone, Debug, PartialEq)]
pub struct Memory {
    pub words: Four,
    /// Used, last use, root, slot, free.
    pub lists: [Vec<u32>; 5],
    pub blob: Four,
    pub file: Vec<u8>,
    pub length: u64,
}

/// The program's tables as bytes.
pub type Tables = [Vec<u8>; 4];

pub fn program_bytes(random: &mut Random, words: &Words) -> Tables {
    [
        and_some(random, bytes32(&words.nodes), 4),
        and_some(random, bytes64(&words.base_consts), 8),
        and_some(random, bytes64(&words.ext_consts), 8),
        and_some(random, bytes32(&words.roots), 4),
    ]
}

impl Memory {
    /// As long as a program of so many nodes needs at most, and `more`.
    pub fn new(random: &mut Random, words: &Words, more: usize) -> Self {
        let lens = [
            words.nodes.len(),
            words.base_consts.len(),
            words.ext_consts.len(),
            words.roots.len(),
        ];
        let n = words.nodes.len() / 4;
        let bytes = 4 * (lens[0] + 2 * lens[1] + 2 * lens[2] + lens[3]) + 32;
        Memory {
            words: Four::new(random, lens, more),
            lists: [n, n, n, n, 2 * n].map(|len| fresh32(random, len + more)),
            blob: Four::new(random, lens, more),
            file: (0..bytes + more).map(|at| at as u8).collect(),
            length: random.uniform(),
        }
    }

    /// The same in allocations of exactly its lengths.
    pub fn exact(mut self) -> Self {
        self.words = self.words.exact();
        self.blob = self.blob.exact();
        self.lists.iter_mut().for_each(Vec::shrink_to_fit);
        self.file.shrink_to_fit();
        self
    }

    /// How many words and bytes are lent.
    fn size(&self) -> usize {
        let lists: usize = self.lists.iter().map(Vec::len).sum();
        self.words.size() + lists + self.blob.size() + self.file.len() + 1
    }

    fn call(&mut self, words: &Words, tables: &Tables) -> Answer {
        let [used, last_use, is_root, slot_of, free_slots] = &mut self.lists;
        lower_stored_into(
            &ProgramBytes {
                counts: words.counts,
                nodes: &tables[0],
                base_consts: &tables[1],
                ext_consts: &tables[2],
                roots: &tables[3],
            },
            self.words.lend(),
            Lists {
                used,
                last_use,
                is_root,
                slot_of,
                free_slots,
            },
            self.blob.lend(),
            &mut self.file,
            &mut self.length,
        )
    }

    /// The same by the published `lower` and a plain writer.
    fn plain(&mut self, words: &Words) -> Answer {
        counts_fit(&words.lend())?;
        let lens = [
            words.nodes.len(),
            words.base_consts.len(),
            words.ext_consts.len(),
            words.roots.len(),
        ];
        if !self.words.holds(lens) {
            return refusal(1);
        }
        self.words
            .put(&words.nodes, &words.base_consts, &words.ext_consts, &words.roots);
        let checked = check_program(&words.lend());
        let ill_formed = matches!(checked, Err(refusal) if refusal.number == 7);
        if !ill_formed {
            checked?;
        }
        let n = words.counts.nodes;
        let needs = [n, n, n, n, 2 * n];
        if self.lists.iter().zip(needs).any(|(list, need)| list.len() < need) {
            return refusal(1);
        }
        checked?;
        for (list, need) in self.lists.iter_mut().zip(needs) {
            list[..need].fill(0);
        }
        let mut blob = device::lower(&published::program(words));
        blob.base_consts = below_p(&blob.base_consts);
        blob.ext_consts = below_p(&blob.ext_consts);
        if !self.blob.holds(blob_lens(&blob)) {
            return refusal(10);
        }
        self.blob
            .put(&blob.nodes, &blob.base_consts, &blob.ext_consts, &blob.roots);
        let file = form_a(&blob);
        if self.file.len() < file.len() {
            return refusal(10);
        }
        put(&mut self.file, &file);
        self.length = file.len() as u64;
        Ok(())
    }
}

pub fn compare_lower(score: &mut Score, words: &Words, tables: &Tables, mut memory: Memory) -> u8 {
    let mut plain_memory = memory.clone();
    let kept = tables.clone();
    score.words += memory.size() as u64;
    let ours = memory.call(words, tables);
    let plain = plain_memory.plain(words);
    assert_eq!(ours, plain, "lower, {words:?}");
    assert_eq!(memory, plain_memory, "lower, {words:?}");
    assert_eq!(*tables, kept);
    score.answered(&ours);
    number(ours)
}
