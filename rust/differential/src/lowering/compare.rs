//! One call on both sides, as for programs and blobs: equal memory between guards, equal answers, equal memory afterwards.

use std::fmt::Arguments;

use host::lent::blob::BlobCounts;
use host::lent::lower::{self as host_calls, Lists, Rooms, Sizes};

use super::Lengths;
use crate::Score;
use crate::blobs::BlobWords;
use crate::plain::lower as plain_calls;
use crate::programs::Words;
use crate::programs::compare::{Answer, GUARD, Kept, Lent, below_p, same_answer};

/// What a fresh word of 32 bits holds: never 0, and no slot, node or operand.
fn fresh_short(at: usize) -> u32 {
    u32::MAX - at as u32
}

/// What a call is lent for writing.
struct Memory {
    used: Lent<u32>,
    last_use: Lent<u32>,
    is_root: Lent<u32>,
    slot_of: Lent<u32>,
    free_slots: Lent<u32>,
    nodes: Lent<u32>,
    base_consts: Lent<u64>,
    ext_consts: Lent<u64>,
    roots: Lent<u32>,
    sizes: Lent<Sizes>,
}

/// The lists and the tables of one side.
macro_rules! lend {
    ($memory:expr, $side:ident) => {
        (
            Lists {
                used: $memory.used.$side(),
                last_use: $memory.last_use.$side(),
                is_root: $memory.is_root.$side(),
                slot_of: $memory.slot_of.$side(),
                free_slots: $memory.free_slots.$side(),
            },
            Rooms {
                nodes: $memory.nodes.$side(),
                base_consts: $memory.base_consts.$side(),
                ext_consts: $memory.ext_consts.$side(),
                roots: $memory.roots.$side(),
            },
            &mut $memory.sizes.$side()[0],
        )
    };
}

impl Memory {
    fn new(lengths: Lengths) -> Self {
        let shorts = |len: usize| Lent::filled(len, fresh_short);
        Memory {
            used: shorts(lengths.used),
            last_use: shorts(lengths.last_use),
            is_root: shorts(lengths.is_root),
            slot_of: shorts(lengths.slot_of),
            free_slots: shorts(lengths.free_slots),
            nodes: shorts(lengths.nodes),
            base_consts: Lent::words(lengths.base_consts),
            ext_consts: Lent::words(lengths.ext_consts),
            roots: shorts(lengths.roots),
            sizes: Lent::filled(1, |at| Sizes {
                nodes: fresh_short(3 * at),
                base_slots: fresh_short(3 * at + 1),
                ext_slots: fresh_short(3 * at + 2),
            }),
        }
    }
}

/// An answer, and the lent words after the call.
pub struct Lowered {
    pub answer: Answer,
    pub sizes: Sizes,
    /// In the order of [`Lists`].
    pub lists: [Vec<u32>; 5],
    pub nodes: Vec<u32>,
    pub base_consts: Vec<u64>,
    pub ext_consts: Vec<u64>,
    pub roots: Vec<u32>,
}

impl Lowered {
    /// The blob, of a call that answered 0: the tables as far as the counts go.
    pub fn blob(&self, words: &Words) -> BlobWords {
        let (sizes, counts) = (&self.sizes, &words.counts);
        BlobWords {
            counts: BlobCounts {
                nodes: sizes.nodes,
                base_consts: counts.base_consts as u32,
                ext_consts: counts.ext_consts as u32,
                roots: counts.roots as u32,
                num_base: counts.num_base as u32,
                base_slots: sizes.base_slots,
                ext_slots: sizes.ext_slots,
            },
            nodes: self.nodes[..4 * sizes.nodes as usize].to_vec(),
            base_consts: self.base_consts[..counts.base_consts].to_vec(),
            ext_consts: self.ext_consts[..3 * counts.ext_consts].to_vec(),
            roots: self.roots[..counts.roots].to_vec(),
        }
    }
}

/// Holds the lists to the rule: the words of each node are 0 after 0 and 10; all others are as they were.
#[track_caller]
fn lists_are_right(words: &Words, lowered: &Lowered, what: Arguments<'_>) {
    let done = match &lowered.answer {
        Ok(()) => true,
        Err(refusal) => refusal.number == 10,
    };
    for (at, list) in lowered.lists.iter().enumerate() {
        let a_node = if at == 4 { 2 } else { 1 };
        let used = if done { a_node * words.counts.nodes } else { 0 };
        let is_fresh = |(at, word): (usize, &u32)| *word == fresh_short(GUARD + at);
        assert!(list[..used].iter().all(|word| *word == 0), "{what}: list {at} is not 0");
        assert!(
            list.iter().enumerate().skip(used).all(is_fresh),
            "{what}: words of list {at} that stay"
        );
    }
}

#[track_caller]
pub fn lower(score: &mut Score, words: &Words, lengths: Lengths, what: Arguments<'_>) -> Lowered {
    let what = format_args!("lower, {what}, {lengths:?}, {words:?}");
    let kept = Kept::new(words);
    let mut memory = Memory::new(lengths);
    let (lists, tables, sizes) = lend!(memory, host);
    let answer = host_calls::lower_into(&words.lend(), lists, tables, sizes);
    kept.compare(what);
    let (lists, tables, sizes) = lend!(memory, plain);
    let plain = plain_calls::lower(&words.lend(), lists, tables, sizes);
    same_answer(score, &answer, &plain, what);
    let lowered = Lowered {
        answer,
        sizes: memory.sizes.compared("sizes", score, what)[0],
        lists: [
            memory.used.compared("used", score, what),
            memory.last_use.compared("last_use", score, what),
            memory.is_root.compared("is_root", score, what),
            memory.slot_of.compared("slot_of", score, what),
            memory.free_slots.compared("free_slots", score, what),
        ],
        nodes: memory.nodes.compared("nodes", score, what),
        base_consts: memory.base_consts.compared("base_consts", score, what),
        ext_consts: memory.ext_consts.compared("ext_consts", score, what),
        roots: memory.roots.compared("roots", score, what),
    };
    lists_are_right(words, &lowered, what);
    if answer.is_ok() {
        below_p(&lowered.base_consts[..words.counts.base_consts], what);
        below_p(&lowered.ext_consts[..3 * words.counts.ext_consts], what);
    }
    lowered
}
