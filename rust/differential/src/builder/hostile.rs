//! Memory that no builder wrote, under counts that are any numbers.

use std::fmt::Arguments;

use host::lent::builder::{Filled, Handle};

use super::compare::{Memory, Words};
use super::{Call, INDEXES};
use crate::inputs::Random;
use crate::{P, Score};

/// A count: mostly one that fits, at times one past the memory, at times any.
fn count(random: &mut Random, lent: usize) -> usize {
    match random.below(12) {
        0 => lent + 1,
        1 => random.pick(&[
            usize::MAX,
            usize::MAX - 1,
            usize::MAX / 4 + 1,
            1 << 32,
            536_870_911,
            536_870_912,
        ]),
        2..5 => lent,
        _ => random.below(lent + 1),
    }
}

/// A node: mostly one that some call asks for, else any words.
fn node(random: &mut Random, nodes: usize) -> [u32; 4] {
    let [index, a, b] = [4, nodes + 1, nodes + 1].map(|end| random.below(end) as u32);
    let dim = random.below(2) as u32;
    match random.below(12) {
        0 => [0; 4].map(|_| random.uniform() as u32),
        1 => random.pick(&[[u32::MAX; 4], [0; 4]]),
        2 | 3 => [0, index, 0, 0],
        4 | 5 => [1, index, 0, 1],
        6 => [2, index, random.pick(&[1 << 16, 0, 1 << 8]), dim],
        7 => [3 + dim, index, 0, 1],
        8 => [5, 0, 0, 1],
        9 | 10 => [6 + random.below(3) as u32, a, b, dim],
        _ => [9 + random.below(2) as u32, a, 0, dim],
    }
}

/// Hash places: of any words, all ones, a ring in which each names a node, names of one node only, names past the count, and
/// free ones among them.
fn places(random: &mut Random, len: usize, nodes: usize) -> Vec<u32> {
    let kind = random.below(10);
    let turn = random.below(nodes + 1);
    let word = |at: usize, random: &mut Random| match kind {
        0 => random.uniform() as u32,
        1 => u32::MAX,
        2 => ((at + turn) % nodes.max(1)) as u32 + 1,
        3 => turn as u32,
        4 => nodes as u32 + 1 + random.below(3) as u32,
        5 => random.below(nodes + 2) as u32,
        6..9 => 1 + random.below(nodes + 1) as u32,
        _ => 0,
    };
    (0..len).map(|at| word(at, random)).collect()
}

fn constants(random: &mut Random, len: usize) -> Vec<u64> {
    (0..len).map(|_| constant(random)).collect()
}

fn constant(random: &mut Random) -> u64 {
    match random.below(4) {
        0 => random.word(),
        _ => random.pick(&[0, 1, 2, P - 1, P, P + 1, u64::MAX]),
    }
}

/// Tables of any words.
pub(super) fn any_words(random: &mut Random) -> Words {
    let lent = random.below(9);
    let nodes = [
        (0..lent).flat_map(|_| node(random, lent)).collect(),
        vec![u32::MAX; random.below(4)],
    ]
    .concat();
    let place_count = random.pick(&[0, 1, lent, lent, lent + 1, 2 * lent, 2 * lent, 2 * lent + 5]);
    let (bases, exts, roots) = (random.below(5), random.below(5), random.below(6));
    let filled = Filled {
        nodes: count(random, lent.min(place_count)),
        base_consts: count(random, bases),
        ext_consts: count(random, exts),
        roots: count(random, roots),
    };
    Words {
        filled,
        nodes,
        places: places(random, place_count, filled.nodes.min(lent)),
        base_consts: constants(random, bases),
        ext_consts: {
            let more = random.below(3);
            constants(random, 3 * exts + more)
        },
        roots: (0..roots).map(|_| random.pick(&[0, 0, 1, 5, u32::MAX])).collect(),
    }
}

/// A handle: mostly of a stored node, with the dim that its word says.
fn handle(random: &mut Random, words: &Words) -> Handle {
    let id = random.below(words.nodes.len() / 4 + 1) as u32;
    let stored = words.nodes.get(4 * id as usize + 3).copied();
    match (random.below(10), stored) {
        (0, _) => Handle {
            id: random.uniform() as u32,
            dim: random.below(3) as u32,
        },
        (1, _) => Handle {
            id,
            dim: random.below(3) as u32,
        },
        (_, stored) => Handle {
            id,
            dim: stored.unwrap_or(0),
        },
    }
}

/// The call that asks for a stored node, if it is one that a call asks for.
fn call_for(words: &Words, id: usize) -> Option<Call> {
    let node = words.nodes.get(4 * id..4 * id + 4)?;
    let handle = |id: u32| {
        let dim = words.nodes.get(4 * id as usize + 3).copied();
        dim.map(|dim| Handle { id, dim })
    };
    let (x, y, index) = (node[1], node[2], node[1] as usize);
    let limbs = |at| words.ext_consts.get(3 * index + at).copied();
    Some(match node[0] {
        0 => Call::ConstBase(*words.base_consts.get(index)?),
        1 => Call::ConstExt([limbs(0)?, limbs(1)?, limbs(2)?]),
        2 if node[3] == 0 => Call::Main {
            offset: (y >> 8) as u8,
            column: index,
        },
        2 => Call::Aux {
            offset: (y >> 8) as u8,
            column: index,
        },
        3 => Call::Challenge(index),
        4 => Call::AlphaPower(index),
        5 => Call::TableOffset,
        6 => Call::Add(handle(x)?, handle(y)?),
        7 => Call::Sub(handle(x)?, handle(y)?),
        8 => Call::Mul(handle(x)?, handle(y)?),
        9 => Call::Neg(handle(x)?),
        10 => Call::Embed(handle(x)?),
        _ => return None,
    })
}

pub(super) fn any_call(random: &mut Random, words: &Words) -> Call {
    let id = random.below(words.nodes.len() / 4 + 1);
    match call_for(words, id) {
        Some(call) if random.once_in(2) => call,
        _ => some_call(random, words),
    }
}

fn some_call(random: &mut Random, words: &Words) -> Call {
    let index = if random.once_in(8) {
        random.pick(&INDEXES)
    } else {
        random.below(4)
    };
    let offset = random.pick(&[0, 0, 1, 255]);
    let (a, b) = (handle(random, words), handle(random, words));
    match random.below(17) {
        0 => Call::New,
        1 => Call::Main { offset, column: index },
        2 => Call::Aux { offset, column: index },
        3 => Call::Challenge(index),
        4 => Call::AlphaPower(index),
        5 => Call::TableOffset,
        6 => Call::ConstBase(constant(random)),
        7 => Call::ConstSigned(random.pick(&[0, 1, -1, i64::MIN, i64::MAX])),
        8 | 9 => Call::ConstExt([constant(random), constant(random), constant(random)]),
        10 => Call::One,
        11 => Call::Add(a, b),
        12 => Call::Sub(a, b),
        13 => Call::Mul(a, b),
        14 => Call::Neg(a),
        15 => Call::Embed(a),
        _ => Call::Emit(random.pick(&[0, 1, 2, 3, 5, 6, usize::MAX]), a),
    }
}

/// What a case came to.
#[derive(Default)]
pub struct Answered {
    pub calls: u64,
    /// Calls that were answered with a node that was there.
    pub found: u64,
}

/// A few calls over one memory, so that a builder goes on over what it found and wrote, and the gap report.
#[track_caller]
pub fn case(score: &mut Score, random: &mut Random, what: Arguments<'_>) -> Answered {
    let mut answered = Answered::default();
    let mut memory = Memory::of(&any_words(random));
    for _ in 0..1 + random.below(5) {
        let before = memory.words();
        let call = any_call(random, &before);
        let what = format_args!("{what}, {before:?}");
        let (answer, _) = memory.call(score, &call, what);
        let after = memory.words();
        if answer.is_err() {
            assert_eq!(after, before, "{call:?}, {what}: a refusal changes no word");
        }
        answered.calls += 1;
        let makes_none = matches!(call, Call::Emit(..));
        answered.found += u64::from(answer.is_ok() && after == before && !makes_none);
    }
    let room = random.below(7);
    _ = memory.gaps(score, room, what);
    answered
}
