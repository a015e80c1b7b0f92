//! The builder over lent words, whatever they hold and whatever the counts say: each refusal in its order, and each word
//! that is written, the hash places too.
//!
//! Written from the definitions of the builder's crate, in `crates/builder/specs`: that is where the walk over the hash places
//! is stated, which is the builder's own choice.

use host::lent::builder::{Handle, Tables};

use super::from_i64;
use crate::P;
use crate::builder::{Call, refused};
use crate::programs::compare::Answer;

const MOST: usize = 536_870_911;

const BASE: u32 = 0;
const EXT: u32 = 1;

/// A node in one number's words: tag, x, y, dim.
type Node = [u32; 4];

/// What a call comes to before it is said as an answer: the handle, if it makes one, or the refusal's number.
type Made = Result<Option<Handle>, u8>;

pub fn call(tables: &mut Tables, call: &Call, made: &mut Handle) -> Answer {
    match asked(tables, call) {
        Ok(handle) => {
            *made = handle.unwrap_or(*made);
            Ok(())
        }
        Err(number) => Err(refused(number)),
    }
}

fn asked(tables: &mut Tables, call: &Call) -> Made {
    match *call {
        Call::New => fresh(tables),
        Call::Main { offset, column } => leaf(tables, column, |x| [2, x, 65_536 + 256 * u32::from(offset), BASE]),
        Call::Aux { offset, column } => leaf(tables, column, |x| [2, x, 256 * u32::from(offset), EXT]),
        Call::Challenge(index) => leaf(tables, index, |x| [3, x, 0, EXT]),
        Call::AlphaPower(index) => leaf(tables, index, |x| [4, x, 0, EXT]),
        Call::TableOffset => leaf(tables, 0, |_| [5, 0, 0, EXT]),
        Call::ConstBase(value) => constant(tables, &[value]),
        Call::ConstSigned(value) => constant(tables, &[from_i64(value)]),
        Call::One => constant(tables, &[1]),
        Call::ConstExt(limbs) => constant(tables, &limbs),
        Call::Add(a, b) => binary(tables, 6, a, b),
        Call::Sub(a, b) => binary(tables, 7, a, b),
        Call::Mul(a, b) => binary(tables, 8, a, b),
        Call::Neg(a) => unary(tables, 9, a, a.dim),
        Call::Embed(a) => unary(tables, 10, a, EXT),
        Call::Emit(constraint, root) => emit(tables, constraint, root),
    }
}

/// How many nodes the two tables hold, apart from the limit.
fn nodes_lent(tables: &Tables) -> [usize; 2] {
    [tables.nodes.len() / 4, tables.places.len()]
}

fn enough(tables: &Tables) -> Result<(), u8> {
    let n = tables.filled.nodes;
    if nodes_lent(tables).iter().all(|lent| n <= *lent) {
        Ok(())
    } else {
        Err(1)
    }
}

fn node(tables: &Tables, id: usize) -> Node {
    [0, 1, 2, 3].map(|at| tables.nodes[4 * id + at])
}

fn known(tables: &Tables, handle: Handle) -> Result<(), u8> {
    let id = handle.id as usize;
    if id < tables.filled.nodes && node(tables, id)[3] == handle.dim {
        Ok(())
    } else {
        Err(3)
    }
}

fn leaf(tables: &mut Tables, index: usize, node: impl Fn(u32) -> Node) -> Made {
    enough(tables)?;
    if 65_535 < index {
        return Err(2);
    }
    push(tables, node(index as u32))
}

fn binary(tables: &mut Tables, tag: u32, a: Handle, b: Handle) -> Made {
    enough(tables)?;
    known(tables, a)?;
    known(tables, b)?;
    let dim = if a.dim == BASE && b.dim == BASE { BASE } else { EXT };
    push(tables, [tag, a.id, b.id, dim])
}

fn unary(tables: &mut Tables, tag: u32, a: Handle, dim: u32) -> Made {
    enough(tables)?;
    known(tables, a)?;
    push(tables, [tag, a.id, 0, dim])
}

/// The place at which the walk for a node stops: a free one, or one that names an equal node. None of them may.
fn find(tables: &Tables, wanted: &Node) -> Option<usize> {
    let lent = tables.places.len();
    if lent == 0 {
        return None;
    }
    let start = (hash(wanted) % lent as u128) as usize;
    (start..lent)
        .chain(0..start)
        .find(|at| match tables.places[*at] as usize {
            0 => true,
            name => name <= tables.filled.nodes && node(tables, name - 1) == *wanted,
        })
}

/// How many places the walk for a node that is there looks at.
pub fn walked(tables: &Tables, id: usize) -> usize {
    let (wanted, lent) = (node(tables, id), tables.places.len());
    let start = (hash(&wanted) % lent as u128) as usize;
    let at = find(tables, &wanted).expect("the node is there");
    (at + lent - start) % lent + 1
}

/// Dim, tag, x and y are mixed in, in this order, modulo 2^32.
fn hash(node: &Node) -> u128 {
    const WORD: u128 = 1 << 32;
    let mixed = |hash: u128, word: u32| {
        let scattered = (hash + u128::from(word)) % WORD * 2_654_435_761 % WORD;
        (scattered + scattered / 32_768) % WORD
    };
    let [tag, x, y, dim] = *node;
    [tag, x, y].into_iter().fold(u128::from(dim), mixed)
}

fn push(tables: &mut Tables, wanted: Node) -> Made {
    let n = tables.filled.nodes;
    let at = find(tables, &wanted).ok_or(4)?;
    let id = match tables.places[at] {
        0 if nodes_lent(tables).into_iter().all(|lent| n < lent) && n < MOST => {
            tables.nodes[4 * n..4 * n + 4].copy_from_slice(&wanted);
            tables.places[at] = n as u32 + 1;
            tables.filled.nodes = n + 1;
            n as u32
        }
        0 => return Err(4),
        name => name - 1,
    };
    Ok(Some(Handle { id, dim: wanted[3] }))
}

/// A base constant is one word, one of the extension three.
fn constant(tables: &mut Tables, value: &[u64]) -> Made {
    let is_base = value.len() == 1;
    let (words, count) = if is_base {
        (&tables.base_consts, tables.filled.base_consts)
    } else {
        (&tables.ext_consts, tables.filled.ext_consts)
    };
    let fits = words.len() / value.len();
    enough(tables)?;
    if fits < count {
        return Err(1);
    }
    let same = |there: &[u64]| there.iter().zip(value).all(|(a, b)| a % P == b % P);
    let searched = count.min(MOST);
    let equal = words.chunks_exact(value.len()).take(searched).position(same);
    if equal.is_none() && fits.min(MOST) <= count {
        return Err(5);
    }
    let index = equal.unwrap_or(searched) as u32;
    let made = push(
        tables,
        if is_base {
            [0, index, 0, BASE]
        } else {
            [1, index, 0, EXT]
        },
    )?;
    if equal.is_none() {
        let (words, filled) = if is_base {
            (&mut tables.base_consts, &mut tables.filled.base_consts)
        } else {
            (&mut tables.ext_consts, &mut tables.filled.ext_consts)
        };
        for (at, word) in value.iter().enumerate() {
            words[value.len() * count + at] = word % P;
        }
        *filled = count + 1;
    }
    Ok(made)
}

fn fresh(tables: &mut Tables) -> Made {
    if tables.base_consts.is_empty() {
        return Err(5);
    }
    if nodes_lent(tables).contains(&0) {
        return Err(4);
    }
    tables.places.fill(0);
    tables.filled = Default::default();
    constant(tables, &[0])
}

fn emit(tables: &mut Tables, constraint: usize, root: Handle) -> Made {
    let filled = &mut tables.filled.roots;
    if tables.nodes.len() / 4 < tables.filled.nodes || tables.roots.len() < *filled {
        return Err(1);
    }
    let count = *filled;
    known(tables, root)?;
    if tables.roots.len() <= constraint {
        return Err(6);
    }
    if count < constraint {
        tables.roots[count..constraint].fill(0);
    }
    tables.roots[constraint] = root.id;
    tables.filled.roots = count.max(constraint + 1);
    Ok(None)
}

/// The gap report: refusals 1, then 10.
pub fn gaps(filled: usize, roots: &[u32], out: &mut [u64], count: &mut u64) -> Answer {
    let roots = roots.get(..filled).ok_or(refused(1))?;
    let gaps: Vec<u64> = (0..)
        .zip(roots)
        .filter(|(_, root)| **root == 0)
        .map(|(at, _)| at)
        .collect();
    let room = out.get_mut(..gaps.len()).ok_or(refused(10))?;
    room.copy_from_slice(&gaps);
    *count = gaps.len() as u64;
    Ok(())
}
