//! Lowering as the scope document words it, written from its text and from neither side's code. Who reads a node is a set,
//! and a slot is held by a node or lies on a pile.

use std::collections::{BTreeMap, BTreeSet};

use super::blob::{BIT_31, Slot};
use super::program::Meaning::{
    Add, Alpha, Aux, BaseConstant, Challenge, Embed, ExtConstant, Main, Mul, Neg, Sub, TableOffset,
};
use super::program::{Answer, Node, counts_fit, program_short, refuse_if, roots, short, well_formed};
use crate::P;
use host::lent::lower::{Lists, Rooms, Sizes};
use host::lent::program::Program;

/// The nodes that a node reads, first and second.
fn reads(node: &Node) -> Vec<usize> {
    match node.meaning {
        Add(a, b) | Sub(a, b) | Mul(a, b) => vec![a, b],
        Neg(a) | Embed(a) => vec![a],
        _ => vec![],
    }
}

/// Kind and payload of a uniform leaf, and none for all else.
fn uniform(node: &Node) -> Option<(u32, usize)> {
    match node.meaning {
        BaseConstant(index) => Some((2, index)),
        ExtConstant(index) => Some((3, index)),
        Challenge(index) => Some((4, index)),
        Alpha(index) => Some((5, index)),
        TableOffset => Some((6, 0)),
        _ => None,
    }
}

fn operand((kind, payload): (u32, usize)) -> u32 {
    (kind << 29) + payload as u32
}

/// The first three words of a blob's node, whose operands are written by `name`.
fn words(node: &Node, name: impl Fn(usize) -> u32) -> [u32; 3] {
    let cell = |step: usize, column: usize, main: u32| [2, column as u32, (main << 16) + ((step as u32) << 8)];
    match node.meaning {
        BaseConstant(index) => [0, index as u32, 0],
        ExtConstant(index) => [1, index as u32, 0],
        Main { step, column } => cell(step, column, 1),
        Aux { step, column } => cell(step, column, 0),
        Challenge(index) => [3, index as u32, 0],
        Alpha(index) => [4, index as u32, 0],
        TableOffset => [5, 0, 0],
        Add(a, b) => [6, name(a), name(b)],
        Sub(a, b) => [7, name(a), name(b)],
        Mul(a, b) => [8, name(a), name(b)],
        Neg(a) => [9, name(a), 0],
        Embed(a) => [10, name(a), 0],
    }
}

fn slot_word(slot: Slot) -> u32 {
    slot.number + if slot.extension { BIT_31 } else { 0 }
}

/// Slots that lie on a pile, last freed on top, and how many there are in all, of one class.
#[derive(Default)]
struct Slots {
    pile: Vec<u32>,
    count: u32,
}

impl Slots {
    fn take(&mut self) -> u32 {
        self.pile.pop().unwrap_or_else(|| {
            self.count += 1;
            self.count - 1
        })
    }
}

/// A program's blob but for its constants.
struct Lowered {
    nodes: Vec<u32>,
    roots: Vec<u32>,
    sizes: Sizes,
}

/// Who reads each node, dead or not, and which nodes are roots.
struct Uses<'a> {
    nodes: &'a [Node],
    readers: Vec<BTreeSet<usize>>,
    rooted: BTreeSet<usize>,
}

impl<'a> Uses<'a> {
    fn of(nodes: &'a [Node], roots: &[usize]) -> Self {
        let mut readers = vec![BTreeSet::new(); nodes.len()];
        for (id, node) in nodes.iter().enumerate() {
            for read in reads(node) {
                readers[read].insert(id);
            }
        }
        Uses {
            nodes,
            readers,
            rooted: roots.iter().copied().collect(),
        }
    }

    fn emitted(&self, id: usize) -> bool {
        let root = self.rooted.contains(&id);
        let used = root || !self.readers[id].is_empty();
        used && (root || uniform(&self.nodes[id]).is_none())
    }

    /// Whether a node that is read by `reader` gives its slot back there.
    fn ends(&self, id: usize, reader: usize) -> bool {
        self.readers[id].last() == Some(&reader) && !self.rooted.contains(&id)
    }

    /// An operand's word, while these slots are held.
    fn operand(&self, id: usize, held: &BTreeMap<usize, Slot>) -> u32 {
        operand(if self.emitted(id) {
            (u32::from(held[&id].extension), held[&id].number as usize)
        } else {
            uniform(&self.nodes[id]).expect("a used node without a slot is a uniform leaf")
        })
    }
}

fn lowered(nodes: &[Node], roots: &[usize]) -> Lowered {
    let uses = Uses::of(nodes, roots);
    let mut out = Vec::new();
    let mut held: BTreeMap<usize, Slot> = BTreeMap::new();
    let mut of_class = [Slots::default(), Slots::default()];
    for (id, node) in nodes.iter().enumerate().filter(|(id, _)| uses.emitted(*id)) {
        let [tag, a, b] = words(node, |read| uses.operand(read, &held));
        for read in reads(node) {
            // A uniform leaf holds no slot, and the second of two equal operands none any more.
            let given = if uses.ends(read, id) { held.remove(&read) } else { None };
            if let Some(slot) = given {
                of_class[usize::from(slot.extension)].pile.push(slot.number);
            }
        }
        let slot = Slot {
            extension: node.extension,
            number: of_class[usize::from(node.extension)].take(),
        };
        held.insert(id, slot);
        out.extend([tag, a, b, slot_word(slot)]);
    }
    Lowered {
        sizes: Sizes {
            nodes: (out.len() / 4) as u32,
            base_slots: of_class[0].count,
            ext_slots: of_class[1].count,
        },
        nodes: out,
        roots: roots.iter().map(|root| slot_word(held[root])).collect(),
    }
}

/// Whether the borrowed lists are shorter than 6n words, as they are shared out.
fn lists_short(n: usize, lists: &Lists) -> bool {
    [&lists.used, &lists.last_use, &lists.is_root, &lists.slot_of]
        .iter()
        .any(|list| short(list.len(), &[n]))
        || short(lists.free_slots.len(), &[2, n])
}

fn clear(n: usize, lists: Lists) {
    for list in [lists.used, lists.last_use, lists.is_root, lists.slot_of] {
        list[..n].fill(0);
    }
    lists.free_slots[..2 * n].fill(0);
}

pub fn lower(program: &Program, lists: Lists, tables: Rooms, sizes: &mut Sizes) -> Answer {
    let counts = &program.counts;
    counts_fit(program)?;
    refuse_if(1, program_short(program) || lists_short(counts.nodes, &lists))?;
    let nodes = well_formed(program)?;
    let blob = lowered(&nodes, &roots(program).collect::<Vec<_>>());
    clear(counts.nodes, lists);

    let base_consts = &program.base_consts[..counts.base_consts];
    let ext_consts = &program.ext_consts[..3 * counts.ext_consts];
    refuse_if(
        10,
        tables.nodes.len() < blob.nodes.len()
            || tables.base_consts.len() < base_consts.len()
            || tables.ext_consts.len() < ext_consts.len()
            || tables.roots.len() < blob.roots.len(),
    )?;
    tables.nodes[..blob.nodes.len()].copy_from_slice(&blob.nodes);
    tables.roots[..blob.roots.len()].copy_from_slice(&blob.roots);
    for (from, to) in [(base_consts, tables.base_consts), (ext_consts, tables.ext_consts)] {
        for (word, place) in from.iter().zip(to) {
            *place = word % P;
        }
    }
    *sizes = blob.sizes;
    Ok(())
}
