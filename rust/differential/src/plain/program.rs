//! The program check, the next-row reads and the three evaluators as the scope document words them, written from its
//! text and from neither side's code. Everything is worked out first, in values of its own, and only then written to
//! what was lent.

use super::{ext_add, ext_mul, ext_neg, ext_sub};
use crate::{Limbs, P};
use host::Refusal;
use host::lent::program::{Frame, Program, Shape};

pub(super) type Answer = Result<(), Refusal>;

pub(super) fn refuse(number: u8, place: usize) -> Answer {
    Err(Refusal {
        number,
        place: place as u64,
    })
}

/// Refuses with a number that names no place.
pub(super) fn refuse_if(number: u8, holds: bool) -> Answer {
    if holds { refuse(number, 0) } else { Ok(()) }
}

/// Refuses at the lowest place where something is wrong.
pub(super) fn refuse_at_lowest(number: u8, mut wrong: impl Iterator<Item = bool>) -> Answer {
    match wrong.position(|wrong| wrong) {
        Some(place) => refuse(number, place),
        None => Ok(()),
    }
}

/// What a node computes.
#[derive(Clone, Copy)]
pub(super) enum Meaning {
    BaseConstant(usize),
    ExtConstant(usize),
    Main { step: usize, column: usize },
    Aux { step: usize, column: usize },
    Challenge(usize),
    Alpha(usize),
    TableOffset,
    Add(usize, usize),
    Sub(usize, usize),
    Mul(usize, usize),
    Neg(usize),
    Embed(usize),
}

use Meaning::{Add, Alpha, Aux, BaseConstant, Challenge, Embed, ExtConstant, Main, Mul, Neg, Sub, TableOffset};

/// A node of a well-formed program.
#[derive(Clone, Copy)]
pub(super) struct Node {
    pub(super) meaning: Meaning,
    pub(super) extension: bool,
}

/// The node that four words stand for, if they may stand at the end of `before`.
fn node(words: &[u32], before: &[Node], program: &Program) -> Option<Node> {
    let [tag, x, y, dim] = words else {
        unreachable!("a node is four words")
    };
    let (x, y) = (*x as usize, *y as usize);
    // An operand is a node that stands before this one.
    let class = |operand: usize| before.get(operand).map(|node| node.extension);
    let either = |x: usize, y: usize| Some(class(x)? | class(y)?);
    // What the words mean, whether that is an extension value, and whether y has a use.
    let (meaning, extension, y_used) = match tag {
        0 => (BaseConstant(x), false, false),
        1 => (ExtConstant(x), true, false),
        2 => {
            // y: main at bit 16, the step in bits 8 to 15, the row in bits 0 to 7.
            let (main, step, row) = (y >> 16, (y >> 8) % 256, y % 256);
            if main > 1 || row != 0 {
                return None;
            }
            match main {
                1 => (Main { step, column: x }, false, true),
                _ => (Aux { step, column: x }, true, true),
            }
        }
        3 => (Challenge(x), true, false),
        4 => (Alpha(x), true, false),
        5 => (TableOffset, true, false),
        6 => (Add(x, y), either(x, y)?, true),
        7 => (Sub(x, y), either(x, y)?, true),
        8 => (Mul(x, y), either(x, y)?, true),
        9 => (Neg(x), class(x)?, false),
        10 => {
            class(x)?;
            (Embed(x), true, false)
        }
        _ => return None,
    };
    let x_fits = match meaning {
        BaseConstant(index) => index < program.counts.base_consts,
        ExtConstant(index) => index < program.counts.ext_consts,
        Main { column: index, .. } | Aux { column: index, .. } | Challenge(index) | Alpha(index) => index <= 65_535,
        TableOffset => x == 0,
        Add(..) | Sub(..) | Mul(..) | Neg(..) | Embed(..) => true,
    };
    let dim_fits = *dim == u32::from(extension);
    (x_fits && dim_fits && (y_used || y == 0)).then_some(Node { meaning, extension })
}

/// 7, or the program's nodes. The lent words hold what the counts say.
pub(super) fn well_formed(program: &Program) -> Result<Vec<Node>, Refusal> {
    let mut nodes = Vec::with_capacity(program.counts.nodes);
    for (id, words) in program.nodes.chunks_exact(4).take(program.counts.nodes).enumerate() {
        match node(words, &nodes, program) {
            Some(node) => nodes.push(node),
            None => refuse(7, id)?,
        }
    }
    refuse_at_lowest(7, roots(program).map(|root| nodes.len() <= root))?;
    Ok(nodes)
}

pub(super) fn roots<'a>(program: &Program<'a>) -> impl Iterator<Item = usize> + use<'a> {
    program
        .roots
        .iter()
        .take(program.counts.roots)
        .map(|root| *root as usize)
}

/// 8, then 9.
pub fn counts_fit(program: &Program) -> Answer {
    let counts = &program.counts;
    let most = counts.nodes.max(counts.base_consts).max(counts.ext_consts);
    refuse_if(8, 536_870_911 < most)?;
    refuse_if(9, 4_294_967_295 < counts.num_base.max(counts.roots))
}

/// 2, for a shape.
pub fn shape_fits(shape: &Shape) -> Answer {
    let most = [shape.main_width, shape.aux_width, shape.challenges, shape.alphas];
    refuse_if(2, 256 < shape.steps || most.iter().any(|count| 65_536 < *count))
}

/// 2, for a width.
fn width_fits(width: usize) -> Answer {
    refuse_if(2, 65_536 < width)
}

/// Whether a slice has fewer words than are needed. Wide, so that no product of counts is too large for it.
pub(super) fn short(words: usize, needed: &[usize]) -> bool {
    (words as u128) < needed.iter().map(|factor| *factor as u128).product()
}

/// Whether a table of the program is shorter than the counts need.
pub(super) fn program_short(program: &Program) -> bool {
    let counts = &program.counts;
    short(program.nodes.len(), &[4, counts.nodes])
        || short(program.base_consts.len(), &[counts.base_consts])
        || short(program.ext_consts.len(), &[3, counts.ext_consts])
        || short(program.roots.len(), &[counts.roots])
}

/// Whether a table of the frame is shorter than the shape needs, with main cells of so many words.
pub(super) fn frame_short(frame: &Frame, main_words: usize) -> bool {
    let shape = &frame.shape;
    short(frame.main.len(), &[main_words, shape.steps, shape.main_width])
        || short(frame.aux.len(), &[3, shape.steps, shape.aux_width])
        || short(frame.challenges.len(), &[3, shape.challenges])
        || short(frame.alphas.len(), &[3, shape.alphas])
}

fn room_short(room: &[u64], program: &Program) -> bool {
    short(room.len(), &[4, program.counts.nodes])
}

pub fn check_program(program: &Program) -> Answer {
    counts_fit(program)?;
    refuse_if(1, program_short(program))?;
    well_formed(program)?;
    Ok(())
}

pub fn next_row_trace_reads(program: &Program, main_width: usize, out: &mut [u32], count: &mut u64) -> Answer {
    counts_fit(program)?;
    width_fits(main_width)?;
    refuse_if(1, program_short(program))?;
    let nodes = well_formed(program)?;
    let column_of = |node: &Node| match node.meaning {
        Main { step: 1.., column } => Some(column),
        Aux { step: 1.., column } => Some(main_width + column),
        _ => None,
    };
    let mut columns: Vec<usize> = nodes.iter().filter_map(column_of).collect();
    columns.sort();
    columns.dedup();
    refuse_if(10, out.len() < columns.len())?;
    for (place, column) in out.iter_mut().zip(&columns) {
        *place = u32::try_from(*column).expect("two numbers below 65,537 make a small sum");
    }
    *count = columns.len() as u64;
    Ok(())
}

/// A value, below p, with its class.
#[derive(Clone, Copy)]
enum Value {
    Base(u64),
    Ext(Limbs),
}

impl Value {
    fn base(word: u64) -> Self {
        Value::Base(word % P)
    }

    /// The value of the triple at `index`.
    fn ext(words: &[u64], index: usize) -> Self {
        let words = &words[3 * index..];
        Value::Ext([words[0] % P, words[1] % P, words[2] % P])
    }

    fn limbs(self) -> Limbs {
        match self {
            Value::Base(x) => [x, 0, 0],
            Value::Ext(limbs) => limbs,
        }
    }

    /// As extension values and, where all are base, back again: a base value is one whose two other limbs are 0.
    fn of(limbs: Limbs, operands: &[Value]) -> Self {
        if operands.iter().all(|operand| matches!(operand, Value::Base(_))) {
            assert!(limbs[1] == 0 && limbs[2] == 0, "base values stay among themselves");
            Value::Base(limbs[0])
        } else {
            Value::Ext(limbs)
        }
    }
}

/// What an evaluator reads its leaves from.
enum Leaves<'a> {
    Prover(&'a Frame<'a>),
    Verifier(&'a Frame<'a>),
    Row { width: usize, row: &'a [u64] },
}

impl Leaves<'_> {
    /// Whether a node is a leaf that is not there.
    fn lacks(&self, node: &Node) -> bool {
        match self {
            Leaves::Prover(frame) | Leaves::Verifier(frame) => {
                let shape = &frame.shape;
                match node.meaning {
                    Main { step, column } => shape.steps <= step || shape.main_width <= column,
                    Aux { step, column } => shape.steps <= step || shape.aux_width <= column,
                    Challenge(index) => shape.challenges <= index,
                    Alpha(index) => shape.alphas <= index,
                    _ => false,
                }
            }
            Leaves::Row { width, .. } => match node.meaning {
                Main { column, .. } => *width <= column,
                Aux { .. } | Challenge(_) | Alpha(_) | TableOffset => true,
                _ => false,
            },
        }
    }

    /// A leaf that is there and no constant.
    fn value(&self, meaning: Meaning) -> Value {
        match (self, meaning) {
            (Leaves::Prover(frame), Main { step, column }) => {
                Value::base(frame.main[step * frame.shape.main_width + column])
            }
            (Leaves::Verifier(frame), Main { step, column }) => {
                Value::ext(frame.main, step * frame.shape.main_width + column)
            }
            (Leaves::Row { row, .. }, Main { column, .. }) => Value::base(row[column]),
            (Leaves::Prover(frame) | Leaves::Verifier(frame), leaf) => match leaf {
                Aux { step, column } => Value::ext(frame.aux, step * frame.shape.aux_width + column),
                Challenge(index) => Value::ext(frame.challenges, index),
                Alpha(index) => Value::ext(frame.alphas, index),
                TableOffset => Value::ext(&frame.table_offset, 0),
                _ => unreachable!("no leaf of the frame"),
            },
            (Leaves::Row { .. }, _) => unreachable!("a row has main cells only"),
        }
    }
}

/// 13, or the value of every node.
fn values(program: &Program, nodes: &[Node], leaves: &Leaves) -> Result<Vec<Value>, Refusal> {
    refuse_at_lowest(13, nodes.iter().map(|node| leaves.lacks(node)))?;
    let mut values: Vec<Value> = Vec::with_capacity(nodes.len());
    for node in nodes {
        let two = |a: usize, b: usize, operation: fn(Limbs, Limbs) -> Limbs| {
            let (a, b) = (values[a], values[b]);
            Value::of(operation(a.limbs(), b.limbs()), &[a, b])
        };
        let value = match node.meaning {
            BaseConstant(index) => Value::base(program.base_consts[index]),
            ExtConstant(index) => Value::ext(program.ext_consts, index),
            Add(a, b) => two(a, b, ext_add),
            Sub(a, b) => two(a, b, ext_sub),
            Mul(a, b) => two(a, b, ext_mul),
            Neg(a) => Value::of(ext_neg(values[a].limbs()), &[values[a]]),
            Embed(a) => Value::Ext(values[a].limbs()),
            leaf => leaves.value(leaf),
        };
        values.push(value);
    }
    Ok(values)
}

fn is_extension(value: &Value) -> bool {
    matches!(value, Value::Ext(_))
}

/// Four words a node: the class, then the limbs.
fn leave_values(values: &[Value], room: &mut [u64]) {
    for (words, value) in room.chunks_exact_mut(4).zip(values) {
        words[0] = u64::from(is_extension(value));
        words[1..].copy_from_slice(&value.limbs());
    }
}

pub fn eval_program(
    program: &Program,
    frame: &Frame,
    base_evals: &mut [u64],
    ext_evals: &mut [u64],
    room: &mut [u64],
) -> Answer {
    counts_fit(program)?;
    shape_fits(&frame.shape)?;
    refuse_if(
        1,
        program_short(program) || frame_short(frame, 1) || room_short(room, program),
    )?;
    let (num_base, root_count) = (program.counts.num_base, program.counts.roots);
    let any_other = num_base < root_count;
    refuse_if(
        14,
        short(base_evals.len(), &[num_base.min(root_count)]) || any_other && short(ext_evals.len(), &[3, root_count]),
    )?;
    let nodes = well_formed(program)?;
    let values = values(program, &nodes, &Leaves::Prover(frame))?;
    let of_roots: Vec<Value> = roots(program).map(|root| values[root]).collect();
    refuse_at_lowest(12, of_roots.iter().take(num_base).map(is_extension))?;
    for (c, value) in of_roots.iter().enumerate() {
        if c < num_base {
            base_evals[c] = value.limbs()[0];
        } else {
            ext_evals[3 * c..3 * c + 3].copy_from_slice(&value.limbs());
        }
    }
    leave_values(&values, room);
    Ok(())
}

pub fn eval_program_base(
    program: &Program,
    width: usize,
    constraint: usize,
    row: &[u64],
    room: &mut [u64],
    value: &mut u64,
) -> Answer {
    counts_fit(program)?;
    width_fits(width)?;
    refuse_if(
        1,
        program_short(program) || short(row.len(), &[width]) || room_short(room, program),
    )?;
    refuse_if(6, program.counts.roots <= constraint)?;
    let nodes = well_formed(program)?;
    let values = values(program, &nodes, &Leaves::Row { width, row })?;
    match values[program.roots[constraint] as usize] {
        Value::Base(x) => *value = x,
        Value::Ext(_) => refuse(12, constraint)?,
    }
    leave_values(&values, room);
    Ok(())
}

pub fn eval_program_verifier(program: &Program, frame: &Frame, ext_evals: &mut [u64], room: &mut [u64]) -> Answer {
    counts_fit(program)?;
    shape_fits(&frame.shape)?;
    refuse_if(
        1,
        program_short(program) || frame_short(frame, 3) || room_short(room, program),
    )?;
    refuse_if(14, short(ext_evals.len(), &[3, program.counts.roots]))?;
    let nodes = well_formed(program)?;
    let values = values(program, &nodes, &Leaves::Verifier(frame))?;
    for (c, root) in roots(program).enumerate() {
        ext_evals[3 * c..3 * c + 3].copy_from_slice(&values[root].limbs());
    }
    leave_values(&values, room);
    Ok(())
}
