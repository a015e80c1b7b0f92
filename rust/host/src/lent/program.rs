//! Constraint programs: the check and the three evaluators.
//!
//! A node is four words: tag, x, y, dim. Tags are 0 base constant, 1 extension constant, 2 trace cell, 3 challenge,
//! 4 alpha power, 5 table offset, 6 add, 7 sub, 8 mul, 9 neg, 10 embed; dim is 0 for base and 1 for extension. A
//! constant, challenge or alpha power has its index in x; an operation has the ids of its operands, which are below its
//! own. A trace cell has its column in x and in y its step times 256, plus 65,536 if it is of the main trace. Words that
//! a tag does not use are 0.
//!
//! Every call takes its refusals in one order, 8, 9, 2, 1, 14, 6, 7, 13, 12, 10, without those that cannot happen in it,
//! and answers the first that holds.

use super::call;
use crate::error::{Refusal, done};

/// How many of each thing a program has.
#[derive(Clone, Copy, Debug, Default, PartialEq, Eq)]
pub struct Counts {
    /// At most 536,870,911.
    pub nodes: usize,
    /// At most 536,870,911.
    pub base_consts: usize,
    /// At most 536,870,911.
    pub ext_consts: usize,
    /// At most 4,294,967,295.
    pub roots: usize,
    /// Constraints below this number have base values. At most 4,294,967,295; it may be past the root count.
    pub num_base: usize,
}

/// A program in lent words; in [`bytes`](super::bytes) its tables are bytes.
#[derive(Clone, Copy, Debug)]
pub struct Program<'a, Short = u32, Long = u64> {
    /// How many of each thing there are.
    pub counts: Counts,
    /// Four words a node.
    pub nodes: &'a [Short],
    /// One word a constant.
    pub base_consts: &'a [Long],
    /// Three words a constant.
    pub ext_consts: &'a [Long],
    /// The node of each constraint.
    pub roots: &'a [Short],
}

/// How many of each thing a frame has.
#[derive(Clone, Copy, Debug, Default, PartialEq, Eq)]
pub struct Shape {
    /// At most 256.
    pub steps: usize,
    /// Columns of the main trace. At most 65,536, as the rest.
    pub main_width: usize,
    /// Columns of the aux trace.
    pub aux_width: usize,
    /// Challenges.
    pub challenges: usize,
    /// Alpha powers.
    pub alphas: usize,
}

/// What the leaves of a program read, in lent words; in [`bytes`](super::bytes) in bytes. Cells go by step, then by column.
#[derive(Clone, Copy, Debug)]
pub struct Frame<'a, Word = u64> {
    /// How many of each thing there are.
    pub shape: Shape,
    /// One word a cell; in [`eval_program_verifier`] three.
    pub main: &'a [Word],
    /// Three words a cell.
    pub aux: &'a [Word],
    /// Three words each.
    pub challenges: &'a [Word],
    /// Three words each.
    pub alphas: &'a [Word],
    /// The table offset.
    pub table_offset: [u64; 3],
}

/// Whether the program is well-formed. Refusals: 8, 9, 1, 7.
pub fn check_program(program: &Program) -> Result<(), Refusal> {
    done(call!(cir_check_program: counts program.counts, tables u32 u64 program,))
}

/// Writes the columns that some node reads at a step past the first into the beginning of `out`, ascending and each
/// once, and returns how many they are. A column of the aux trace counts from `main_width` on, which is at most 65,536.
/// Refusals: 8, 9, 2, 1, 7, 10.
pub fn next_row_trace_reads(program: &Program, main_width: usize, out: &mut [u32]) -> Result<usize, Refusal> {
    let mut count = 0;
    next_row_trace_reads_into(program, main_width, out, &mut count)?;
    Ok(count as usize)
}

/// As [`next_row_trace_reads`], with the word for the number of columns lent too, as the library has it.
pub fn next_row_trace_reads_into(
    program: &Program,
    main_width: usize,
    out: &mut [u32],
    count: &mut u64,
) -> Result<(), Refusal> {
    done(call!(
        cir_next_row_trace_reads:
        counts program.counts,
        number usize main_width,
        tables u32 u64 program,
        write u32 out,
        out u64 count,
    ))
}

/// The prover's evaluator: writes constraint c below `num_base` to `base_evals[c]` and every other to
/// `ext_evals[3 * c..3 * c + 3]`. No other word of the two changes.
///
/// `base_evals` needs as many words as the smaller of `num_base` and the root count, `ext_evals` three for every root
/// if any is at or past `num_base`, else none. `room` needs four words a node, of any content, and is left with each
/// node's value: its class (0 base, 1 extension), then three limbs.
///
/// Refusals: 8, 9, 2, 1, 14, 7, 13, 12.
pub fn eval_program(
    program: &Program,
    frame: &Frame,
    base_evals: &mut [u64],
    ext_evals: &mut [u64],
    room: &mut [u64],
) -> Result<(), Refusal> {
    done(call!(
        cir_eval_program:
        counts program.counts,
        shape frame.shape,
        offset frame.table_offset,
        tables u32 u64 program,
        cells u64 frame,
        write u64 base_evals,
        write u64 ext_evals,
        write u64 room,
    ))
}

/// One constraint's value over one main row of `width` columns, which is at most 65,536. The step of a main cell counts
/// for nothing. `room` is as in [`eval_program`]; the whole program is evaluated into it.
///
/// A main column at or past `width` and every other leaf of the frame is a refusal 13.
///
/// Refusals: 8, 9, 2, 1, 6, 7, 13, 12.
pub fn eval_program_base(
    program: &Program,
    width: usize,
    constraint: usize,
    row: &[u64],
    room: &mut [u64],
) -> Result<u64, Refusal> {
    let mut value = 0;
    eval_program_base_into(program, width, constraint, row, room, &mut value)?;
    Ok(value)
}

/// As [`eval_program_base`], with the word for the value lent too, as the library has it.
pub fn eval_program_base_into(
    program: &Program,
    width: usize,
    constraint: usize,
    row: &[u64],
    room: &mut [u64],
    value: &mut u64,
) -> Result<(), Refusal> {
    done(call!(
        cir_eval_program_base:
        counts program.counts,
        number usize width,
        number usize constraint,
        tables u32 u64 program,
        read u64 row,
        write u64 room,
        out u64 value,
    ))
}

/// The verifier's evaluator: main cells have three words, and every constraint c is written to
/// `ext_evals[3 * c..3 * c + 3]`, which needs three words for every root. `room` is as in [`eval_program`], with the
/// class of each value, which is not always the node's dim: a main cell here is an extension value.
///
/// Refusals: 8, 9, 2, 1, 14, 7, 13.
pub fn eval_program_verifier(
    program: &Program,
    frame: &Frame,
    ext_evals: &mut [u64],
    room: &mut [u64],
) -> Result<(), Refusal> {
    done(call!(
        cir_eval_program_verifier:
        counts program.counts,
        shape frame.shape,
        offset frame.table_offset,
        tables u32 u64 program,
        cells u64 frame,
        write u64 ext_evals,
        write u64 room,
    ))
}
