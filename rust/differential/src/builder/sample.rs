//! A fixed sample of rows of calls on a builder with the answers that they have to get, as lines of numbers: for the Rattle
//! program `builder_cases`, which reads them from its file `stdin`. [`crate::lines`] says what a line is.
//!
//! The numbers of a line, in this order:
//!
//! 1. how many numbers follow on the line;
//! 2. the rooms: how many nodes, hash places, base constants, extension constants and roots are lent;
//! 3. the number of calls;
//! 4. for each call six numbers: the call, three arguments, the answer, and what it gives;
//! 5. the counts afterwards: n nodes, B base constants, X extension constants, R roots;
//! 6. the tables afterwards, as far as they are filled: 4n words of nodes, B base constants, 3X words of extension constants,
//!    R roots;
//! 7. the number of gaps, and the gaps: what the gap report writes where there is room.
//!
//! The calls, with their arguments; those that a call does not have are 0:
//!
//! | number | call | arguments |
//! |---|---|---|
//! | 0 | a fresh builder; the first call, and no other | |
//! | 1, 2 | a cell of the main trace, of the aux trace | offset, column |
//! | 3, 4 | a challenge, an alpha power | index |
//! | 5 | the table offset | |
//! | 6 | a base constant | word |
//! | 7 | a signed constant | the word whose bits are the i64's |
//! | 8 | an extension constant | three limbs |
//! | 9 | one | |
//! | 10, 11, 12 | add, sub, mul | two handles |
//! | 13, 14 | neg, embed | a handle |
//! | 15 | emit | constraint, handle |
//! | 16 | the gap report | how many words are lent for it |
//!
//! A handle is one number: its id plus 2^32 times its dim. On 0 a call gives its handle, emit gives 0 and the gap report the
//! number of gaps; a refusal gives 0. Where a fresh builder is refused, no call follows, and the counts are 0.

use super::{Call, Recipe, Rooms, random_calls};
use crate::P;
use crate::inputs::Random;
use crate::lines::Line;
use crate::plain::builder::List;
use host::lent::builder::Handle;

/// The same sample in every run.
const SEED: u64 = 0x6275_6973;

/// A call of a row, after that for a fresh builder.
#[derive(Clone, Copy, Debug)]
pub enum Asked {
    Call(Call),
    /// The gap report, with so many words lent for it.
    Gaps(usize),
}

use Asked::Gaps;

/// Rooms, and the calls after that for a fresh builder.
pub struct Row {
    pub rooms: Rooms,
    pub asked: Vec<Asked>,
}

const fn rooms(nodes: usize, places: usize, base_consts: usize, ext_consts: usize, roots: usize) -> Rooms {
    Rooms {
        nodes,
        places,
        base_consts,
        ext_consts,
        roots,
    }
}

const AMPLE: Rooms = rooms(16, 32, 8, 4, 4);

const fn base(id: u32) -> Handle {
    Handle { id, dim: 0 }
}

const fn ext(id: u32) -> Handle {
    Handle { id, dim: 1 }
}

const fn main(offset: u8, column: usize) -> Call {
    Call::Main { offset, column }
}

const fn aux(offset: u8, column: usize) -> Call {
    Call::Aux { offset, column }
}

/// Calls in rooms of this size, and the gap report with too few words and with enough where there are gaps.
fn row(rooms: Rooms, calls: &[Call]) -> Row {
    let mut asked: Vec<Asked> = calls.iter().copied().map(Asked::Call).collect();
    if let Ok(mut list) = List::new(rooms) {
        for call in calls {
            _ = list.call(call);
        }
        let gaps = list.gaps(usize::MAX).map_or(0, |gaps| gaps.len());
        asked.extend((gaps.saturating_sub(1)..=gaps).filter(|_| gaps != 0).map(Gaps));
    }
    Row { rooms, asked }
}

/// Rows that are each there for something, where there is room.
fn chosen() -> Vec<Row> {
    vec![
        // Program E.
        row(
            AMPLE,
            &[
                main(0, 0),
                main(1, 0),
                Call::Sub(base(2), base(1)),
                Call::One,
                Call::Sub(base(3), base(4)),
                Call::Emit(0, base(5)),
                aux(0, 2),
                Call::Challenge(0),
                Call::Mul(ext(6), ext(7)),
                Call::Add(ext(8), base(5)),
                Call::Emit(1, ext(9)),
            ],
        ),
        // emit(2) alone; a root that is replaced; constraints whose root is node 0 because they were given it.
        row(AMPLE, &[main(0, 1), Call::Emit(2, base(1))]),
        row(
            AMPLE,
            &[
                Call::TableOffset,
                Call::Emit(1, ext(1)),
                Call::Emit(1, base(0)),
                Call::Emit(0, ext(1)),
                Call::Emit(3, base(0)),
            ],
        ),
        // Each leaf, and again.
        row(
            AMPLE,
            &[
                main(0, 0),
                aux(0, 0),
                main(255, 7),
                aux(255, 7),
                Call::Challenge(0),
                Call::AlphaPower(0),
                Call::TableOffset,
                main(0, 0),
                aux(0, 0),
                Call::Challenge(0),
                Call::AlphaPower(0),
                Call::TableOffset,
            ],
        ),
        // The highest index, and one more.
        row(
            AMPLE,
            &[
                main(0, 65_535),
                main(0, 65_536),
                aux(0, 65_535),
                aux(0, 65_536),
                Call::Challenge(65_535),
                Call::Challenge(65_536),
                Call::AlphaPower(65_535),
                Call::AlphaPower(usize::MAX),
            ],
        ),
        // Constants by value: 0 and p are one, and so are 1 and p + 1, -1 and p - 1.
        row(
            AMPLE,
            &[
                Call::ConstBase(P),
                Call::ConstBase(P + 1),
                Call::One,
                Call::ConstSigned(1),
                Call::ConstSigned(-1),
                Call::ConstBase(P - 1),
                Call::ConstBase(u64::MAX),
                Call::ConstSigned(i64::MIN),
                Call::ConstSigned(0),
            ],
        ),
        row(
            AMPLE,
            &[
                Call::ConstExt([0; 3]),
                Call::ConstExt([P; 3]),
                Call::ConstExt([0, 0, 1]),
                Call::ConstExt([1, 0, 0]),
                Call::ConstExt([P + 1, P, 0]),
                Call::ConstExt([0, 1, u64::MAX]),
            ],
        ),
        // Dims: base exactly if both are; the order of operands; Neg and Embed of either.
        row(
            AMPLE,
            &[
                main(0, 0),
                Call::TableOffset,
                Call::Add(base(1), base(1)),
                Call::Add(base(1), ext(2)),
                Call::Add(ext(2), base(1)),
                Call::Sub(ext(2), ext(2)),
                Call::Mul(base(1), base(0)),
                Call::Neg(base(1)),
                Call::Neg(ext(2)),
                Call::Embed(base(1)),
                Call::Embed(ext(2)),
                Call::Embed(ext(10)),
                Call::Add(base(1), ext(2)),
                Call::Embed(base(1)),
            ],
        ),
        // Handles that are no node's: an id that is not there, a dim that is not the node's.
        row(
            AMPLE,
            &[
                Call::TableOffset,
                Call::Add(base(0), ext(2)),
                Call::Sub(base(1), base(0)),
                Call::Mul(ext(0), base(0)),
                Call::Neg(Handle { id: 1, dim: 2 }),
                Call::Embed(base(u32::MAX)),
                Call::Emit(0, base(1)),
                Call::Neg(ext(1)),
            ],
        ),
    ]
}

/// Rows in which something is full.
fn full() -> Vec<Row> {
    let calls = [
        Call::Challenge(0),
        main(0, 0),
        Call::Challenge(0),
        Call::Neg(ext(1)),
        Call::ConstBase(P),
        Call::ConstBase(7),
        Call::ConstExt([7; 3]),
        Call::Emit(0, ext(1)),
    ];
    let constants = [
        Call::One,
        Call::ConstBase(2),
        Call::ConstBase(P + 1),
        Call::ConstExt([2; 3]),
        Call::ConstExt([3; 3]),
        Call::ConstExt([P + 2, 2, 2]),
        Call::Neg(base(0)),
    ];
    vec![
        // No fresh builder.
        row(rooms(4, 4, 0, 4, 4), &[]),
        row(rooms(0, 4, 4, 4, 4), &[]),
        row(rooms(4, 0, 4, 4, 4), &[]),
        row(rooms(0, 0, 0, 0, 0), &[]),
        // Room for node 0 alone, and its constant.
        row(rooms(1, 1, 1, 0, 0), &calls[..2]),
        // Nodes, places, constants of each class and roots: an equal one is answered, a new one refused.
        row(rooms(2, 9, 4, 4, 4), &calls),
        row(rooms(9, 2, 4, 4, 4), &calls),
        row(rooms(9, 18, 2, 4, 4), &constants),
        row(rooms(9, 18, 4, 1, 4), &constants),
        row(rooms(9, 9, 1, 0, 4), &constants),
        row(
            rooms(9, 18, 4, 4, 2),
            &[
                Call::One,
                Call::Emit(2, base(1)),
                Call::Emit(1, base(1)),
                Call::Emit(usize::MAX, base(0)),
            ],
        ),
        // The order: 2 before 4, 3 before 4 and 6, 5 before 4.
        row(
            rooms(1, 2, 1, 1, 0),
            &[
                main(0, 65_536),
                Call::Neg(ext(0)),
                Call::Emit(0, ext(0)),
                Call::Emit(0, base(0)),
                Call::One,
            ],
        ),
    ]
}

/// Random rows: with half of the places free, with none free, and with something short.
fn random_rows() -> Vec<Row> {
    let mut random = Random::new(SEED);
    (0..12)
        .map(|i| {
            let recipe = Recipe {
                calls: 12,
                leaves: 3,
                constraints: 3,
                limits: 20,
            };
            let (calls, list) = random_calls(&mut random, &recipe);
            let mut rooms = Rooms::of(&list.filled());
            match i % 3 {
                0 => rooms.places *= 2,
                1 => {}
                _ => {
                    rooms.places = rooms.nodes - 3;
                    rooms.base_consts = rooms.base_consts.max(2) - 1;
                }
            }
            row(rooms, &calls)
        })
        .collect()
}

pub fn rows() -> Vec<Row> {
    [chosen(), full(), random_rows()].into_iter().flatten().collect()
}

fn coded(handle: Handle) -> u64 {
    u64::from(handle.id) + (u64::from(handle.dim) << 32)
}

/// A call's number and arguments.
fn numbers(asked: &Asked) -> [u64; 4] {
    let call = match *asked {
        Asked::Call(call) => call,
        Gaps(room) => return [16, room as u64, 0, 0],
    };
    match call {
        Call::New => [0; 4],
        Call::Main { offset, column } => [1, offset.into(), column as u64, 0],
        Call::Aux { offset, column } => [2, offset.into(), column as u64, 0],
        Call::Challenge(index) => [3, index as u64, 0, 0],
        Call::AlphaPower(index) => [4, index as u64, 0, 0],
        Call::TableOffset => [5, 0, 0, 0],
        Call::ConstBase(value) => [6, value, 0, 0],
        Call::ConstSigned(value) => [7, value as u64, 0, 0],
        Call::ConstExt([a, b, c]) => [8, a, b, c],
        Call::One => [9, 0, 0, 0],
        Call::Add(a, b) => [10, coded(a), coded(b), 0],
        Call::Sub(a, b) => [11, coded(a), coded(b), 0],
        Call::Mul(a, b) => [12, coded(a), coded(b), 0],
        Call::Neg(a) => [13, coded(a), 0, 0],
        Call::Embed(a) => [14, coded(a), 0, 0],
        Call::Emit(constraint, root) => [15, constraint as u64, coded(root), 0],
    }
}

/// A call with what the lists answer: the answer, and what it gives.
fn answered(line: &mut Line, asked: &Asked, answer: Result<u64, u8>) {
    line.words(&numbers(asked));
    line.words(&match answer {
        Ok(gives) => [0, gives],
        Err(number) => [number.into(), 0],
    });
}

/// A row as its line, with the answers of the builder that is lists.
fn line(row: &Row) -> String {
    let Rooms {
        nodes,
        places,
        base_consts,
        ext_consts,
        roots,
    } = row.rooms;
    let mut line = Line::default();
    line.counts(&[nodes, places, base_consts, ext_consts, roots]);
    line.counts(&[1 + row.asked.len()]);
    let fresh = List::new(row.rooms);
    let zero = fresh.as_ref().map(|list| coded(list.handle(0)));
    answered(&mut line, &Asked::Call(Call::New), zero.map_err(|number| *number));
    let Ok(mut list) = fresh else {
        assert!(row.asked.is_empty(), "no call follows where there is no builder");
        line.counts(&[0; 5]);
        return line.finish();
    };
    for asked in &row.asked {
        let answer = match asked {
            Asked::Call(call) => list.call(call).map(|made| made.map_or(0, coded)),
            Gaps(room) => list.gaps(*room).map(|gaps| gaps.len() as u64),
        };
        answered(&mut line, asked, answer);
    }
    let filled = list.filled();
    line.counts(&[filled.nodes, filled.base_consts, filled.ext_consts, filled.roots]);
    line.short_words(list.nodes.as_flattened());
    line.words(&list.base_consts);
    line.words(list.ext_consts.as_flattened());
    line.short_words(&list.roots);
    let gaps = list.gaps(usize::MAX).expect("there is room");
    line.counts(&[gaps.len()]);
    line.words(&gaps);
    line.finish()
}

/// The sample.
pub fn lines() -> Vec<String> {
    rows().iter().map(line).collect()
}
