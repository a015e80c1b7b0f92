//! Calls of the builder, in rows that are replayed on several builders: ours, the published one, and two plain ones.

pub mod agree;
pub mod bytes;
pub mod compare;
pub mod hostile;
pub mod owned;
pub mod published;
pub mod sample;

use host::Refusal;
use host::lent::builder::{Filled, Handle, Tables};
use host::lent::builder_bytes::ByteTables;

use crate::inputs::Random;
use crate::plain::builder::List;
use crate::programs::compare::Answer;
use crate::{Limbs, P};

/// A call that changes a builder.
#[derive(Clone, Copy, Debug, PartialEq, Eq)]
pub enum Call {
    New,
    Main { offset: u8, column: usize },
    Aux { offset: u8, column: usize },
    Challenge(usize),
    AlphaPower(usize),
    TableOffset,
    ConstBase(u64),
    ConstSigned(i64),
    ConstExt(Limbs),
    One,
    Add(Handle, Handle),
    Sub(Handle, Handle),
    Mul(Handle, Handle),
    Neg(Handle),
    Embed(Handle),
    Emit(usize, Handle),
}

/// A call on lent tables, which have all calls under the same names in words and in bytes.
macro_rules! on_tables {
    ($call:expr, $tables:expr, $made:expr) => {
        match $call {
            Call::New => $tables.fresh($made),
            Call::Main { offset, column } => $tables.main(offset, column, $made),
            Call::Aux { offset, column } => $tables.aux(offset, column, $made),
            Call::Challenge(index) => $tables.challenge(index, $made),
            Call::AlphaPower(index) => $tables.alpha_power(index, $made),
            Call::TableOffset => $tables.table_offset($made),
            Call::ConstBase(value) => $tables.const_base(value, $made),
            Call::ConstSigned(value) => $tables.const_signed(value, $made),
            Call::ConstExt(value) => $tables.const_ext(value, $made),
            Call::One => $tables.one($made),
            Call::Add(a, b) => $tables.add(a, b, $made),
            Call::Sub(a, b) => $tables.sub(a, b, $made),
            Call::Mul(a, b) => $tables.mul(a, b, $made),
            Call::Neg(a) => $tables.neg(a, $made),
            Call::Embed(a) => $tables.embed(a, $made),
            Call::Emit(constraint, root) => $tables.emit(constraint, root),
        }
    };
}

impl Call {
    /// The host's answer. `Emit` makes no handle.
    pub fn on_host(&self, tables: &mut Tables, made: &mut Handle) -> Answer {
        on_tables!(*self, tables, made)
    }

    /// The host's answer over bytes.
    pub fn on_bytes(&self, tables: &mut ByteTables, made: &mut Handle) -> Answer {
        on_tables!(*self, tables, made)
    }
}

pub fn refused(number: u8) -> Refusal {
    Refusal { number, place: 0 }
}

/// How many of each thing the lent tables hold.
#[derive(Clone, Copy, Debug, PartialEq, Eq)]
pub struct Rooms {
    pub nodes: usize,
    pub places: usize,
    pub base_consts: usize,
    pub ext_consts: usize,
    pub roots: usize,
}

impl Rooms {
    pub const ENDLESS: Rooms = Rooms {
        nodes: usize::MAX,
        places: usize::MAX,
        base_consts: usize::MAX,
        ext_consts: usize::MAX,
        roots: usize::MAX,
    };

    /// Exactly what so much needs.
    pub fn of(filled: &Filled) -> Self {
        Rooms {
            nodes: filled.nodes,
            places: filled.nodes,
            base_consts: filled.base_consts,
            ext_consts: filled.ext_consts,
            roots: filled.roots,
        }
    }

    pub fn each_mut(&mut self) -> [&mut usize; 5] {
        [
            &mut self.nodes,
            &mut self.places,
            &mut self.base_consts,
            &mut self.ext_consts,
            &mut self.roots,
        ]
    }
}

/// What random calls are like.
#[derive(Clone, Copy)]
pub struct Recipe {
    pub calls: usize,
    /// Leaves are among so many of each kind, so that equal ones meet.
    pub leaves: usize,
    /// Constraint numbers are below this; 0 for none.
    pub constraints: usize,
    /// One call in so many has an index about the limit.
    pub limits: usize,
}

/// Words that a constant often is, so that equal ones meet; 0 and p are one.
const CONSTANTS: [u64; 7] = [0, 1, 2, P - 1, P, P + 1, u64::MAX];

const SIGNED: [i64; 7] = [0, 1, -1, 2, -2, i64::MIN, i64::MAX];

/// Columns and indexes about the limit: the first two are taken.
pub const INDEXES: [usize; 6] = [65_534, 65_535, 65_536, 65_537, 1 << 32, usize::MAX];

/// A row of calls on a fresh builder, which is not among them, and what they come to where there is room for all.
pub fn random_calls(random: &mut Random, recipe: &Recipe) -> (Vec<Call>, List) {
    let mut list = List::new(Rooms::ENDLESS).expect("there is room");
    let mut calls = Vec::new();
    for _ in 0..recipe.calls {
        let call = if !calls.is_empty() && random.once_in(8) {
            random.pick(&calls)
        } else {
            random_call(random, recipe, &list)
        };
        // A call that is refused has changed nothing.
        _ = list.call(&call);
        calls.push(call);
    }
    (calls, list)
}

fn random_call(random: &mut Random, recipe: &Recipe, list: &List) -> Call {
    if recipe.constraints != 0 && random.once_in(8) {
        let root = list.handle(random.below(list.nodes.len()));
        return Call::Emit(random.below(recipe.constraints), root);
    }
    if random.below(10) < 4 {
        leaf(random, recipe)
    } else {
        operation(random, list)
    }
}

fn leaf(random: &mut Random, recipe: &Recipe) -> Call {
    let index = if random.once_in(recipe.limits) {
        random.pick(&INDEXES)
    } else {
        random.below(recipe.leaves)
    };
    let offset = if random.once_in(12) { 255 } else { random.below(3) as u8 };
    match random.below(16) {
        0..4 => Call::Main { offset, column: index },
        4..6 => Call::Aux { offset, column: index },
        6 | 7 => Call::Challenge(index),
        8 => Call::AlphaPower(index),
        9 => Call::TableOffset,
        10 => Call::One,
        11 if random.once_in(2) => Call::ConstSigned(random.pick(&SIGNED)),
        11 => Call::ConstSigned(random.uniform() as i64),
        12 | 13 => Call::ConstBase(word(random)),
        _ => Call::ConstExt([word(random), random.pick(&[0, P]), random.pick(&[0, 1, P + 1])]),
    }
}

fn word(random: &mut Random) -> u64 {
    if random.once_in(2) {
        random.pick(&CONSTANTS)
    } else {
        random.word()
    }
}

fn operation(random: &mut Random, list: &List) -> Call {
    let end = list.nodes.len();
    // Half of the operands are among the last few, so that programs are deep, and half anywhere, so that they share.
    let mut operand = || {
        let id = if random.once_in(2) {
            end - 1 - random.below(end.min(3))
        } else {
            random.below(end)
        };
        list.handle(id)
    };
    let (a, b) = (operand(), operand());
    match random.below(12) {
        0..3 => Call::Add(a, b),
        3..6 => Call::Sub(a, b),
        6..9 => Call::Mul(a, b),
        9 | 10 => Call::Neg(a),
        _ => Call::Embed(a),
    }
}
