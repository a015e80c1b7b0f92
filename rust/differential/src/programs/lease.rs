//! All that the calls on a program are lent and told, each length of it, and changes to it.

use std::fmt::Arguments;

use super::build::{Recipe, build};
use super::compare::{self, Answer, Asked, Lengths};
use super::{Cells, PROVER, VERIFIER, Words, foreign, published, small_shape};
use crate::Score;
use crate::inputs::Random;

#[derive(Clone, Copy, Debug, PartialEq, Eq)]
pub enum Call {
    Check,
    Reads,
    Prover,
    Base,
    Verifier,
}

use Call::{Base, Check, Prover, Reads, Verifier};

/// Each call's refusals, in the order in which it takes them.
pub const ORDERS: [(Call, &[u8]); 5] = [
    (Check, &[8, 9, 1, 7]),
    (Reads, &[8, 9, 2, 1, 7, 10]),
    (Prover, &[8, 9, 2, 1, 14, 7, 13, 12]),
    (Base, &[8, 9, 2, 1, 6, 7, 13, 12]),
    (Verifier, &[8, 9, 2, 1, 14, 7, 13]),
];

/// All that a call is lent and told. A call uses its part of it.
#[derive(Clone)]
pub struct Lease {
    pub words: Words,
    pub cells: Cells,
    pub lengths: Lengths,
    /// Of the base row, and the main width that next-row reads are told.
    pub width: usize,
    pub constraint: usize,
    pub row: Vec<u64>,
    /// Words for the columns of next-row reads.
    pub out: usize,
}

impl Lease {
    /// Everything exactly as long as the call needs it. The program is well-formed.
    pub fn new(call: Call, words: Words, cells: Cells, row: Vec<u64>) -> Self {
        let mut lease = Lease {
            lengths: Lengths::prover(&words),
            width: row.len(),
            constraint: 0,
            out: 0,
            words,
            cells,
            row,
        };
        lease.fit(call);
        lease
    }

    /// Makes everything exactly as long as counts, shape and width need it, where it was not shorter.
    pub fn fit(&mut self, call: Call) {
        let shape = &self.cells.shape;
        self.cells
            .main
            .truncate(main_words(call) * shape.steps * shape.main_width);
        self.cells.aux.truncate(3 * shape.steps * shape.aux_width);
        self.cells.challenges.truncate(3 * shape.challenges);
        self.cells.alphas.truncate(3 * shape.alphas);
        self.row.truncate(self.width);
        self.lengths = match call {
            Verifier => Lengths::verifier(&self.words),
            _ => Lengths::prover(&self.words),
        };
        self.out = published::program(&self.words).next_row_trace_reads(self.width).len();
    }

    pub fn run(&self, score: &mut Score, call: Call, what: Arguments<'_>) -> Answer {
        match call {
            Check => compare::check_program(score, &self.words, what),
            Reads => compare::next_row_trace_reads(score, &self.words, self.width, self.out, what).answer,
            Prover => compare::eval_program(score, &self.words, &self.cells, self.lengths, what).answer,
            Verifier => compare::eval_program_verifier(score, &self.words, &self.cells, self.lengths, what).answer,
            Base => {
                let asked = Asked {
                    width: self.width,
                    constraint: self.constraint,
                    row: &self.row,
                };
                compare::eval_program_base(score, &self.words, asked, self.lengths.room, what).answer
            }
        }
    }
}

/// Where a length of a lease stands.
pub enum Len<'a> {
    Words(&'a mut Vec<u32>),
    Wide(&'a mut Vec<u64>),
    Number(&'a mut usize),
}

impl Len<'_> {
    pub fn get(&self) -> usize {
        match self {
            Len::Words(table) => table.len(),
            Len::Wide(table) => table.len(),
            Len::Number(len) => **len,
        }
    }

    pub fn set(self, len: usize) {
        match self {
            Len::Words(table) => table.resize(len, 0),
            Len::Wide(table) => table.resize(len, 0),
            Len::Number(number) => *number = len,
        }
    }
}

pub struct Need {
    pub name: &'static str,
    /// Given when it is too short.
    pub number: u8,
    pub len: fn(&mut Lease) -> Len<'_>,
}

impl Need {
    pub fn new(name: &'static str, number: u8, len: fn(&mut Lease) -> Len<'_>) -> Self {
        Need { name, number, len }
    }
}

/// Each length that the call has a need of, with the number that a shorter one gives.
pub fn needs_of(call: Call) -> Vec<Need> {
    let mut needs = vec![
        Need::new("nodes", 1, |lease| Len::Words(&mut lease.words.nodes)),
        Need::new("base_consts", 1, |lease| Len::Wide(&mut lease.words.base_consts)),
        Need::new("ext_consts", 1, |lease| Len::Wide(&mut lease.words.ext_consts)),
        Need::new("roots", 1, |lease| Len::Words(&mut lease.words.roots)),
    ];
    if call == Prover || call == Verifier {
        needs.extend([
            Need::new("main", 1, |lease| Len::Wide(&mut lease.cells.main)),
            Need::new("aux", 1, |lease| Len::Wide(&mut lease.cells.aux)),
            Need::new("challenges", 1, |lease| Len::Wide(&mut lease.cells.challenges)),
            Need::new("alphas", 1, |lease| Len::Wide(&mut lease.cells.alphas)),
            Need::new("ext_evals", 14, |lease| Len::Number(&mut lease.lengths.ext_evals)),
        ]);
    }
    match call {
        Check => {}
        Reads => needs.push(Need::new("out", 10, |lease| Len::Number(&mut lease.out))),
        Base => needs.push(Need::new("row", 1, |lease| Len::Wide(&mut lease.row))),
        Prover => needs.push(Need::new("base_evals", 14, |lease| {
            Len::Number(&mut lease.lengths.base_evals)
        })),
        Verifier => {}
    }
    if call != Check && call != Reads {
        needs.push(Need::new("room", 1, |lease| Len::Number(&mut lease.lengths.room)));
    }
    needs
}

pub fn main_words(call: Call) -> usize {
    if call == Verifier { VERIFIER } else { PROVER }
}

/// A random well-formed program, built or foreign, and frames around it that mostly hold its leaves.
pub fn any(random: &mut Random, call: Call) -> Lease {
    let shape = small_shape(random);
    let words = if random.once_in(2) {
        let recipe = Recipe {
            calls: random.below(30),
            shape,
            row_only: call == Base || random.once_in(3),
            constraints: random.pick(&[1, 3, 6]),
        };
        let mut program = build(random, &recipe);
        program.num_base = published::words(&program).fitting_num_base(random);
        published::words(&program)
    } else {
        let counts = foreign::small_counts(random, 20);
        foreign::well_formed(random, counts, &shape, 100)
    };
    let cells = Cells::random(random, shape, main_words(call));
    let row = random.words(shape.main_width);
    let mut lease = Lease::new(call, words, cells, row);
    lease.constraint = random.below(lease.words.counts.roots.max(1));
    lease
}

impl Lease {
    /// One word of a node or a root becomes another; a program without nodes stays as it is.
    pub fn change_word(&mut self, random: &mut Random) {
        let words = &mut self.words;
        if words.nodes.is_empty() {
            return;
        }
        let word = if words.roots.is_empty() || !random.once_in(5) {
            // Few programs would fail at their first nodes otherwise.
            let len = words.nodes.len();
            let at = random.below(len);
            &mut words.nodes[if random.once_in(4) { at % 8 } else { at }]
        } else {
            let len = words.roots.len();
            &mut words.roots[random.below(len)]
        };
        *word = match random.below(6) {
            0 => *word ^ 1 << random.below(32),
            1 => word.wrapping_add(1),
            2 => word.wrapping_sub(1),
            3 => random.below(16) as u32,
            4 => random.pick(&[255, 256, 65_535, 65_536, 65_792, 1 << 17, u32::MAX]),
            _ => random.uniform() as u32,
        };
        // A column more or less to read, so there is room for one more.
        self.out += 1;
    }

    /// Up to three of counts, shape and lengths become others, most of them a little.
    pub fn change_some(&mut self, random: &mut Random, call: Call) {
        for _ in 0..1 + random.below(3) {
            let counts = &mut self.words.counts;
            let shape = &mut self.cells.shape;
            match random.below(18) {
                0 => change_number(random, &mut counts.nodes),
                1 => change_number(random, &mut counts.base_consts),
                2 => change_number(random, &mut counts.ext_consts),
                3 => change_number(random, &mut counts.roots),
                4 => change_number(random, &mut counts.num_base),
                5 => change_number(random, &mut shape.steps),
                6 => change_number(random, &mut shape.main_width),
                7 => change_number(random, &mut shape.aux_width),
                8 => change_number(random, &mut shape.challenges),
                9 => change_number(random, &mut shape.alphas),
                10 => change_number(random, &mut self.width),
                11 => change_number(random, &mut self.constraint),
                12 => self.out = self.out.saturating_sub(1),
                _ => {
                    let needs = needs_of(call);
                    let len = (needs[random.below(needs.len())].len)(self);
                    let longer = len.get() + random.below(3);
                    len.set(longer.saturating_sub(random.below(3)));
                }
            }
        }
    }
}

fn change_number(random: &mut Random, value: &mut usize) {
    *value = match random.below(8) {
        0 => 0,
        1 => value.wrapping_add(1),
        2 => value.wrapping_add(random.below(8)),
        3 => *value / 2,
        4 | 5 => value.saturating_sub(1),
        6 => random.pick(&[255, 256, 257, 65_535, 65_536, 65_537, 536_870_911, 536_870_912]),
        _ => random.pick(&[4_294_967_295, 4_294_967_296, 1 << 61, 1 << 62, 1 << 63, usize::MAX]),
    };
}
