//! Random cases of every kind, one after the other, for as long as is asked.
//!
//! A case is made from a seed of its own, so that one that fails is run again by itself. Memory is lent in allocations of
//! exactly its length, so that a tool that watches memory sees a call that goes past it.

mod blobs;
mod builder;
mod listing;
mod programs;
mod stored;

use std::any::Any;
use std::fmt::Arguments;
use std::panic::{self, AssertUnwindSafe};

use crate::Score;
use crate::inputs::Random;

/// What a case is of.
pub struct Kind {
    pub name: &'static str,
    /// One case: panics where two sides differ.
    run: fn(&mut Score, &mut Random, Arguments<'_>),
    /// A case of this kind starts a program: it comes up once in so many rounds over all kinds.
    every: u64,
}

impl Kind {
    const fn new(name: &'static str, run: fn(&mut Score, &mut Random, Arguments<'_>)) -> Self {
        Kind { name, run, every: 1 }
    }
}

/// All kinds, in the order in which they take turns.
pub const KINDS: [Kind; 13] = [
    Kind::new("builder calls", builder::calls),
    Kind::new("full builder", builder::full),
    Kind::new("any builder memory", builder::any_memory),
    Kind::new("builder in bytes", builder::in_bytes),
    Kind::new("built program", programs::built),
    Kind::new("foreign program", programs::foreign),
    Kind::new("changed program", programs::changed),
    Kind::new("lowering", programs::lowering),
    Kind::new("changed lowering", programs::changed_lowering),
    Kind::new("blob", blobs::changed),
    Kind::new("cut blob", blobs::cut),
    Kind::new("stored form", stored::case),
    Kind {
        name: "listing",
        run: listing::case,
        every: 250,
    },
];

/// Whether a kind can be run here; if not, why.
pub fn left_out(kind: usize) -> Option<String> {
    (KINDS[kind].name == "listing").then(listing::left_out).flatten()
}

/// A case that was not the same on both sides.
pub struct Disagreement {
    pub kind: usize,
    pub seed: u64,
    pub said: String,
}

/// What has been run of one kind.
pub struct Tried {
    pub cases: u64,
    pub disagreements: u64,
    pub score: Score,
}

/// A run: the kinds take turns, each case with the next seed.
pub struct Run {
    seeds: Random,
    turn: u64,
    kinds: Vec<usize>,
    pub tried: Vec<Tried>,
}

impl Run {
    /// The cases of a seed, of these kinds: one of them, or several of which one at least comes up in every round.
    pub fn new(seed: u64, kinds: Vec<usize>) -> Self {
        Run {
            seeds: Random::new(seed),
            turn: 0,
            kinds,
            tried: KINDS
                .iter()
                .map(|kind| Tried {
                    cases: 0,
                    disagreements: 0,
                    score: Score::new(kind.name),
                })
                .collect(),
        }
    }

    /// The next case. A panic hook that says nothing has to be set: what a case says is given here.
    pub fn next_case(&mut self) -> Result<(), Disagreement> {
        let kind = self.next_kind();
        let seed = self.seeds.uniform();
        let tried = &mut self.tried[kind];
        tried.cases += 1;
        let name = KINDS[kind].name;
        let run = || {
            let mut random = Random::new(seed);
            (KINDS[kind].run)(&mut tried.score, &mut random, format_args!("{name} {seed:#x}"));
        };
        panic::catch_unwind(AssertUnwindSafe(run)).map_err(|panicked| {
            self.tried[kind].disagreements += 1;
            Disagreement {
                kind,
                seed,
                said: message(&*panicked),
            }
        })
    }

    fn next_kind(&mut self) -> usize {
        loop {
            let turn = self.turn;
            self.turn += 1;
            let kinds = self.kinds.len() as u64;
            let kind = self.kinds[(turn % kinds) as usize];
            if (turn / kinds) % KINDS[kind].every == KINDS[kind].every - 1 || kinds == 1 {
                return kind;
            }
        }
    }
}

/// One case of a seed that a run has named; it panics where two sides differ.
pub fn run_again(kind: usize, seed: u64) -> Score {
    let mut score = Score::new(KINDS[kind].name);
    (KINDS[kind].run)(
        &mut score,
        &mut Random::new(seed),
        format_args!("{} {seed:#x}", KINDS[kind].name),
    );
    score
}

fn message(panicked: &(dyn Any + Send)) -> String {
    let said = panicked.downcast_ref::<String>().map(String::as_str);
    let said = said.or_else(|| panicked.downcast_ref::<&str>().copied());
    said.unwrap_or("a panic without words").to_string()
}
