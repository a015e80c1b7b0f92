//! Programs and frames in words of their own, where they come from, and what the tests do with them.

pub mod agree;
pub mod build;
pub mod compare;
pub mod foreign;
pub mod lease;
pub mod published;
pub mod sample;

use host::lent::program::{Counts, Frame, Program, Shape};

use crate::Limbs;
use crate::inputs::Random;

/// A program's words. The tables may be longer than the counts say.
#[derive(Clone, Debug, Default, PartialEq, Eq)]
pub struct Words {
    pub counts: Counts,
    pub nodes: Vec<u32>,
    pub base_consts: Vec<u64>,
    pub ext_consts: Vec<u64>,
    pub roots: Vec<u32>,
}

impl Words {
    pub fn lend(&self) -> Program<'_> {
        Program {
            counts: self.counts,
            nodes: &self.nodes,
            base_consts: &self.base_consts,
            ext_consts: &self.ext_consts,
            roots: &self.roots,
        }
    }

    pub fn tag(&self, id: usize) -> u32 {
        self.nodes[4 * id]
    }

    pub fn dim(&self, id: usize) -> u32 {
        self.nodes[4 * id + 3]
    }

    /// The number of leading constraints whose root is base.
    pub fn leading_base_roots(&self) -> usize {
        let roots = &self.roots[..self.counts.roots];
        roots.iter().take_while(|root| self.dim(**root as usize) == 0).count()
    }

    /// A `num_base` that no evaluator refuses: up to the first extension root, or past the end if there is none.
    pub fn fitting_num_base(&self, random: &mut Random) -> usize {
        let leading = self.leading_base_roots();
        if leading == self.counts.roots {
            random.pick(&[
                0,
                leading / 2,
                leading,
                leading,
                leading + 1,
                leading + 7,
                4_294_967_295,
            ])
        } else {
            random.below(leading + 1)
        }
    }

    /// Makes every table a few words longer than its count says.
    pub fn lengthen(&mut self, random: &mut Random) {
        for _ in 0..random.below(6) {
            self.nodes.push(random.uniform() as u32);
        }
        for _ in 0..random.below(3) {
            self.base_consts.push(random.word());
        }
        for _ in 0..random.below(5) {
            self.ext_consts.push(random.word());
        }
        for _ in 0..random.below(3) {
            self.roots.push(random.uniform() as u32);
        }
    }

    /// The same in allocations of exactly its lengths.
    pub fn exact(mut self) -> Self {
        self.nodes.shrink_to_fit();
        self.base_consts.shrink_to_fit();
        self.ext_consts.shrink_to_fit();
        self.roots.shrink_to_fit();
        self
    }
}

/// Words of a main cell in the prover's frame.
pub const PROVER: usize = 1;

/// Words of a main cell in the verifier's frame.
pub const VERIFIER: usize = 3;

/// A frame's words. The tables may be longer than the shape says.
#[derive(Clone, Debug, Default, PartialEq, Eq)]
pub struct Cells {
    pub shape: Shape,
    pub main: Vec<u64>,
    pub aux: Vec<u64>,
    pub challenges: Vec<u64>,
    pub alphas: Vec<u64>,
    pub table_offset: Limbs,
}

impl Cells {
    /// Random words in every cell; `main_words` is `PROVER` or `VERIFIER`.
    pub fn random(random: &mut Random, shape: Shape, main_words: usize) -> Self {
        Cells {
            shape,
            main: random.words(main_words * shape.steps * shape.main_width),
            aux: random.words(3 * shape.steps * shape.aux_width),
            challenges: random.words(3 * shape.challenges),
            alphas: random.words(3 * shape.alphas),
            table_offset: random.limbs(),
        }
    }

    pub fn lend(&self) -> Frame<'_> {
        Frame {
            shape: self.shape,
            main: &self.main,
            aux: &self.aux,
            challenges: &self.challenges,
            alphas: &self.alphas,
            table_offset: self.table_offset,
        }
    }

    /// Makes every table a few words longer than the shape says.
    pub fn lengthen(&mut self, random: &mut Random) {
        for table in [&mut self.main, &mut self.aux, &mut self.challenges, &mut self.alphas] {
            for _ in 0..random.below(5) {
                table.push(random.word());
            }
        }
    }

    /// The same in allocations of exactly its lengths.
    pub fn exact(mut self) -> Self {
        for table in [&mut self.main, &mut self.aux, &mut self.challenges, &mut self.alphas] {
            table.shrink_to_fit();
        }
        self
    }
}

/// A small shape, at times without any of something. The published row frame holds at most four steps.
pub fn small_shape(random: &mut Random) -> Shape {
    Shape {
        steps: random.pick(&[0, 1, 1, 2, 2, 2, 3, 4]),
        main_width: random.pick(&[0, 1, 2, 3, 5, 8]),
        aux_width: random.pick(&[0, 1, 2, 3, 4]),
        challenges: random.below(4),
        alphas: random.below(5),
    }
}
