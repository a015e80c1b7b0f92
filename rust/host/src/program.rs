//! Constraint programs that own their words.

use crate::blob::{Blob, EvalRoom, Tables};
use crate::lent::bytes::{self, ProgramBytes};
use crate::lent::lower::Lists;
use crate::lent::program::{self as lent, Counts};
use crate::{Error, Ext, Frame, Value};

/// A program's words, which [`Program::new`] checks. [`lent::program`](crate::lent::program) says what they mean.
#[derive(Clone, Debug, Default, PartialEq, Eq)]
pub struct ProgramWords {
    /// Tag, x, y and dim of each node.
    pub nodes: Vec<[u32; 4]>,
    /// Constants of the base field.
    pub base_consts: Vec<u64>,
    /// Constants of the extension.
    pub ext_consts: Vec<Ext>,
    /// The node of each constraint.
    pub roots: Vec<u32>,
    /// Constraints below this number have base values.
    pub num_base: usize,
}

/// A well-formed constraint program.
#[derive(Clone, Debug, PartialEq, Eq)]
pub struct Program {
    words: ProgramWords,
}

impl Program {
    /// Checks the words and keeps them.
    ///
    /// # Errors
    ///
    /// [`Error::IllFormed`] with the lowest node at fault, else the lowest root; [`Error::TooManyNodes`] and
    /// [`Error::TooManyRoots`] where a count is over its limit.
    pub fn new(words: ProgramWords) -> Result<Self, Error> {
        let program = Program { words };
        lent::check_program(&program.lend())?;
        Ok(program)
    }

    /// The program's words.
    pub fn words(&self) -> &ProgramWords {
        &self.words
    }

    /// The words themselves.
    pub fn into_words(self) -> ProgramWords {
        self.words
    }

    fn counts(&self) -> Counts {
        let words = &self.words;
        Counts {
            nodes: words.nodes.len(),
            base_consts: words.base_consts.len(),
            ext_consts: words.ext_consts.len(),
            roots: words.roots.len(),
            num_base: words.num_base,
        }
    }

    fn lend(&self) -> lent::Program<'_> {
        let words = &self.words;
        lent::Program {
            counts: self.counts(),
            nodes: words.nodes.as_flattened(),
            base_consts: &words.base_consts,
            ext_consts: words.ext_consts.as_flattened(),
            roots: &words.roots,
        }
    }

    /// An evaluator's room: four words a node.
    fn room(&self) -> Vec<u64> {
        vec![0; 4 * self.words.nodes.len()]
    }

    /// The columns that some node reads at a step past the first, ascending and each once. A column of the aux trace counts
    /// from `main_width` on.
    ///
    /// # Errors
    ///
    /// [`Error::OverLimit`] where `main_width` is over 65,536.
    pub fn next_row_trace_reads(&self, main_width: usize) -> Result<Vec<u32>, Error> {
        let mut columns = vec![0; self.words.nodes.len()];
        let count = lent::next_row_trace_reads(&self.lend(), main_width, &mut columns)?;
        columns.truncate(count);
        Ok(columns)
    }

    /// The prover's evaluator: every constraint's value at one row.
    ///
    /// # Errors
    ///
    /// [`Error::OverLimit`] and [`Error::ShortMemory`] of the frame; [`Error::OutsideFrame`] where it lacks a leaf, read or
    /// not; [`Error::ExtensionRoot`] where a constraint below `num_base` has an extension value.
    pub fn eval(&self, frame: &Frame) -> Result<Vec<Value>, Error> {
        let mut evals = EvalRoom::new(self.words.num_base, self.words.roots.len());
        let ext = evals.ext.as_flattened_mut();
        lent::eval_program(&self.lend(), &frame.lend(), &mut evals.base, ext, &mut self.room())?;
        Ok(evals.show().iter().collect())
    }

    /// The verifier's evaluator: main cells are extension values, and so is every constraint's value.
    ///
    /// # Errors
    ///
    /// Those of [`eval`](Program::eval) but for [`Error::ExtensionRoot`].
    pub fn eval_verifier(&self, frame: &Frame<'_, Ext>) -> Result<Vec<Ext>, Error> {
        let mut evals = vec![[0; 3]; self.words.roots.len()];
        let words = evals.as_flattened_mut();
        lent::eval_program_verifier(&self.lend(), &frame.lend_ext(), words, &mut self.room())?;
        Ok(evals)
    }

    /// One constraint's value over one main row. The step of a main cell counts for nothing.
    ///
    /// # Errors
    ///
    /// [`Error::OverLimit`] where the row has over 65,536 cells; [`Error::NoSuchConstraint`]; [`Error::OutsideFrame`] where
    /// some node is a main cell outside the row, an aux cell, a challenge, an alpha power or the table offset;
    /// [`Error::ExtensionRoot`] where the constraint's value is an extension value.
    pub fn eval_base(&self, constraint: usize, row: &[u64]) -> Result<u64, Error> {
        let value = lent::eval_program_base(&self.lend(), row.len(), constraint, row, &mut self.room())?;
        Ok(value)
    }

    /// The program as a blob.
    ///
    /// # Errors
    ///
    /// [`Error::ShortOutput`] where the stored form is over 4,294,967,295 words.
    pub fn lower(&self) -> Result<Blob, Error> {
        // The call on bytes lowers and writes the stored form at once. Its rooms are as long as the program's tables: a blob
        // has no more nodes.
        let words = &self.words;
        let counts = self.counts();
        let room = || Tables::new(counts.nodes, counts.base_consts, counts.ext_consts, counts.roots);
        let [mut unpacked, mut lowered] = [room(), room()];
        let mut file = vec![0; lowered.stored_len()];
        let mut lists = vec![0; 6 * counts.nodes];
        let program = ProgramBytes {
            counts,
            nodes: &bytes32(words.nodes.as_flattened()),
            base_consts: &bytes64(&words.base_consts),
            ext_consts: &bytes64(words.ext_consts.as_flattened()),
            roots: &bytes32(&words.roots),
        };
        let lists = Lists::of(&mut lists, counts.nodes);
        let length = bytes::lower_stored(&program, unpacked.lend_mut(), lists, lowered.lend_mut(), &mut file)?;
        file.truncate(length);
        Ok(Blob::of(file, lowered))
    }
}

fn bytes32(words: &[u32]) -> Vec<u8> {
    words.iter().flat_map(|word| word.to_le_bytes()).collect()
}

fn bytes64(words: &[u64]) -> Vec<u8> {
    words.iter().flat_map(|word| word.to_le_bytes()).collect()
}
