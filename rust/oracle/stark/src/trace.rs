//! Shim for `trace.rs`.

use core::marker::PhantomData;

use math::field::element::FieldElement;
use math::field::traits::{IsField, IsSubFieldOf};

/// Named in a signature only.
pub struct TraceTable<F: IsSubFieldOf<E>, E: IsField>(PhantomData<(F, E)>);

/// A trace by rows: what the constructors of the frames read of it. The comparisons make their frames of rows instead,
/// so none of these methods runs there.
pub struct LDETraceTable<F: IsSubFieldOf<E>, E: IsField> {
    pub main: Vec<Vec<FieldElement<F>>>,
    pub aux: Vec<Vec<FieldElement<E>>>,
    pub lde_step_size: usize,
    pub blowup_factor: usize,
}

impl<F: IsSubFieldOf<E>, E: IsField> LDETraceTable<F, E> {
    pub fn num_rows(&self) -> usize {
        self.main.len()
    }

    pub fn num_main_cols(&self) -> usize {
        self.main.first().map_or(0, Vec::len)
    }

    pub fn num_aux_cols(&self) -> usize {
        self.aux.first().map_or(0, Vec::len)
    }

    pub fn main_row(&self, row: usize) -> &[FieldElement<F>] {
        &self.main[row]
    }

    pub fn aux_row(&self, row: usize) -> &[FieldElement<E>] {
        &self.aux[row]
    }

    pub fn get_main(&self, row: usize, col: usize) -> &FieldElement<F> {
        &self.main[row][col]
    }

    pub fn get_aux(&self, row: usize, col: usize) -> &FieldElement<E> {
        &self.aux[row][col]
    }

    pub fn step_to_row(&self, step: usize) -> usize {
        self.lde_step_size * step
    }
}
