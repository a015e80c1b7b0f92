//! Random programs, made by random calls of the published builder.

use host::lent::program::Shape;
use math::field::extensions_goldilocks::Degree3GoldilocksExtensionField as Ext;
use math::field::goldilocks::GoldilocksField as Base;
use stark::constraint_ir::{Expr, IrBuilder};

use super::published::{Published, ext_element};
use crate::P;
use crate::inputs::Random;

/// What to build.
#[derive(Clone, Copy)]
pub struct Recipe {
    /// How many nodes to ask for. Equal ones are shared, so there may be fewer.
    pub calls: usize,
    /// Every leaf is inside a frame of this shape.
    pub shape: Shape,
    /// Constants and main cells are the only leaves, as `eval_program_base` wants it.
    pub row_only: bool,
    /// Constraint numbers are below this.
    pub constraints: usize,
}

/// Words that a constant often is, so that equal ones meet; 0 and p are one.
const CONSTANTS: [u64; 7] = [0, 1, 2, P - 1, P, P + 1, u64::MAX];

/// A program with leaves of all kinds, shared and dead nodes, constraints that are leaves or node 0, gaps and
/// constraints that were emitted twice. Its `num_base` is 0.
pub fn build(random: &mut Random, recipe: &Recipe) -> Published {
    let mut builder: IrBuilder<Base, Ext> = IrBuilder::new();
    let mut made = vec![builder.const_base(0)];
    for _ in 0..recipe.calls {
        let expr = if random.below(10) < 4 {
            leaf(random, &mut builder, recipe)
        } else {
            operation(random, &mut builder, &made)
        };
        made.push(expr);
        if recipe.constraints != 0 && random.once_in(6) {
            // Mostly what was just made, at times anything, node 0 and leaves too.
            let root = if random.once_in(4) { random.pick(&made) } else { expr };
            builder.emit(random.below(recipe.constraints), root);
        }
    }
    builder.finish(0)
}

fn leaf(random: &mut Random, builder: &mut IrBuilder<Base, Ext>, recipe: &Recipe) -> Expr {
    let shape = &recipe.shape;
    let kind = random.below(if recipe.row_only { 7 } else { 14 });
    match kind {
        0..4 if shape.steps != 0 && shape.main_width != 0 => {
            builder.main(random.below(shape.steps) as u8, random.below(shape.main_width))
        }
        4 => {
            let limbs = if random.once_in(2) {
                [random.pick(&CONSTANTS), random.pick(&[0, P]), random.pick(&[0, 1])]
            } else {
                random.limbs()
            };
            builder.const_ext(ext_element(limbs))
        }
        7..10 if shape.steps != 0 && shape.aux_width != 0 => {
            builder.aux(random.below(shape.steps) as u8, random.below(shape.aux_width))
        }
        10 | 11 if shape.challenges != 0 => builder.challenge(random.below(shape.challenges)),
        12 if shape.alphas != 0 => builder.alpha_power(random.below(shape.alphas)),
        13 => builder.table_offset(),
        _ if random.once_in(8) => builder.one(),
        _ => {
            let word = if random.once_in(2) {
                random.pick(&CONSTANTS)
            } else {
                random.word()
            };
            builder.const_base(word)
        }
    }
}

fn operation(random: &mut Random, builder: &mut IrBuilder<Base, Ext>, made: &[Expr]) -> Expr {
    // Half of the operands are among the last few, so that programs are deep, and half anywhere, so that they share.
    let mut operand = || {
        if random.once_in(2) {
            made[made.len() - 1 - random.below(made.len().min(4))]
        } else {
            random.pick(made)
        }
    };
    let (a, b) = (operand(), operand());
    let b = if random.once_in(8) { a } else { b };
    match random.below(12) {
        0..3 => builder.add(a, b),
        3..6 => builder.sub(a, b),
        6..9 => builder.mul(a, b),
        9 | 10 => builder.neg(a),
        _ => builder.embed(a),
    }
}
