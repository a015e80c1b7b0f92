//! Programs of the published Rust and ours, each as the other, and the published evaluators on plain words.

use math::field::element::FieldElement;
use math::field::extensions_goldilocks::Degree3GoldilocksExtensionField as Ext;
use math::field::goldilocks::{GoldilocksElement, GoldilocksField as Base};
use stark::constraint_ir::device::{
    OP_ADD, OP_ALPHA_POW, OP_CONST_BASE, OP_CONST_EXT, OP_EMBED, OP_MUL, OP_NEG, OP_RAP_CHALLENGE, OP_SUB,
    OP_TABLE_OFFSET, OP_VAR, pack_var, unpack_var,
};
use stark::constraint_ir::{ConstraintProgram, Dim, Op, interp};
use stark::frame::Frame;
use stark::table::TableView;
use stark::traits::TransitionEvaluationContext;

use super::{Cells, PROVER, VERIFIER, Words};
use crate::Limbs;
use host::lent::program::Counts;

type BaseElement = FieldElement<Base>;
pub type ExtElement = FieldElement<Ext>;
pub type Published = ConstraintProgram<Base, Ext>;

pub fn ext_element(limbs: Limbs) -> ExtElement {
    ExtElement::from_raw(limbs.map(GoldilocksElement::from_raw))
}

fn base_elements(words: &[u64]) -> Vec<BaseElement> {
    words.iter().map(|word| BaseElement::from_raw(*word)).collect()
}

/// One or two words that are left over are left out.
fn ext_elements(words: &[u64]) -> Vec<ExtElement> {
    let triples = words.chunks_exact(3);
    triples
        .map(|words| ext_element([words[0], words[1], words[2]]))
        .collect()
}

fn base_words(elements: &[BaseElement]) -> Vec<u64> {
    elements.iter().map(|element| *element.value()).collect()
}

fn ext_words(elements: &[ExtElement]) -> Vec<u64> {
    elements
        .iter()
        .flat_map(|element| element.value().map(|limb| *limb.value()))
        .collect()
}

/// A published program in our words: the tags of the published `device.rs`, a trace cell packed by its `pack_var`, 0 in
/// every word that a tag does not use.
pub fn words(program: &Published) -> Words {
    let mut nodes = Vec::with_capacity(4 * program.nodes.len());
    for (op, dim) in program.nodes.iter().zip(&program.dims) {
        let (tag, x, y) = match *op {
            Op::ConstBase(index) => (OP_CONST_BASE, index, 0),
            Op::ConstExt(index) => (OP_CONST_EXT, index, 0),
            Op::Var { main, offset, row, col } => {
                let (x, y) = pack_var(main, offset, row, col);
                (OP_VAR, x, y)
            }
            Op::RapChallenge { idx } => (OP_RAP_CHALLENGE, idx.into(), 0),
            Op::AlphaPow { idx } => (OP_ALPHA_POW, idx.into(), 0),
            Op::TableOffset => (OP_TABLE_OFFSET, 0, 0),
            Op::Add(a, b) => (OP_ADD, a, b),
            Op::Sub(a, b) => (OP_SUB, a, b),
            Op::Mul(a, b) => (OP_MUL, a, b),
            Op::Neg(a) => (OP_NEG, a, 0),
            Op::Embed(a) => (OP_EMBED, a, 0),
        };
        nodes.extend([tag, x, y, u32::from(*dim == Dim::Ext)]);
    }
    Words {
        counts: Counts {
            nodes: program.nodes.len(),
            base_consts: program.base_consts.len(),
            ext_consts: program.ext_consts.len(),
            roots: program.roots.len(),
            num_base: program.num_base,
        },
        nodes,
        base_consts: base_words(&program.base_consts),
        ext_consts: ext_words(&program.ext_consts),
        roots: program.roots.clone(),
    }
}

/// A well-formed program of ours as a published one. Words past the counts are left out.
pub fn program(words: &Words) -> Published {
    let counts = &words.counts;
    let (mut nodes, mut dims) = (Vec::new(), Vec::new());
    for node in words.nodes.chunks_exact(4).take(counts.nodes) {
        let (tag, x, y, dim) = (node[0], node[1], node[2], node[3]);
        let index = || u16::try_from(x).expect("a well-formed program's index");
        nodes.push(match tag {
            OP_CONST_BASE => Op::ConstBase(x),
            OP_CONST_EXT => Op::ConstExt(x),
            OP_VAR => {
                let (main, offset, row, col) = unpack_var(x, y);
                Op::Var { main, offset, row, col }
            }
            OP_RAP_CHALLENGE => Op::RapChallenge { idx: index() },
            OP_ALPHA_POW => Op::AlphaPow { idx: index() },
            OP_TABLE_OFFSET => Op::TableOffset,
            OP_ADD => Op::Add(x, y),
            OP_SUB => Op::Sub(x, y),
            OP_MUL => Op::Mul(x, y),
            OP_NEG => Op::Neg(x),
            OP_EMBED => Op::Embed(x),
            _ => panic!("{tag} is no tag of a well-formed program"),
        });
        dims.push(if dim == 0 { Dim::Base } else { Dim::Ext });
    }
    Published {
        nodes,
        dims,
        base_consts: base_elements(&words.base_consts[..counts.base_consts]),
        ext_consts: ext_elements(&words.ext_consts[..3 * counts.ext_consts]),
        roots: words.roots[..counts.roots].to_vec(),
        num_base: counts.num_base,
    }
}

/// The uniform part of a frame.
struct Uniforms {
    challenges: Vec<ExtElement>,
    alphas: Vec<ExtElement>,
    table_offset: ExtElement,
}

impl Uniforms {
    fn new(cells: &Cells) -> Self {
        Uniforms {
            challenges: ext_elements(&cells.challenges[..3 * cells.shape.challenges]),
            alphas: ext_elements(&cells.alphas[..3 * cells.shape.alphas]),
            table_offset: ext_element(cells.table_offset),
        }
    }
}

/// The words of one step of a table with cells of so many words.
fn step(table: &[u64], width: usize, words: usize, step: usize) -> &[u64] {
    &table[words * width * step..words * width * (step + 1)]
}

/// The most steps that the published row frame of the prover holds.
pub const ROW_FRAME_STEPS: usize = stark::frame::MAX_TRANSITION_OFFSETS;

/// The same program and cells with all steps side by side in one, for frames that are longer than the published row
/// frame: a cell's column there is its step times the width plus its column. The words stay where they are. All steps
/// together are at most 65,536 columns wide.
pub fn in_one_step(program: &Published, cells: &Cells) -> (Published, Cells) {
    let mut program = program.clone();
    for op in &mut program.nodes {
        if let Op::Var { main, offset, col, .. } = op {
            let width = if *main {
                cells.shape.main_width
            } else {
                cells.shape.aux_width
            };
            let column = usize::from(*offset) * width + usize::from(*col);
            (*offset, *col) = (
                0,
                u16::try_from(column).expect("the steps side by side are not too wide"),
            );
        }
    }
    let mut cells = cells.clone();
    cells.shape.main_width *= cells.shape.steps;
    cells.shape.aux_width *= cells.shape.steps;
    cells.shape.steps = 1;
    (program, cells)
}

/// A prover's frame as the published Rust has it. At most `ROW_FRAME_STEPS` steps.
pub struct ProverFrame {
    frame: Frame<Base, Ext>,
    uniforms: Uniforms,
}

impl ProverFrame {
    pub fn new(cells: &Cells) -> Self {
        let shape = &cells.shape;
        let view = |at| {
            let main = base_elements(step(&cells.main, shape.main_width, PROVER, at));
            let aux = ext_elements(step(&cells.aux, shape.aux_width, 3, at));
            TableView::new(vec![main], vec![aux])
        };
        ProverFrame {
            frame: Frame::new((0..shape.steps).map(view).collect()),
            uniforms: Uniforms::new(cells),
        }
    }

    pub fn context(&self) -> TransitionEvaluationContext<'_, Base, Ext> {
        TransitionEvaluationContext::new_prover(
            self.frame.as_row_frame(),
            &self.uniforms.challenges,
            &self.uniforms.alphas,
            &self.uniforms.table_offset,
        )
    }

    /// The two slices after the published evaluator had them. Words of `ext_evals` after the last triple stay.
    pub fn eval(&self, program: &Published, base_evals: &[u64], ext_evals: &[u64]) -> (Vec<u64>, Vec<u64>) {
        let (mut base, mut ext) = (base_elements(base_evals), ext_elements(ext_evals));
        interp::eval_program(program, &self.context(), &mut base, &mut ext);
        (base_words(&base), with_rest(ext_words(&ext), ext_evals))
    }

    /// The value of every node, as an extension value. The published evaluator shows values of constraints only, so
    /// each node is made one.
    pub fn values(&self, program: &Published) -> Vec<u64> {
        let program = every_node_a_root(program);
        self.eval(&program, &[], &vec![0; 3 * program.nodes.len()]).1
    }
}

/// A verifier's frame as the published Rust has it. Any number of steps.
pub struct VerifierFrame {
    frame: Frame<Ext, Ext>,
    uniforms: Uniforms,
}

impl VerifierFrame {
    pub fn new(cells: &Cells) -> Self {
        let shape = &cells.shape;
        let view = |at| {
            let main = ext_elements(step(&cells.main, shape.main_width, VERIFIER, at));
            let aux = ext_elements(step(&cells.aux, shape.aux_width, 3, at));
            TableView::new(vec![main], vec![aux])
        };
        VerifierFrame {
            frame: Frame::new((0..shape.steps).map(view).collect()),
            uniforms: Uniforms::new(cells),
        }
    }

    /// The slice after the published evaluator had it. Words after the last triple stay.
    pub fn eval(&self, program: &Published, ext_evals: &[u64]) -> Vec<u64> {
        let context = TransitionEvaluationContext::new_verifier(
            &self.frame,
            &self.uniforms.challenges,
            &self.uniforms.alphas,
            &self.uniforms.table_offset,
        );
        let mut ext = ext_elements(ext_evals);
        interp::eval_program_verifier(program, &context, &mut ext);
        with_rest(ext_words(&ext), ext_evals)
    }

    /// As `ProverFrame::values`.
    pub fn values(&self, program: &Published) -> Vec<u64> {
        let program = every_node_a_root(program);
        self.eval(&program, &vec![0; 3 * program.nodes.len()])
    }
}

/// The published `eval_program_base`.
pub fn eval_base(program: &Published, constraint: usize, row: &[u64]) -> u64 {
    *interp::eval_program_base(program, constraint, &base_elements(row)).value()
}

fn every_node_a_root(program: &Published) -> Published {
    Published {
        roots: (0..program.nodes.len() as u32).collect(),
        num_base: 0,
        ..program.clone()
    }
}

fn with_rest(mut words: Vec<u64>, before: &[u64]) -> Vec<u64> {
    words.extend(&before[words.len()..]);
    words
}
