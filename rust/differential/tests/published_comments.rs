//! Comments of the published `device.rs`, `ir.rs`, `interp.rs` and `builder.rs` that are false or mislead: each with the
//! smallest input that shows it, on the published code. The code is right by the scope document, which says what is meant.

#![forbid(unsafe_code)]

use differential::P;
use differential::blobs::published::{DeviceFrame, lower};
use differential::programs::Cells;
use differential::programs::published::{ProverFrame, Published, eval_base, ext_element};
use differential::quiet::unless_it_panics;
use host::lent::program::Shape;
use stark::constraint_ir::device::DeviceProgram;
use stark::constraint_ir::{Expr, IrBuilder};

fn built(num_base: usize, body: impl FnOnce(&mut IrBuilder)) -> Published {
    let mut builder = IrBuilder::new();
    body(&mut builder);
    builder.finish(num_base)
}

/// One main cell, of value 7, and nothing else.
fn one_cell() -> Cells {
    Cells {
        shape: Shape {
            steps: 1,
            main_width: 1,
            ..Shape::default()
        },
        main: vec![7],
        ..Cells::default()
    }
}

/// `device.rs`: "Uniform leaves and dead nodes are not materialized", "A node materializes (gets a slot) unless it is a
/// propagated uniform leaf or dead". A node whose only reader is dead is materialized: here nothing is a root.
#[test]
fn dead_nodes_not_materialized() {
    let program = built(0, |b| {
        let cell = b.main(0, 0);
        b.neg(cell);
    });
    let blob = lower(&program);
    assert_eq!(program.roots, []);
    assert_eq!((blob.nodes, blob.counts.base_slots), (vec![2, 0, 65_536, 0], 1));
}

/// `device.rs`: "frees an operand's slot at its last use, so the scratch working set is the program's max-live-set". A slot
/// whose last reader is not emitted is never freed: a cell, its negation as root and a dead sum have two slots, though the cell
/// is not read any more when the negation is there. Without the dead sum there is one slot.
#[test]
fn working_set_is_max_live_set() {
    let slots = |with_dead_sum: bool| {
        let program = built(1, |b| {
            let cell = b.main(0, 0);
            let negation = b.neg(cell);
            b.emit(0, negation);
            if with_dead_sum {
                b.add(cell, cell);
            }
        });
        lower(&program).counts.base_slots
    };
    assert_eq!((slots(false), slots(true)), (1, 2));
}

/// `device.rs`: "Constants are canonical raw limbs". An extension constant's limbs are kept as they came.
#[test]
fn canonical_raw_limbs() {
    let program = built(0, |b| {
        b.const_ext(ext_element([P, 0, 0]));
    });
    assert_eq!(lower(&program).ext_consts, [P, 0, 0]);
}

/// A root that is base at or past `num_base`.
fn base_root_past_num_base() -> Published {
    built(0, |b| {
        let cell = b.main(0, 0);
        b.emit(0, cell);
    })
}

/// `interp.rs`: "writing base-field (Dim::Base-rooted) constraints into `base_evals`"; `ir.rs`: "the rest (LogUp, always
/// Dim::Ext)"; `device.rs`: "base-rooted constraints (`c < num_base`) land in `base_evals`". The number alone decides: a base
/// root at or past `num_base` is embedded and goes to `ext_evals`.
#[test]
fn base_rooted_constraints_into_base_evals() {
    let (program, cells) = (base_root_past_num_base(), one_cell());
    let (base, ext) = ProverFrame::new(&cells).eval(&program, &[1], &[2, 2, 2]);
    assert_eq!((base, ext), (vec![1], vec![7, 0, 0]));
    let (base, ext) = DeviceFrame::new(&cells).evals(&DeviceProgram::lower(&program), &[1], &[2, 2, 2]);
    assert_eq!((base, ext), (vec![1], vec![7, 0, 0]));
}

/// `interp.rs` and `ir.rs`: "into `ext_evals[num_base..]`". Read as the place where they start to be counted, it is false:
/// constraint 1 of two with `num_base` 1 goes to `ext_evals[1]`, so one entry is not enough and entry 0 stands unwritten.
#[test]
fn ext_evals_from_num_base_on() {
    let program = built(1, |b| {
        let cell = b.main(0, 0);
        let offset = b.table_offset();
        b.emit(0, cell);
        b.emit(1, offset);
    });
    let cells = Cells {
        table_offset: [4, 5, 6],
        ..one_cell()
    };
    let frame = ProverFrame::new(&cells);
    let (base, ext) = frame.eval(&program, &[1], &[2; 6]);
    assert_eq!((base, ext), (vec![7], vec![2, 2, 2, 4, 5, 6]));
    assert!(unless_it_panics(|| frame.eval(&program, &[1], &[2; 3])).is_none());
    let (device, frame) = (DeviceProgram::lower(&program), DeviceFrame::new(&cells));
    let (base, ext) = frame.evals(&device, &[1], &[2; 6]);
    assert_eq!((base, ext), (vec![7], vec![2, 2, 2, 4, 5, 6]));
    assert!(unless_it_panics(|| frame.evals(&device, &[1], &[2; 3])).is_none());
}

/// `ir.rs` and `builder.rs`: `num_base` is the "number of constraints (a prefix of `roots`) that are base-field rooted". It
/// is what the caller says: less, or more than there are roots.
#[test]
fn num_base_counts_base_roots() {
    assert_eq!(base_root_past_num_base().num_base, 0);
    let program = built(7, |_| ());
    assert_eq!((program.num_base, program.roots.len()), (7, 0));
    assert_eq!(lower(&program).counts.num_base, 7);
}

/// `builder.rs`: `emit` fills with "sentinel `0`". 0 is a node, the base constant 0: a gap cannot be told from a constraint
/// whose value is 0, and it is evaluated and lowered as one.
#[test]
fn root_sentinel() {
    let emit = |first: Option<fn(&mut IrBuilder) -> Expr>| {
        built(2, |b| {
            if let Some(root) = first {
                let root = root(b);
                b.emit(0, root);
            }
            let cell = b.main(0, 0);
            b.emit(1, cell);
        })
    };
    let (gap, zero) = (emit(None), emit(Some(|b| b.const_base(0))));
    assert_eq!((&gap.roots, &gap.nodes), (&zero.roots, &zero.nodes));
    assert_eq!(gap.roots, [0, 1]);
    let blob = lower(&gap);
    assert_eq!(
        (blob.nodes, blob.roots),
        (vec![0, 0, 0, 0, 2, 0, 65_536, 1], vec![0, 1])
    );
    let (base, _) = ProverFrame::new(&one_cell()).eval(&gap, &[1, 1], &[]);
    assert_eq!(base, [0, 7]);
}

/// `builder.rs`: "only emits leaves for columns the constraint actually reads, so captured programs are minimal". The empty
/// program has a node and a constant; and a leaf that was asked for stays, read or not.
#[test]
fn captured_programs_are_minimal() {
    let program = built(0, |_| ());
    assert_eq!(
        (program.nodes.len(), program.base_consts.len(), program.roots.len()),
        (1, 1, 0)
    );
    let program = built(0, |b| _ = b.main(0, 0));
    assert_eq!(program.nodes.len(), 2);
}

/// `ir.rs`: `next_row_trace_reads` gives columns "that some transition constraint in this program reads". Dead nodes count:
/// here there is no constraint.
#[test]
fn reads_of_some_constraint() {
    let program = built(0, |b| _ = b.main(1, 3));
    assert_eq!(program.roots, []);
    assert_eq!(program.next_row_trace_reads(1), [3]);
}

/// `interp.rs`: `eval_program_base` is for a set of constraints that "only reads main columns at offset 0". True of the set;
/// the function does not look at the offset, and the next row's cell is read from this row. "Evaluate one constraint's root":
/// every node is evaluated, and a dead leaf of another kind panics.
#[test]
fn minimal_set_at_offset_0() {
    let next = built(1, |b| {
        let cell = b.main(1, 0);
        b.emit(0, cell);
    });
    assert_eq!(eval_base(&next, 0, &[7]), 7);
    let dead = built(1, |b| {
        let cell = b.main(0, 0);
        b.emit(0, cell);
        b.table_offset();
    });
    assert!(unless_it_panics(|| eval_base(&dead, 0, &[7])).is_none());
}
