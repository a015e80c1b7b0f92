//! A small table from its constraints to their values: the program is built and lowered, the blob is stored and read back,
//! checked for the table's shape, and walked over the table's rows.
//!
//! The argument names a file for the stored blob; without one the blob stays in memory.

use std::error::Error;
use std::{env, fs};

use host::{Blob, Builder, Ext, Frame, Program, Shape};

/// The table: one main column, three aux columns and one challenge. A constraint reads two rows.
const SHAPE: Shape = Shape {
    steps: 2,
    main_width: 1,
    aux_width: 3,
    challenges: 1,
    alphas: 0,
};

/// A counter that goes up by one, but not from the first row to the second.
const MAIN: [u64; 4] = [5, 9, 10, 11];

const AUX: [[Ext; 3]; 4] = [
    [[0; 3], [0; 3], [1, 2, 3]],
    [[0; 3], [0; 3], [4, 0, 0]],
    [[0; 3], [0; 3], [0, 0, 0]],
    [[0; 3], [0; 3], [0, 0, 1]],
];

const CHALLENGES: [Ext; 1] = [[4, 5, 6]];

fn main() -> Result<(), Box<dyn Error>> {
    let program = constraints()?;
    println!(
        "program: {} nodes, {} constraints, well-formed",
        program.words().nodes.len(),
        program.words().roots.len()
    );
    let blob = store_and_read(&program.lower()?)?;
    blob.check(&SHAPE)?;
    println!(
        "check: 0, the blob may be walked over {} steps of {} main and {} aux columns with {} challenge",
        SHAPE.steps, SHAPE.main_width, SHAPE.aux_width, SHAPE.challenges
    );
    walk_rows(&program, &blob)
}

/// Constraint 0: the next row's counter, less this row's, less 1. Constraint 1: aux column 2 times the challenge, plus
/// constraint 0's value. It is program E of the scope document.
fn constraints() -> Result<Program, host::Error> {
    let mut b = Builder::new();
    let (this, next) = (b.main(0, 0)?, b.main(1, 0)?);
    let difference = b.sub(next, this)?;
    let one = b.one()?;
    let step = b.sub(difference, one)?;
    b.emit(0, step)?;
    let (cell, challenge) = (b.aux(0, 2)?, b.challenge(0)?);
    let product = b.mul(cell, challenge)?;
    let sum = b.add(product, step)?;
    b.emit(1, sum)?;
    b.finish(1)
}

/// The blob by way of its file.
fn store_and_read(blob: &Blob) -> Result<Blob, Box<dyn Error>> {
    let counts = blob.counts();
    println!(
        "blob: {} nodes, {} base slots, {} extension slots, {} bytes stored",
        counts.nodes,
        counts.base_slots,
        counts.ext_slots,
        blob.stored().len()
    );
    let file = match env::args_os().nth(1) {
        Some(name) => {
            fs::write(&name, blob.stored())?;
            fs::read(&name)?
        }
        None => blob.stored().to_vec(),
    };
    Ok(Blob::read(&file)?)
}

/// Each row that has a next one, with the values of its constraints.
fn walk_rows(program: &Program, blob: &Blob) -> Result<(), Box<dyn Error>> {
    let mut walker = blob.walker();
    for row in 0..=MAIN.len() - SHAPE.steps {
        let rows = row..row + SHAPE.steps;
        let frame = Frame {
            shape: SHAPE,
            main: &MAIN[rows.clone()],
            aux: AUX[rows].as_flattened(),
            challenges: &CHALLENGES,
            ..Frame::default()
        };
        let evals = walker.walk(&frame)?;
        if !evals.iter().eq(program.eval(&frame)?) {
            return Err(format!("row {row}: the walk and the plain evaluator differ").into());
        }
        for (constraint, value) in evals.iter().enumerate() {
            let holds = if value.is_zero() { ", holds" } else { "" };
            println!("row {row}, constraint {constraint}: {value}{holds}");
        }
    }
    Ok(())
}
