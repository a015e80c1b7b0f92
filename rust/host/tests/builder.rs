//! The builder that owns its tables: program E of the scope document, tables that grow, and what is refused.

#![forbid(unsafe_code)]

use host::{Builder, Error, Frame, P, ProgramWords, Shape, Value};

#[test]
fn program_e_is_built() -> Result<(), Error> {
    let mut b = Builder::new();
    let (first, second, one) = (b.main(0, 0)?, b.main(1, 0)?, b.one()?);
    let difference = b.sub(second, first)?;
    let step = b.sub(difference, one)?;
    b.emit(0, step)?;
    let (cell, challenge) = (b.aux(0, 2)?, b.challenge(0)?);
    let product = b.mul(cell, challenge)?;
    let sum = b.add(product, step)?;
    b.emit(1, sum)?;
    assert!(!step.is_ext() && sum.is_ext());
    assert_eq!((step.id(), sum.id(), b.node_count()), (5, 9, 10));
    assert_eq!(b.gaps(), []);

    let program = b.finish(1)?;
    let nodes = vec![
        [0, 0, 0, 0],
        [2, 0, 0x1_0000, 0],
        [2, 0, 0x1_0100, 0],
        [0, 1, 0, 0],
        [7, 2, 1, 0],
        [7, 4, 3, 0],
        [2, 2, 0, 1],
        [3, 0, 0, 1],
        [8, 6, 7, 1],
        [6, 8, 5, 1],
    ];
    let words = ProgramWords {
        nodes,
        base_consts: vec![0, 1],
        ext_consts: vec![],
        roots: vec![5, 9],
        num_base: 1,
    };
    assert_eq!(*program.words(), words);
    let frame = Frame {
        shape: Shape {
            steps: 2,
            main_width: 1,
            aux_width: 3,
            challenges: 1,
            alphas: 0,
        },
        main: &[5, 9],
        aux: &[[0; 3], [0; 3], [1, 2, 3], [0; 3], [0; 3], [0; 3]],
        challenges: &[[4, 5, 6]],
        ..Frame::default()
    };
    assert_eq!(program.eval(&frame)?, [Value::Base(3), Value::Ext([61, 49, 28])]);
    Ok(())
}

/// A fresh builder has room for one node: every table grows several times, and every node keeps its number.
#[test]
fn tables_grow() -> Result<(), Error> {
    let mut b = Builder::with_room(0);
    let (mut sum, mut product) = (b.const_base(0)?, b.table_offset()?);
    for i in 0..300 {
        let (cell, aux) = (b.main(i as u8, 1)?, b.aux(0, i)?);
        let constant = b.const_base(3 * i as u64)?;
        let (negative, wide) = (b.const_signed(-(i as i64))?, b.const_ext([i as u64, 1, P])?);
        let (challenge, alpha) = (b.challenge(i)?, b.alpha_power(i)?);
        for base in [cell, constant, negative] {
            sum = b.add(sum, base)?;
        }
        for ext in [aux, wide, challenge, alpha] {
            product = b.mul(product, ext)?;
        }
        let embedded = b.embed(sum)?;
        product = b.sub(product, embedded)?;
        product = b.neg(product)?;
        b.emit(2 * i, product)?;
        assert_eq!((b.main(i as u8, 1)?, b.embed(sum)?), (cell, embedded));
    }
    assert_eq!(b.gaps(), (0..299).map(|i| 2 * i + 1).collect::<Vec<_>>());
    let program = b.finish(0)?;
    let words = program.words();
    let mut nodes = words.nodes.clone();
    nodes.sort_unstable();
    nodes.dedup();
    assert_eq!(nodes.len(), words.nodes.len(), "no two nodes are equal");
    assert_eq!(
        (words.base_consts.len(), words.ext_consts.len(), words.roots.len()),
        (599, 300, 599)
    );
    assert_eq!(words.roots[598], product.id());
    Ok(())
}

#[test]
fn refusals_are_errors() -> Result<(), Error> {
    let mut b = Builder::new();
    assert_eq!(b.main(0, 65_536), Err(Error::OverLimit));
    assert_eq!(b.aux(0, usize::MAX), Err(Error::OverLimit));
    assert_eq!(b.challenge(65_536), Err(Error::OverLimit));
    assert_eq!(b.alpha_power(65_536), Err(Error::OverLimit));
    let (cell, offset) = (b.main(255, 65_535)?, b.table_offset()?);

    let mut other = Builder::new();
    let one = other.one()?;
    for error in [
        other.add(one, offset),
        other.sub(offset, one),
        other.mul(offset, offset),
        other.neg(offset),
    ] {
        assert_eq!(error, Err(Error::NoSuchHandle));
    }
    assert_eq!(other.emit(0, offset), Err(Error::NoSuchHandle));
    // Node 1 is there too, and is base: it is taken for its own.
    assert_eq!(other.neg(cell)?, other.neg(one)?);

    assert_eq!(b.emit(4_294_967_295, cell), Err(Error::NoSuchConstraint));
    assert_eq!(b.emit(usize::MAX, cell), Err(Error::NoSuchConstraint));
    assert_eq!(b.gaps(), []);
    assert_eq!(b.finish(4_294_967_296).err(), Some(Error::TooManyRoots));
    Ok(())
}
