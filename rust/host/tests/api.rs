//! The types that own their memory, on program E of the scope document and on small things that are refused.

#![forbid(unsafe_code)]

use host::{Blob, BlobCounts, Error, Frame, P, Program, ProgramWords, Refusal, Shape, Value};

/// Main cell of column 0 at this step.
const fn main_cell(step: u32) -> [u32; 4] {
    [2, 0, 1 << 16 | step << 8, 0]
}

/// Program E: the second cell less the first less 1, and an aux cell times a challenge plus that.
fn program_e() -> ProgramWords {
    ProgramWords {
        nodes: vec![
            [0, 0, 0, 0],
            main_cell(0),
            main_cell(1),
            [7, 2, 1, 0],
            [0, 1, 0, 0],
            [7, 3, 4, 0],
            [2, 2, 0, 1],
            [3, 0, 0, 1],
            [8, 6, 7, 1],
            [6, 8, 5, 1],
        ],
        base_consts: vec![P, P + 1],
        ext_consts: vec![],
        roots: vec![5, 9],
        num_base: 1,
    }
}

const SHAPE: Shape = Shape {
    steps: 2,
    main_width: 1,
    aux_width: 3,
    challenges: 1,
    alphas: 0,
};

/// Cells 5 and 9, the aux cell (1, 2, 3), the challenge (4, 5, 6).
fn frame() -> Frame<'static> {
    Frame {
        shape: SHAPE,
        main: &[5, 9],
        aux: &[[0; 3], [0; 3], [1, 2, 3], [0; 3], [0; 3], [0; 3]],
        challenges: &[[4, 5, 6]],
        ..Frame::default()
    }
}

const VALUES: [Value; 2] = [Value::Base(3), Value::Ext([61, 49, 28])];

#[test]
fn program_e_is_evaluated_lowered_stored_and_walked() {
    let program = Program::new(program_e()).expect("E is well-formed");
    assert_eq!(program.eval(&frame()), Ok(VALUES.to_vec()));
    assert_eq!(program.next_row_trace_reads(1), Ok(vec![0]));
    let blob = program.lower().expect("E is lowered");
    assert_eq!(blob.stored().len(), 168);
    assert_eq!(blob.base_consts(), [0, 1], "constants are put below p");
    assert_eq!(blob.roots(), [0, 1 << 31]);
    assert_eq!(blob.nodes().len(), 7);
    assert_eq!(blob.nodes()[6], [6, 1 << 29, 0, 1 << 31]);
    let counts = BlobCounts {
        nodes: 7,
        base_consts: 2,
        ext_consts: 0,
        roots: 2,
        num_base: 1,
        base_slots: 2,
        ext_slots: 1,
    };
    assert_eq!(blob.counts(), counts);
    let read = Blob::read(blob.stored()).expect("what was stored is read");
    assert_eq!(read, blob);
    assert_eq!(read.check(&SHAPE), Ok(()));
    assert_eq!(read.walk(&frame()), Ok(VALUES.to_vec()));
}

#[test]
fn a_walker_walks_frame_after_frame() {
    let blob = Program::new(program_e()).and_then(|program| program.lower());
    let blob = blob.expect("E is lowered");
    let mut walker = blob.walker();
    for cells in [[5, 9], [9, 10], [P - 1, P], [u64::MAX, 0]] {
        let frame = Frame {
            main: &cells,
            ..frame()
        };
        let evals = walker.walk(&frame).expect("the frame is the blob's");
        let expected = host::field::sub(host::field::sub(cells[1], cells[0]), 1);
        assert_eq!(evals.base(), [expected]);
        assert_eq!(evals.ext().len(), 1);
        assert_eq!(evals.get(0), Some(Value::Base(expected)));
        assert_eq!(evals.get(0).map(|value| value.is_zero()), Some(expected == 0));
        assert_eq!(evals.get(2), None);
        assert_eq!(blob.walk(&frame), Ok(evals.iter().collect()));
    }
}

#[test]
fn the_verifier_and_one_row() {
    let program = Program::new(program_e()).expect("E is well-formed");
    let cells = [[5, 0, 0], [9, 0, 0]];
    let of_prover = frame();
    let frame = Frame {
        shape: SHAPE,
        main: &cells,
        aux: of_prover.aux,
        challenges: of_prover.challenges,
        alphas: &[],
        table_offset: [0; 3],
    };
    assert_eq!(program.eval_verifier(&frame), Ok(vec![[3, 0, 0], [61, 49, 28]]));
    // E has an aux cell, which a row has not.
    assert_eq!(program.eval_base(0, &[5]), Err(Error::OutsideFrame { place: 6 }));
    let mut words = program.into_words();
    words.nodes.truncate(6);
    words.roots.truncate(1);
    let program = Program::new(words).expect("the base part is well-formed");
    assert_eq!(program.eval_base(0, &[5]), Ok(P - 1));
    assert_eq!(program.eval_base(1, &[5]), Err(Error::NoSuchConstraint));
}

#[test]
fn what_is_refused() {
    let mut words = program_e();
    words.nodes[5][1] = 5;
    assert_eq!(Program::new(words), Err(Error::IllFormed { place: 5 }));
    let mut words = program_e();
    words.num_base = 2;
    let program = Program::new(words).expect("num_base is no matter of the program's form");
    assert_eq!(program.eval(&frame()), Err(Error::ExtensionRoot { place: 1 }));
    let blob = program.lower().expect("nor of lowering");
    assert_eq!(blob.check(&SHAPE), Err(Error::ExtensionRoot { place: 1 }));
    let program = Program::new(program_e()).expect("E is well-formed");
    let narrow = Frame {
        shape: Shape { aux_width: 2, ..SHAPE },
        ..frame()
    };
    assert_eq!(program.eval(&narrow), Err(Error::OutsideFrame { place: 6 }));
    let blob = program.lower().expect("E is lowered");
    assert_eq!(blob.walk(&narrow), Err(Error::IllegalBlob { place: 4 }));
    let wide = Shape { steps: 257, ..SHAPE };
    assert_eq!(blob.check(&wide), Err(Error::OverLimit));
    let short = Frame { main: &[5], ..frame() };
    assert_eq!(blob.walk(&short), Err(Error::ShortMemory));
}

#[test]
fn files_that_are_none() {
    let blob = Program::new(program_e()).and_then(|program| program.lower());
    let file = blob.expect("E is lowered").stored().to_vec();
    for len in 0..file.len() {
        assert_eq!(Blob::read(&file[..len]), Err(Error::NotStored), "{len} bytes");
    }
    // Counts that say more than a machine holds.
    for word in 0..4 {
        let mut file = file.clone();
        let at = file.len() - 32 + 4 * word;
        file[at..at + 4].copy_from_slice(&u32::MAX.to_le_bytes());
        assert_eq!(Blob::read(&file), Err(Error::NotStored), "word {word} of the trailer");
    }
    // Framing alone is judged.
    let mut illegal = file.clone();
    illegal[0] = 11;
    let blob = Blob::read(&illegal).expect("the framing is as it was");
    assert_eq!(blob.check(&SHAPE), Err(Error::IllegalBlob { place: 0 }));
    let empty = Blob::read(&[0; 32]).expect("a trailer of zeros is an empty blob");
    assert_eq!(empty.walk(&Frame::default()), Ok(vec![]));
}

#[test]
fn every_number_is_an_error_of_its_own() {
    let mut reasons: Vec<String> = Vec::new();
    for number in 1..=15 {
        let error = Error::from(Refusal { number, place: 9 });
        assert_eq!(error.number(), number);
        let named = [7, 11, 12, 13].contains(&number);
        assert_eq!(error.place(), named.then_some(9));
        let said = error.to_string();
        assert!(said.starts_with(&format!("refused {number}: ")), "{said}");
        assert_eq!(said.ends_with(", place 9"), named, "{said}");
        reasons.push(said);
    }
    reasons.sort();
    reasons.dedup();
    assert_eq!(reasons.len(), 15);
}
