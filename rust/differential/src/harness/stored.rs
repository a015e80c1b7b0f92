//! Cases of stored form A: the calls on bytes, and the types that own their memory.

use std::fmt::Arguments;

use host::{Blob, Error, Program, ProgramWords, Value};

use crate::Score;
use crate::blobs::damage::change_some;
use crate::blobs::{BlobWords, published as device};
use crate::inputs::Random;
use crate::programs::lease::{Call, any};
use crate::programs::published::{self, Published};
use crate::programs::{Cells, PROVER, Words, small_shape};
use crate::stored::files::compare_file;
use crate::stored::lower::{Memory, compare_lower, program_bytes};
use crate::stored::{change_file, fitting, form_a, read_form_a};

pub(super) fn case(score: &mut Score, random: &mut Random, what: Arguments<'_>) {
    match random.below(3) {
        0 => file(score, random),
        1 => lowered(score, random),
        _ => owned(score, random, what),
    }
}

/// A file, most of them with something changed: the blob, the file's length or its trailer.
pub(super) fn a_file(random: &mut Random) -> (BlobWords, Cells, Vec<u8>) {
    let (mut blob, mut cells) = super::blobs::legal(random);
    if !blob.nodes.is_empty() && random.once_in(2) {
        change_some(random, &mut blob, &mut cells);
    }
    blob.counts = fitting(&blob);
    let mut file = form_a(&blob);
    if random.once_in(2) {
        change_file(random, &mut file);
    }
    file.shrink_to_fit();
    (blob, cells, file)
}

/// Check and walk of a file.
fn file(score: &mut Score, random: &mut Random) {
    let (blob, mut cells, file) = a_file(random);
    if random.once_in(20) {
        cells.shape.steps = 257;
    }
    compare_file(score, random, &blob, &cells.exact(), &file);
}

/// A program in bytes, lowered to a file; half of them with something changed or short.
fn lowered(score: &mut Score, random: &mut Random) {
    let mut lease = any(random, Call::Check);
    let mut memory = Memory::new(random, &lease.words, 0);
    match random.below(8) {
        0 => lease.change_word(random),
        1 => memory.words.cut(random.below(4)),
        2 => memory.blob.cut(random.below(4)),
        3 => drop(memory.lists[random.below(5)].pop()),
        4 => {
            let len = random.below(memory.file.len() + 1);
            memory.file.truncate(len);
        }
        _ => (),
    }
    let words = lease.words.exact();
    let tables = program_bytes(random, &words);
    compare_lower(score, &words, &tables, memory.exact());
}

/// A program and its blob in the types that own their memory: files, blobs and values are those of the published Rust.
fn owned(score: &mut Score, random: &mut Random, what: Arguments<'_>) {
    let shape = small_shape(random);
    let published = super::programs::build_one(random, shape);
    let program = Program::new(owned_words(&published::words(&published))).expect("a built program is well-formed");
    let blob = program.lower().expect("a well-formed program is lowered");
    let plain = form_a(&device::lower(&published));
    assert_eq!(blob.stored(), plain, "{what}: the stored form");
    let read = Blob::read(&plain).expect("a stored blob is read");
    assert_eq!(read, blob, "{what}: what is read is what was stored");
    let cells = Cells::random(random, shape, PROVER);
    let frame = host::Frame {
        shape,
        main: &cells.main,
        aux: &rows(&cells.aux),
        challenges: &rows(&cells.challenges),
        alphas: &rows(&cells.alphas),
        table_offset: cells.table_offset,
    };
    let values = values_of(&published, &cells);
    assert_eq!(blob.check(&shape), Ok(()), "{what}");
    assert_eq!(blob.walk(&frame).as_ref(), Ok(&values), "{what}: the walk");
    assert_eq!(program.eval(&frame).as_ref(), Ok(&values), "{what}: the evaluation");
    score.words += (plain.len() + 2 * values.len()) as u64;
    score.agreed += 1;
    // A file that is none is refused, and one that is has the counts of its trailer.
    let (.., file) = a_file(random);
    match (Blob::read(&file), read_form_a(&file)) {
        (Ok(blob), Some(plain)) => assert_eq!(
            (
                blob.counts(),
                blob.nodes().as_flattened(),
                blob.base_consts(),
                blob.roots()
            ),
            (plain.counts, &plain.nodes[..], &plain.base_consts[..], &plain.roots[..]),
            "{what}: {file:?}"
        ),
        (Err(Error::NotStored), None) => (),
        (ours, plain) => panic!("{what}: {ours:?} and {plain:?} of {file:?}"),
    }
}

/// Words by so many.
fn rows<T: Copy, const WORDS: usize>(words: &[T]) -> Vec<[T; WORDS]> {
    let rows = words.chunks_exact(WORDS);
    rows.map(|row| std::array::from_fn(|at| row[at])).collect()
}

/// The words without those past the counts.
fn owned_words(words: &Words) -> ProgramWords {
    ProgramWords {
        nodes: rows(&words.nodes),
        base_consts: words.base_consts.clone(),
        ext_consts: rows(&words.ext_consts),
        roots: words.roots.clone(),
        num_base: words.counts.num_base,
    }
}

/// What the published evaluator leaves, put below p.
fn values_of(program: &Published, cells: &Cells) -> Vec<Value> {
    let roots = program.roots.len();
    let num_base = program.num_base.min(roots);
    let frame = published::ProverFrame::new(cells);
    let (base, ext) = frame.eval(program, &vec![0; num_base], &vec![0; 3 * roots]);
    let below_p = |word: u64| word % crate::P;
    let base = base.iter().map(|word| Value::Base(below_p(*word)));
    let ext = rows(&ext).into_iter().skip(num_base);
    let ext = ext.map(|limbs: [u64; 3]| Value::Ext(limbs.map(below_p)));
    base.chain(ext).collect()
}
