//! Where the published walk panics and where it answers, against what ours refuses. It answers more than ours: this file
//! says exactly how much more.
//!
//! In a file of its own, since panics are made silent here for the whole process.

#![forbid(unsafe_code)]

use differential::Score;
use differential::blobs::damage::{BIT_31, change_some, small_blobs};
use differential::blobs::published::{DeviceFrame, device};
use differential::blobs::{BlobWords, Lengths, compare};
use differential::inputs::Random;
use differential::programs::compare::{Answer, fresh_words, same_residues};
use differential::programs::{Cells, PROVER};
use differential::quiet::unless_it_panics;
use host::Refusal;
use host::lent::program::Shape;

/// The evals that the published walk leaves, or nothing if it panics.
fn published(words: &BlobWords, cells: &Cells, lengths: Lengths) -> Option<(Vec<u64>, Vec<u64>)> {
    unless_it_panics(|| {
        DeviceFrame::new(cells).evals(
            &device(words),
            &fresh_words(lengths.base_evals),
            &fresh_words(lengths.ext_evals),
        )
    })
}

/// The blob that says to ours what the original says to the published walk: every slot is filled with 0 by a node before
/// the others; bits and words that the published walk does not look at are as ours wants them. The 0 is a base constant
/// before the others, whose indexes go up by one, so that one outside stays outside.
fn tidied(words: &BlobWords) -> BlobWords {
    let counts = &words.counts;
    let mut nodes: Vec<[u32; 4]> = Vec::new();
    nodes.extend((0..counts.base_slots).map(|slot| [0, 0, 0, slot]));
    nodes.extend((0..counts.ext_slots).map(|slot| [10, 2 << 29, 0, slot | BIT_31]));
    let operand = |word: u32| match word >> 29 {
        2 => (word + 1).min((3 << 29) - 1),
        6 => 6 << 29,
        _ => word,
    };
    for node in words.nodes.chunks_exact(4).take(counts.nodes as usize) {
        let (tag, a, b, res) = (node[0], node[1], node[2], node[3]);
        let (in_base, in_ext) = (res & !BIT_31, res | BIT_31);
        nodes.push(match tag {
            0 => [tag, a.saturating_add(1), 0, in_base],
            1 | 3 | 4 => [tag, a, 0, in_ext],
            2 => {
                let res = if b >> 16 & 1 == 1 { in_base } else { in_ext };
                [tag, a & 0xFFFF, b & 0x1_FF00, res]
            }
            5 => [tag, 0, 0, in_ext],
            9 => [tag, operand(a), 0, res],
            10 => [tag, operand(a), 0, in_ext],
            _ => [tag, operand(a), operand(b), res],
        });
    }
    let mut tidied = words.clone();
    tidied.nodes = nodes.concat();
    tidied.counts.nodes = nodes.len() as u32;
    tidied.base_consts.insert(0, 0);
    tidied.counts.base_consts += 1;
    tidied
}

/// On damaged blobs: where ours answers 0, the published walk answers. And the published walk answers exactly where ours
/// answers 0 for the tidied blob, with the same values: so there are no more differences than `tidied` takes away.
#[test]
fn published_walk_answers_what_is_legal_once_tidied() {
    const SEED: u64 = 0x7061_6E62;
    let blobs = if cfg!(debug_assertions) { 5_000 } else { 100_000 };
    let mut random = Random::new(SEED);
    let mut score = Score::new("where the published walk panics");
    let (mut both, mut neither, mut rust_only) = (0, 0, 0);
    let sources = small_blobs(&mut random, 300, 30);
    let mut differing: Vec<String> = Vec::new();
    for i in 0..blobs {
        let before = &sources[random.below(sources.len())];
        let (mut words, mut cells) = before.clone();
        while (&words, &cells) == (&before.0, &before.1) {
            change_some(&mut random, &mut words, &mut cells);
        }
        let what = format_args!("damaged blob {i} of seed {SEED:#x}");
        let lengths = Lengths::of(&words.counts);
        let ours = compare::walk(&mut score, &words, &cells, lengths, what).answer;
        let tidied = compare::walk(&mut score, &tidied(&words), &cells, lengths, what);
        let rust = published(&words, &cells, lengths);
        match (ours, &rust) {
            (Ok(()), Some(_)) => both += 1,
            (Err(_), None) => neither += 1,
            (Err(refusal), Some(_)) if refusal.number == 11 => rust_only += 1,
            (ours, rust) => differing.push(format!("{what}: ours {ours:?}, Rust {rust:?}, {words:?}")),
        }
        match &rust {
            Some((base, ext)) if tidied.answer.is_ok() => {
                same_residues(&mut score, &tidied.base_evals, base, format_args!("tidied, {what}"));
                same_residues(&mut score, &tidied.ext_evals, ext, format_args!("tidied, {what}"));
                score.agreed += 1;
            }
            None if tidied.answer.is_err() => (),
            _ => differing.push(format!("{what}, tidied: {:?}, {words:?}", tidied.answer)),
        }
    }
    println!(
        "where the published walk panics: {blobs} damaged blobs; both answer {both}, the published walk alone {rust_only}, \
         neither {neither}"
    );
    assert!(
        differing.is_empty(),
        "{} differ; the first: {}",
        differing.len(),
        differing[0]
    );
    assert!(both != 0 && neither != 0 && rust_only != 0);
    score.finish(&[0, 11, 12]);
}

const SHAPE: Shape = Shape {
    steps: 1,
    main_width: 1,
    aux_width: 1,
    challenges: 1,
    alphas: 1,
};

/// A blob with one base constant, one extension constant, and slots that are enough.
fn blob(nodes: &[[u32; 4]], roots: &[u32]) -> BlobWords {
    BlobWords::of(nodes, &[1], &[[1, 2, 3]], roots, [0, 1, 1])
}

fn node(node: [u32; 4]) -> BlobWords {
    blob(&[node], &[])
}

const MAIN: u32 = 1 << 16;

/// The smallest blobs that the published walk answers and ours refuses with 11.
#[test]
fn published_walk_alone_answers() {
    let cases = [
        ("an operand that was never filled", node([9, 0, 0, 0]), 0),
        (
            "an extension operand that was never filled",
            node([9, 1 << 29, 0, BIT_31]),
            0,
        ),
        ("a root that was never filled", blob(&[], &[0]), 0),
        ("an extension root that was never filled", blob(&[], &[BIT_31]), 0),
        ("Var row 1", node([2, 0, MAIN | 1, 0]), 0),
        ("a spare bit of the column", node([2, 1 << 16, MAIN, 0]), 0),
        ("a spare bit above main", node([2, 0, MAIN | 1 << 17, 0]), 0),
        ("an unused word of tag 0", node([0, 0, 1, 0]), 0),
        ("an unused word of tag 1", node([1, 0, 1, BIT_31]), 0),
        ("an unused word of tag 3", node([3, 0, 1, BIT_31]), 0),
        ("an unused word of tag 4", node([4, 0, 1, BIT_31]), 0),
        ("the first unused word of tag 5", node([5, 1, 0, BIT_31]), 0),
        ("the second unused word of tag 5", node([5, 0, 1, BIT_31]), 0),
        ("an unused word of tag 9", node([9, 2 << 29, 1, 0]), 0),
        ("an unused word of tag 10", node([10, 2 << 29, 1, BIT_31]), 0),
        ("a payload of kind 6", node([9, 6 << 29 | 1, 0, BIT_31]), 0),
        ("bit 31 of tag 0", node([0, 0, 0, BIT_31]), 0),
        ("no bit 31 of tag 1", node([1, 0, 0, 0]), 0),
        ("bit 31 of a main cell", node([2, 0, MAIN, BIT_31]), 0),
        ("no bit 31 of an aux cell", node([2, 0, 0, 0]), 0),
        ("no bit 31 of tag 3", node([3, 0, 0, 0]), 0),
        ("no bit 31 of tag 4", node([4, 0, 0, 0]), 0),
        ("no bit 31 of tag 5", node([5, 0, 0, 0]), 0),
        ("no bit 31 of tag 10", node([10, 2 << 29, 0, 0]), 0),
    ];
    each(&cases, 11, true);
}

/// The smallest blobs that both turn down, for each rule: the published walk panics.
#[test]
fn published_walk_panics_too() {
    let cases = [
        ("tag 11", node([11, 0, 0, 0]), 0),
        ("kind 7", node([9, 7 << 29, 0, BIT_31]), 0),
        (
            "a base result of an extension slot",
            blob(&[[5, 0, 0, BIT_31], [9, 1 << 29, 0, 0]], &[]),
            1,
        ),
        ("a base result of an extension constant", node([9, 3 << 29, 0, 0]), 0),
        ("a base result of a challenge", node([9, 4 << 29, 0, 0]), 0),
        ("a base result of an alpha power", node([9, 5 << 29, 0, 0]), 0),
        ("a base result of the offset", node([9, 6 << 29, 0, 0]), 0),
        ("a base slot that is not there", node([0, 0, 0, 1]), 0),
        ("an extension slot that is not there", node([5, 0, 0, BIT_31 | 1]), 0),
        ("an operand's slot that is not there", node([9, 1, 0, 0]), 0),
        ("a base constant that is not there", node([0, 1, 0, 0]), 0),
        ("an extension constant that is not there", node([1, 1, 0, BIT_31]), 0),
        (
            "a base constant of an operand that is not there",
            node([9, 2 << 29 | 1, 0, 0]),
            0,
        ),
        ("a main column outside", node([2, 1, MAIN, 0]), 0),
        ("a main step outside", node([2, 0, MAIN | 1 << 8, 0]), 0),
        ("an aux column outside", node([2, 1, 0, BIT_31]), 0),
        ("an aux step outside", node([2, 0, 1 << 8, BIT_31]), 0),
        ("a challenge outside", node([3, 1, 0, BIT_31]), 0),
        ("an alpha power outside", node([4, 1, 0, BIT_31]), 0),
        ("a root's slot that is not there", blob(&[[0, 0, 0, 0]], &[0, 1]), 1),
    ];
    each(&cases, 11, false);
    let mut leading = blob(&[[5, 0, 0, BIT_31], [0, 0, 0, 0]], &[0, BIT_31]);
    leading.counts.num_base = 2;
    each(&[("an extension root below num_base", leading, 1)], 12, false);
}

#[track_caller]
fn each(cases: &[(&str, BlobWords, u64)], number: u8, rust_answers: bool) {
    let mut random = Random::new(0x736D_616C);
    let cells = Cells::random(&mut random, SHAPE, PROVER);
    let mut score = Score::new("smallest blobs");
    for (name, words, place) in cases {
        let lengths = Lengths::of(&words.counts);
        let ours: Answer = compare::walk(&mut score, words, &cells, lengths, format_args!("{name}")).answer;
        let expected = Refusal { number, place: *place };
        assert_eq!(ours, Err(expected), "{name}");
        let answered = published(words, &cells, lengths).is_some();
        assert_eq!(answered, rust_answers, "{name}: whether the published walk answers");
    }
    score.finish(&[number.into()]);
}
