//! The proved program `blob_list`, run on files that come through a pipe: what it prints is held to a plain listing from the
//! scope document, byte for byte.

#![forbid(unsafe_code)]

use std::array;
use std::fmt::Arguments;
use std::path::PathBuf;

use differential::blobs::damage::{change_some, every_tag, hostile_words, small_blobs};
use differential::blobs::{BlobWords, published as device};
use differential::inputs::{Random, edge_limbs, edge_words};
use differential::programs::build::{Recipe, build};
use differential::programs::{published, small_shape};
use differential::stored::listing::{LONGEST, compare, program};
use differential::stored::{bytes32, bytes64, fitting, form_a, fresh32, words32};
use differential::{P, Score};
use host::lent::blob::check_blob;
use stark::program_e;

/// Program E's listing, as the scope document has it.
const E: &str = "\
blob 7 2 0 2 1 2 1
node 2 0 65536 0
node 2 0 65792 1
node 7 1 0 0
node 7 0 1073741825 0
node 2 2 0 2147483648
node 8 536870912 2147483648 2147483648
node 6 536870912 0 2147483648
const 0
const 1
root 0
root 2147483648
end
";

const BAD_FRAMING: &str = "refused 15\n";
const TOO_LONG: &str = "refused 1\n";

const TRAILER: usize = 32;

struct Runs {
    program: PathBuf,
    score: Score,
}

impl Runs {
    fn new(test: &'static str) -> Self {
        Runs {
            program: program().unwrap_or_else(|what_to_do| panic!("{what_to_do}")),
            score: Score::new(test),
        }
    }

    #[track_caller]
    fn list(&mut self, file: &[u8], what: Arguments<'_>) -> String {
        compare(&mut self.score, &self.program, &[file], what)
    }

    /// The numbers have to have been answered, and no other; `times` is the number of files.
    #[track_caller]
    fn finish(self, numbers: &[usize], times: u64) {
        let run: u64 = (0..16).map(|number| self.score.times(number)).sum();
        assert_eq!(run, times, "files that were listed");
        self.score.finish(numbers);
    }
}

fn file_of_e() -> Vec<u8> {
    form_a(&device::lower(&program_e()))
}

/// A file's trailer.
fn trailer_of(file: &[u8]) -> [u32; 8] {
    let words = words32(&file[file.len() - TRAILER..]);
    words.try_into().expect("a trailer has eight words")
}

/// The file with another trailer.
fn with_trailer(file: &[u8], trailer: [u32; 8]) -> Vec<u8> {
    [&file[..file.len() - TRAILER], &bytes32(&trailer)].concat()
}

/// A file whose tables have so many words together: any words in it, constants at or above p too.
fn any_file(random: &mut Random, words: usize) -> Vec<u8> {
    let exts = random.below(words / 6 + 1);
    let rest = words - 6 * exts;
    let nodes = random.below(rest / 4 + 1);
    let rest = rest - 4 * nodes;
    let bases = random.below(rest / 2 + 1);
    framed(random, [nodes, bases, exts, rest - 2 * bases])
}

/// Any words in tables of these counts, and any `num_base` and slot counts.
fn framed(random: &mut Random, counts: [usize; 4]) -> Vec<u8> {
    let [nodes, bases, exts, roots] = counts;
    let distance = (4 * nodes + 2 * bases + 6 * exts + roots) as u32;
    [
        bytes32(&fresh32(random, 4 * nodes)),
        bytes64(&random.words(bases + 3 * exts)),
        bytes32(&fresh32(random, roots)),
        bytes32(&counts.map(|count| count as u32)),
        bytes32(&fresh32(random, 3)),
        bytes32(&[distance]),
    ]
    .concat()
}

/// E and the empty blob, the file whole and in two pieces, cut at every place.
#[test]
fn stated_listings() {
    let mut runs = Runs::new("stated listings");
    let file = file_of_e();
    assert_eq!((file.len(), trailer_of(&file)[7]), (168, 34));
    assert_eq!(runs.list(&file, format_args!("E")), E);
    assert_eq!(
        runs.list(&[0; TRAILER], format_args!("32 zero bytes")),
        "blob 0 0 0 0 0 0 0\nend\n"
    );
    assert_eq!(runs.list(&[], format_args!("no byte")), BAD_FRAMING);
    for at in 1..file.len() {
        let (first, second) = file.split_at(at);
        let what = format_args!("E in two pieces, cut at {at}");
        assert_eq!(compare(&mut runs.score, &runs.program, &[first, second], what), E);
    }
    runs.finish(&[0, 15], 170);
}

/// Zero bytes, and files that are cut or lengthened at either end, to every length up to 400.
#[test]
fn every_length() {
    let mut runs = Runs::new("every length");
    let files = [file_of_e(), form_a(&every_tag())];
    for len in 0..=400 {
        let zeros = vec![0; len];
        let text = runs.list(&zeros, format_args!("{len} zero bytes"));
        assert_eq!(text != BAD_FRAMING, len == TRAILER);
        for file in &files {
            let whole = file.len();
            let kept = whole.min(len);
            let at_the_end = [&file[..kept], &zeros[kept..]].concat();
            let at_the_front = [&zeros[kept..], &file[whole - kept..]].concat();
            for changed in [at_the_end, at_the_front] {
                let text = runs.list(&changed, format_args!("{whole} bytes made {len}"));
                assert_eq!(text != BAD_FRAMING, len == whole);
            }
        }
    }
    runs.finish(&[0, 15], 5 * 401);
}

/// A file of every length up to 400 that a file can have, and with up to four bytes more or less at either end.
#[test]
fn every_framed_length() {
    let mut random = Random::new(0x6C69_7331);
    let mut runs = Runs::new("every framed length");
    for len in (TRAILER..=400).step_by(4) {
        let file = any_file(&mut random, (len - TRAILER) / 4);
        assert_eq!(file.len(), len);
        assert_ne!(runs.list(&file, format_args!("{len} bytes")), BAD_FRAMING);
        for change in 1..=4 {
            let more = vec![0; change];
            for changed in [
                file[change..].to_vec(),
                file[..len - change].to_vec(),
                [&more, &file[..]].concat(),
                [&file[..], &more].concat(),
            ] {
                let text = runs.list(&changed, format_args!("{len} bytes, {change} more or less"));
                assert_eq!(text, BAD_FRAMING);
            }
        }
    }
    runs.finish(&[0, 15], 17 * 93);
}

/// Every field of the trailer a little more or less, and with every bit changed: the counts and the distance hold the file
/// together, and the other three fields are only listed.
#[test]
fn trailer_fields() {
    let mut runs = Runs::new("fields of the trailer");
    for file in [vec![0; TRAILER], file_of_e(), form_a(&every_tag())] {
        let trailer = trailer_of(&file);
        for field in 0..8 {
            let steps = [-4, -2, -1, 1, 2, 4].map(|step| trailer[field].wrapping_add_signed(step));
            let bits = (0..32).map(|bit| trailer[field] ^ 1 << bit);
            for word in steps.into_iter().chain(bits) {
                let mut changed = trailer;
                changed[field] = word;
                let what = format_args!("field {field} is {word} in {trailer:?}");
                let text = runs.list(&with_trailer(&file, changed), what);
                assert_eq!(text == BAD_FRAMING, !(4..7).contains(&field), "{what}");
            }
        }
    }
    runs.finish(&[0, 15], 3 * 8 * 38);
}

/// A count and the distance changed together are not what the length says; two counts that change to the same sum are.
#[test]
fn two_fields() {
    const WEIGHTS: [u32; 4] = [4, 2, 6, 1];
    let mut runs = Runs::new("two fields of the trailer");
    let file = form_a(&every_tag());
    let trailer = trailer_of(&file);
    for field in 0..4 {
        for step in [-1, 1] {
            let mut changed = trailer;
            changed[field] = trailer[field].wrapping_add_signed(step);
            changed[7] = trailer[7].wrapping_add_signed(step * WEIGHTS[field] as i32);
            let text = runs.list(&with_trailer(&file, changed), format_args!("{changed:?}"));
            assert_eq!(text, BAD_FRAMING);
        }
    }
    for (less, more) in [(0, 1), (0, 3), (1, 3), (2, 1), (2, 3)] {
        let mut changed = trailer;
        changed[less] -= 1;
        changed[more] += WEIGHTS[less] / WEIGHTS[more];
        let text = runs.list(&with_trailer(&file, changed), format_args!("{changed:?}"));
        assert!(text.ends_with("end\n"));
    }
    runs.finish(&[0, 15], 13);
}

/// Counts near 2^32, and counts whose sum of words, or of bytes, is the file's only modulo 2^32. No sum of four counts passes
/// 64 bits, so there is none that would be right modulo 2^64.
#[test]
fn counts_past_32_bits() {
    let mut counts = vec![[u32::MAX; 4]];
    for field in 0..4 {
        counts.extend((0..4).map(|less| array::from_fn(|at| if at == field { u32::MAX - less } else { 0 })));
    }
    // Each alone and together: what turns round modulo 2^32 in words, and in bytes.
    for nodes in [0, 1, 1 << 28, 1 << 30, 1 << 31, (1 << 30) + 1] {
        for bases in [0, 1, 1 << 29, 1 << 31, (1 << 31) + 1] {
            for exts in [0, 1, 1 << 29, 1 << 31, 715_827_883] {
                counts.extend([0, 1 << 30, 1 << 31].map(|roots| [nodes, bases, exts, roots]));
            }
        }
    }
    // A root count just below 2^32, and others that make it 2^32 and a few.
    for few in 0..2_u32 {
        for [nodes, bases, exts] in [[1, 0, 0], [0, 1, 0], [0, 0, 1], [1, 1, 1], [2, 3, 1]] {
            let words = 4 * nodes + 2 * bases + 6 * exts;
            counts.push([nodes, bases, exts, few.wrapping_sub(words)]);
        }
    }
    let mut runs = Runs::new("counts past 32 bits");
    let mut files = 0;
    for [nodes, bases, exts, roots] in counts {
        let words = 4 * u64::from(nodes) + 2 * u64::from(bases) + 6 * u64::from(exts) + u64::from(roots);
        let turned = words as u32 % (1 << 30);
        let body = if turned < 40 { turned } else { 0 };
        if u64::from(body) == words {
            continue;
        }
        // A reader in 32 bits takes the distance for that many words, or four times the distance for that many bytes.
        let mut distances = vec![words as u32, body];
        distances.dedup();
        for distance in distances {
            let trailer = [nodes, bases, exts, roots, 1, 2, 3, distance];
            let file = [bytes32(&vec![7; body as usize]), bytes32(&trailer)].concat();
            assert_eq!(runs.list(&file, format_args!("{trailer:?}")), BAD_FRAMING);
            files += 1;
        }
    }
    runs.finish(&[15], files);
}

/// A distance in bytes, to the file's end, from the other side, and the like.
#[test]
fn other_distances() {
    let mut random = Random::new(0x6C69_7332);
    let mut runs = Runs::new("other distances");
    let mut files = 0;
    for (blob, _) in small_blobs(&mut random, 60, 20) {
        let file = form_a(&blob);
        let mut trailer = trailer_of(&file);
        let words = trailer[7];
        for distance in [
            4 * words,
            4 * words + 32,
            words + 8,
            words - 1,
            words + 1,
            words / 4,
            words.wrapping_neg(),
            words.swap_bytes(),
            words + (1 << 30),
            0,
        ] {
            trailer[7] = distance;
            let what = format_args!("distance {distance} for {words} words");
            assert_eq!(runs.list(&with_trailer(&file, trailer), what), BAD_FRAMING);
            files += 1;
        }
    }
    runs.finish(&[15], files);
}

/// Every edge word as a constant of either kind: it is listed below p.
#[test]
fn constants_at_or_above_p() {
    let mut runs = Runs::new("constants at or above p");
    let (words, limbs) = (edge_words(), edge_limbs());
    let distance = 2 * words.len() + 6 * limbs.len();
    let trailer = [0, words.len(), limbs.len(), 0, 0, 0, 0, distance];
    let file = [
        bytes64(&words),
        bytes64(&limbs.concat()),
        bytes32(&trailer.map(|word| word as u32)),
    ]
    .concat();
    runs.list(&file, format_args!("every edge word"));
    for (word, listed) in [(P - 1, P - 1), (P, 0), (P + 1, 1), (u64::MAX, 4_294_967_294)] {
        let trailer = [0, 1, 1, 0, 0, 0, 0, 8];
        let file = [bytes64(&[word, word, 4_294_967_296, word]), bytes32(&trailer)].concat();
        assert_eq!(
            runs.list(&file, format_args!("{word}")),
            format!("blob 0 1 1 0 0 0 0\nconst {listed}\next {listed} 4294967296 {listed}\nend\n")
        );
    }
    runs.finish(&[0], 5);
}

/// The check refuses these blobs, and they are listed all the same.
#[test]
fn illegal_blobs() {
    let mut random = Random::new(0x6C69_7333);
    let mut runs = Runs::new("illegal blobs");
    let blobs = small_blobs(&mut random, 100, 20);
    let mut files = 0;
    while files < 300 {
        let (mut blob, mut cells) = blobs[random.below(blobs.len())].clone();
        change_some(&mut random, &mut blob, &mut cells);
        blob.counts = fitting(&blob);
        let mut marks = vec![0; blob.counts.bytes()];
        if check_blob(&blob.lend(), &cells.shape, &mut marks).is_ok() {
            continue;
        }
        assert!(runs.list(&form_a(&blob), format_args!("{blob:?}")).ends_with("end\n"));
        files += 1;
    }
    runs.finish(&[0], 300);
}

/// Files of 65,536 bytes are listed, also those with the longest text, and longer ones are refused whatever they hold.
#[test]
fn longest_files() {
    let mut random = Random::new(0x6C69_7334);
    let mut runs = Runs::new("longest files");
    // Nodes, base constants, roots alone; extension constants and two roots.
    for counts in [[4_094, 0, 0, 0], [0, 8_188, 0, 0], [0, 0, 0, 16_376], [0, 0, 2_729, 2]] {
        let file = framed(&mut random, counts);
        assert_eq!(file.len(), LONGEST);
        let what = format_args!("{counts:?}");
        assert!(runs.list(&file, what).ends_with("end\n"));
        let pieces: Vec<&[u8]> = file.chunks(9_999).collect();
        assert!(compare(&mut runs.score, &runs.program, &pieces, what).ends_with("end\n"));
        let mut largest = file.clone();
        largest[..LONGEST - TRAILER].fill(0xFF);
        largest[LONGEST - 16..LONGEST - 4].fill(0xFF);
        assert!(runs.list(&largest, what).ends_with("end\n"));
        assert_eq!(runs.list(&file[1..], what), BAD_FRAMING);
        assert_eq!(runs.list(&file[..LONGEST - 1], what), BAD_FRAMING);
        assert_eq!(runs.list(&[&file[..], &[0]].concat(), what), TOO_LONG);
        assert_eq!(runs.list(&[&[0], &file[..]].concat(), what), TOO_LONG);
        // With a root more it is a file still, and too long.
        let [nodes, bases, exts, roots] = counts;
        let longer = framed(&mut random, [nodes, bases, exts, roots + 1]);
        assert_eq!(runs.list(&longer, what), TOO_LONG);
    }
    for len in [LONGEST - 4, LONGEST] {
        assert_eq!(runs.list(&vec![0; len], format_args!("{len} zero bytes")), BAD_FRAMING);
    }
    for len in [LONGEST + 1, LONGEST + 2, 2 * LONGEST, 1_000_000] {
        assert_eq!(runs.list(&vec![0; len], format_args!("{len} zero bytes")), TOO_LONG);
    }
    runs.finish(&[0, 1, 15], 4 * 8 + 6);
}

/// A program of the published builder, lowered by the published `lower`.
fn lowered(random: &mut Random) -> BlobWords {
    let recipe = Recipe {
        calls: random.below(60),
        shape: small_shape(random),
        row_only: random.once_in(4),
        constraints: random.pick(&[0, 1, 3, 8]),
    };
    let mut program = build(random, &recipe);
    program.num_base = published::words(&program).fitting_num_base(random);
    device::lower(&program)
}

#[test]
fn published_blobs() {
    const CASES: u64 = 400;
    let mut random = Random::new(0x6C69_7335);
    let mut runs = Runs::new("blobs of the published lower");
    for case in 0..CASES {
        let blob = lowered(&mut random);
        let text = runs.list(&form_a(&blob), format_args!("blob {case}"));
        // A line for each thing in the blob, besides the first and the last.
        let counts = &blob.counts;
        let things = counts.nodes + counts.base_consts + counts.ext_consts + counts.roots;
        assert_eq!(text.lines().count(), things as usize + 2);
    }
    runs.finish(&[0], CASES);
}

/// One change of a file: its length at either end or inside, words of the trailer; every other one is of a bit.
fn damage(random: &mut Random, file: &mut Vec<u8>) {
    let len = file.len();
    let at = random.below(len + 1);
    match random.below(14) {
        0 => file.truncate(at),
        1 => drop(file.drain(..at)),
        2 => file.extend((0..1 + random.below(40)).map(|byte| byte as u8)),
        3 => file.insert(at, random.uniform() as u8),
        4 if at < len => drop(file.remove(at)),
        5 if TRAILER <= len => {
            let mut trailer = trailer_of(file);
            trailer[random.below(8)] = random.pick(&hostile_words());
            *file = with_trailer(file, trailer);
        }
        6 if TRAILER <= len => {
            let mut trailer = trailer_of(file);
            trailer.swap(random.below(8), random.below(8));
            *file = with_trailer(file, trailer);
        }
        _ if at < len => file[at] ^= 1 << random.below(8),
        _ => (),
    }
}

#[test]
fn damaged_files() {
    const CASES: u64 = 3_000;
    let mut random = Random::new(0x6C69_7336);
    let mut runs = Runs::new("damaged files");
    for case in 0..CASES {
        let mut file = if random.once_in(2) {
            form_a(&lowered(&mut random))
        } else {
            let words = random.below(100);
            any_file(&mut random, words)
        };
        for _ in 0..1 + random.below(3) {
            damage(&mut random, &mut file);
        }
        runs.list(&file, format_args!("file {case}"));
    }
    runs.finish(&[0, 15], CASES);
}
