//! Blobs in stored form A and the calls on bytes: a plain writer, reader and listing of files, from the scope document, and
//! what the tests do with the calls.

pub mod files;
pub mod listing;
pub mod lower;

use host::Refusal;
use host::lent::blob::BlobCounts;
use host::lent::lower::Rooms;

use crate::P;
use crate::blobs::BlobWords;
use crate::blobs::damage::hostile_words;
use crate::inputs::Random;
use crate::programs::compare::Answer;

/// A refusal that names no place.
pub fn refusal(number: u8) -> Answer {
    Err(Refusal { number, place: 0 })
}

/// An answer's number, 0 for "done".
pub fn number(answer: Answer) -> u8 {
    answer.map_or_else(|refusal| refusal.number, |()| 0)
}

pub fn bytes32(words: &[u32]) -> Vec<u8> {
    words.iter().flat_map(|word| word.to_le_bytes()).collect()
}

pub fn bytes64(words: &[u64]) -> Vec<u8> {
    words.iter().flat_map(|word| word.to_le_bytes()).collect()
}

pub fn words32(bytes: &[u8]) -> Vec<u32> {
    let words = bytes.chunks_exact(4);
    words
        .map(|word| u32::from_le_bytes(word.try_into().expect("four bytes")))
        .collect()
}

pub fn words64(bytes: &[u8]) -> Vec<u64> {
    let words = bytes.chunks_exact(8);
    words
        .map(|word| u64::from_le_bytes(word.try_into().expect("eight bytes")))
        .collect()
}

/// Bytes with a few more than whole words.
pub fn and_some(random: &mut Random, mut bytes: Vec<u8>, word: usize) -> Vec<u8> {
    bytes.extend((0..random.below(word)).map(|_| random.uniform() as u8));
    bytes.shrink_to_fit();
    bytes
}

pub fn below_p(words: &[u64]) -> Vec<u64> {
    words.iter().map(|word| word % P).collect()
}

pub fn trailer(counts: &BlobCounts) -> [u32; 8] {
    let c = counts;
    let distance = 4 * c.nodes + 2 * c.base_consts + 6 * c.ext_consts + c.roots;
    [
        c.nodes,
        c.base_consts,
        c.ext_consts,
        c.roots,
        c.num_base,
        c.base_slots,
        c.ext_slots,
        distance,
    ]
}

pub fn form_a(blob: &BlobWords) -> Vec<u8> {
    let c = &blob.counts;
    [
        bytes32(&blob.nodes[..4 * c.nodes as usize]),
        bytes64(&below_p(&blob.base_consts[..c.base_consts as usize])),
        bytes64(&below_p(&blob.ext_consts[..3 * c.ext_consts as usize])),
        bytes32(&blob.roots[..c.roots as usize]),
        bytes32(&trailer(c)),
    ]
    .concat()
}

/// The blob in a file, if it is one.
pub fn read_form_a(file: &[u8]) -> Option<BlobWords> {
    let body = file.len().checked_sub(32)?;
    let t = words32(&file[body..]);
    let [n, b, x, r] = [t[0], t[1], t[2], t[3]].map(u64::from);
    let distance = 4 * n + 2 * b + 6 * x + r;
    if u64::from(t[7]) != distance || body as u64 != 4 * distance {
        return None;
    }
    let [n, b, x] = [16 * n, 8 * b, 24 * x].map(|bytes| bytes as usize);
    Some(BlobWords {
        counts: BlobCounts {
            nodes: t[0],
            base_consts: t[1],
            ext_consts: t[2],
            roots: t[3],
            num_base: t[4],
            base_slots: t[5],
            ext_slots: t[6],
        },
        nodes: words32(&file[..n]),
        base_consts: below_p(&words64(&file[n..n + b])),
        ext_consts: below_p(&words64(&file[n + b..n + b + x])),
        roots: words32(&file[n + b + x..body]),
    })
}

/// The counts, no larger than the tables: a plain writer has no words past them. Slots are few enough to lend.
pub fn fitting(blob: &BlobWords) -> BlobCounts {
    let counts = &blob.counts;
    BlobCounts {
        nodes: counts.nodes.min(blob.nodes.len() as u32 / 4),
        base_consts: counts.base_consts.min(blob.base_consts.len() as u32),
        ext_consts: counts.ext_consts.min(blob.ext_consts.len() as u32 / 3),
        roots: counts.roots.min(blob.roots.len() as u32),
        num_base: counts.num_base,
        base_slots: counts.base_slots.min(1_000),
        ext_slots: counts.ext_slots.min(1_000),
    }
}

/// Cuts or lengthens a file, or changes a word of its trailer.
pub fn change_file(random: &mut Random, file: &mut Vec<u8>) {
    match random.below(3) {
        0 => {
            let len = random.below(file.len() + 1);
            file.truncate(len);
        }
        1 => file.extend((0..1 + random.below(40)).map(|at| at as u8)),
        _ => {
            let at = file.len() - 32 + 4 * random.pick(&[0, 1, 2, 3, 7]);
            let word = random.pick(&hostile_words());
            file[at..at + 4].copy_from_slice(&word.to_le_bytes());
        }
    }
}

/// Words that a room holds on entry.
pub fn fresh32(random: &mut Random, len: usize) -> Vec<u32> {
    (0..len).map(|_| random.uniform() as u32).collect()
}

pub fn fresh64(random: &mut Random, len: usize) -> Vec<u64> {
    (0..len).map(|_| random.uniform()).collect()
}

/// Words at the front of a room that has so many.
pub fn put<T: Copy>(room: &mut [T], words: &[T]) {
    room[..words.len()].copy_from_slice(words);
}

/// Rooms for four tables.
#[derive(Clone, Debug, PartialEq)]
pub struct Four {
    nodes: Vec<u32>,
    base_consts: Vec<u64>,
    ext_consts: Vec<u64>,
    roots: Vec<u32>,
}

impl Four {
    pub fn new(random: &mut Random, lens: [usize; 4], more: usize) -> Self {
        Four {
            nodes: fresh32(random, lens[0] + more),
            base_consts: fresh64(random, lens[1] + more),
            ext_consts: fresh64(random, lens[2] + more),
            roots: fresh32(random, lens[3] + more),
        }
    }

    pub fn lend(&mut self) -> Rooms<'_> {
        Rooms {
            nodes: &mut self.nodes,
            base_consts: &mut self.base_consts,
            ext_consts: &mut self.ext_consts,
            roots: &mut self.roots,
        }
    }

    pub fn lens(&self) -> [usize; 4] {
        [
            self.nodes.len(),
            self.base_consts.len(),
            self.ext_consts.len(),
            self.roots.len(),
        ]
    }

    pub fn size(&self) -> usize {
        self.lens().iter().sum()
    }

    pub fn holds(&self, lens: [usize; 4]) -> bool {
        self.lens().iter().zip(lens).all(|(room, len)| len <= *room)
    }

    /// One word less of room k, where it has any.
    pub fn cut(&mut self, k: usize) {
        match k {
            0 => drop(self.nodes.pop()),
            1 => drop(self.base_consts.pop()),
            2 => drop(self.ext_consts.pop()),
            _ => drop(self.roots.pop()),
        }
    }

    pub fn put(&mut self, nodes: &[u32], base_consts: &[u64], ext_consts: &[u64], roots: &[u32]) {
        put(&mut self.nodes, nodes);
        put(&mut self.base_consts, base_consts);
        put(&mut self.ext_consts, ext_consts);
        put(&mut self.roots, roots);
    }

    /// What reading the file leaves, and the blob or the refusal.
    pub fn read(&mut self, file: &[u8]) -> Result<BlobWords, Refusal> {
        let blob = read_form_a(file).ok_or(Refusal { number: 15, place: 0 })?;
        if !self.holds(blob_lens(&blob)) {
            return Err(Refusal { number: 10, place: 0 });
        }
        self.put(&blob.nodes, &blob.base_consts, &blob.ext_consts, &blob.roots);
        Ok(blob)
    }

    /// The same in allocations of exactly its lengths.
    pub fn exact(mut self) -> Self {
        self.nodes.shrink_to_fit();
        self.base_consts.shrink_to_fit();
        self.ext_consts.shrink_to_fit();
        self.roots.shrink_to_fit();
        self
    }
}

pub fn blob_lens(blob: &BlobWords) -> [usize; 4] {
    [
        blob.nodes.len(),
        blob.base_consts.len(),
        blob.ext_consts.len(),
        blob.roots.len(),
    ]
}

/// What a file's rooms have to hold: the blob's words, or some where it is none.
pub fn lens_for(file: &[u8]) -> [usize; 4] {
    read_form_a(file).map_or([9, 3, 6, 2], |blob| blob_lens(&blob))
}
