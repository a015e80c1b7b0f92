//! Check and walk of stored files, against the plain reader and the calls on words.

use host::lent::blob::{Written, check_blob, walk};
use host::lent::bytes::{FrameBytes, FrameRooms, WrittenBytes, check_stored, walk_stored};
use host::lent::lower::Rooms;

use super::{Four, and_some, bytes64, fresh64, lens_for, number, put, refusal, words64};
use crate::Score;
use crate::blobs::{BlobWords, Lengths};
use crate::inputs::Random;
use crate::plain::program::shape_fits;
use crate::programs::Cells;
use crate::programs::compare::Answer;

pub fn compare_check(score: &mut Score, cells: &Cells, file: &[u8], mut rooms: Four, mut marks: Vec<u8>) -> u8 {
    let (mut plain_rooms, mut plain_marks, kept) = (rooms.clone(), marks.clone(), file.to_vec());
    score.words += (rooms.size() + marks.len()) as u64;
    let ours = check_stored(file, &cells.shape, rooms.lend(), &mut marks);
    let plain = plain_rooms
        .read(file)
        .and_then(|blob| check_blob(&blob.lend(), &cells.shape, &mut plain_marks));
    assert_eq!(ours, plain, "check, {file:?}");
    assert_eq!((rooms, marks), (plain_rooms, plain_marks), "check, {file:?}");
    assert_eq!(file, kept);
    score.answered(&ours);
    number(ours)
}

/// All that a walk is lent besides the file and its rooms.
#[derive(Clone, Debug, PartialEq)]
pub struct Lent {
    /// Main cells, aux cells, challenges, alpha powers, base evals, extension evals.
    pub tables: [Vec<u8>; 6],
    pub words: [Vec<u64>; 6],
    pub marks: Vec<u8>,
    pub slots: Vec<u64>,
}

impl Lent {
    pub fn new(random: &mut Random, blob: &BlobWords, cells: &Cells) -> Self {
        let lens = Lengths::of(&blob.counts).and_more(random.below(3));
        let words = [
            cells.main.clone(),
            cells.aux.clone(),
            cells.challenges.clone(),
            cells.alphas.clone(),
            random.words(lens.base_evals),
            random.words(lens.ext_evals),
        ];
        let more = random.below(3);
        Lent {
            tables: words.clone().map(|words| and_some(random, bytes64(&words), 8)),
            words: words.map(|words| fresh64(random, words.len() + more)),
            marks: vec![9; lens.bytes],
            slots: fresh64(random, lens.slots),
        }
    }

    /// How many words and bytes are lent.
    fn size(&self) -> usize {
        let tables: usize = self.tables.iter().map(Vec::len).sum();
        let words: usize = self.words.iter().map(Vec::len).sum();
        tables + words + self.marks.len() + self.slots.len()
    }

    fn call(&mut self, cells: &Cells, file: &[u8], rooms: Rooms) -> Answer {
        let [main, aux, challenges, alphas, base_evals, ext_evals] = &mut self.tables;
        let [main_w, aux_w, challenges_w, alphas_w, base_w, ext_w] = &mut self.words;
        walk_stored(
            file,
            &FrameBytes {
                shape: cells.shape,
                main,
                aux,
                challenges,
                alphas,
                table_offset: cells.table_offset,
            },
            WrittenBytes {
                base_evals,
                ext_evals,
                bytes: &mut self.marks,
                slots: &mut self.slots,
            },
            rooms,
            FrameRooms {
                main: main_w,
                aux: aux_w,
                challenges: challenges_w,
                alphas: alphas_w,
                base_evals: base_w,
                ext_evals: ext_w,
            },
        )
    }

    /// The same by the call on words.
    fn plain(&mut self, cells: &Cells, blob: &BlobWords) -> Answer {
        shape_fits(&cells.shape)?;
        let mut words = self.tables.clone().map(|bytes| words64(&bytes));
        for (room, words) in self.words.iter().zip(&words) {
            if room.len() < words.len() {
                return refusal(1);
            }
        }
        let [main, aux, challenges, alphas, base_evals, ext_evals] = &mut words;
        let frame = Cells {
            shape: cells.shape,
            main: main.clone(),
            aux: aux.clone(),
            challenges: challenges.clone(),
            alphas: alphas.clone(),
            table_offset: cells.table_offset,
        };
        let answer = walk(
            &blob.lend(),
            &frame.lend(),
            Written {
                base_evals,
                ext_evals,
                bytes: &mut self.marks,
                slots: &mut self.slots,
            },
        );
        for (k, words) in words.iter().enumerate() {
            put(&mut self.words[k], words);
            if answer.is_ok() {
                put(&mut self.tables[k], &bytes64(words));
            }
        }
        answer
    }
}

pub fn compare_walk(score: &mut Score, cells: &Cells, file: &[u8], mut rooms: Four, mut lent: Lent) -> u8 {
    let (mut plain_rooms, mut plain_lent) = (rooms.clone(), lent.clone());
    score.words += (rooms.size() + lent.size()) as u64;
    let ours = lent.call(cells, file, rooms.lend());
    let plain = plain_rooms.read(file).and_then(|blob| plain_lent.plain(cells, &blob));
    assert_eq!(ours, plain, "walk, {file:?}");
    assert_eq!((rooms, lent), (plain_rooms, plain_lent), "walk, {file:?}");
    score.answered(&ours);
    number(ours)
}

/// Both calls on one file, with rooms of all lengths that matter.
pub fn compare_file(score: &mut Score, random: &mut Random, blob: &BlobWords, cells: &Cells, file: &[u8]) {
    let more = random.below(3);
    let rooms = Four::new(random, lens_for(file), more);
    let lent = Lent::new(random, blob, cells);
    compare_check(score, cells, file, rooms.clone(), lent.marks.clone());
    compare_walk(score, cells, file, rooms, lent);
}
