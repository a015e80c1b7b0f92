//! Check, lowering and walk over bytes: programs, frames and evals as little-endian words, blobs in stored form A. The
//! words go into rooms that are lent beside the bytes. A caller that has its words at hand calls [`blob`](super::blob).
//!
//! A blob in form A is its nodes (16 bytes each), base constants (8), extension constants (24) and roots (4), then eight
//! words of four bytes: the seven counts of [`BlobCounts`](super::blob::BlobCounts) and the distance back to the first byte
//! in words of four bytes. Constants are put below p in writing and in reading.
//!
//! Bytes hold as many words as are whole; the one to seven bytes that are left over are neither read nor written.

use super::blob::Written;
use super::call;
use super::lower::{Lists, Rooms};
use super::program::{Frame, Program, Shape};
use crate::error::{Refusal, done};

/// A program in lent bytes.
pub type ProgramBytes<'a> = Program<'a, u8, u8>;

/// A frame in lent bytes, a main cell one word.
pub type FrameBytes<'a> = Frame<'a, u8>;

/// What a walk over bytes writes besides the rooms: eight bytes a word of the evals.
pub type WrittenBytes<'a> = Written<'a, u8>;

/// Reads a blob into `rooms` and says whether it may be walked over a frame of this shape. Refusals: 15 where the file's
/// trailer does not fit it and 10 where a room is too short, with nothing written; then those of
/// [`check_blob`](super::blob::check_blob).
pub fn check_stored(file: &[u8], shape: &Shape, rooms: Rooms, bytes: &mut [u8]) -> Result<(), Refusal> {
    done(call!(cir_check_stored: shape shape, read u8 file, rooms rooms, write u8 bytes,))
}

/// Unpacks the program into `words`, lowers it into `blob` and writes that at the front of `file`. Gives the file's length.
///
/// Refusals: 1 where a room of `words` is shorter than its table, with nothing written; 8, 9, 1, 7, 10 of lowering; 10
/// where `file` is too short, which is left as it was.
pub fn lower_stored(
    program: &ProgramBytes,
    words: Rooms,
    lists: Lists,
    blob: Rooms,
    file: &mut [u8],
) -> Result<usize, Refusal> {
    let mut length = 0;
    lower_stored_into(program, words, lists, blob, file, &mut length)?;
    Ok(length as usize)
}

/// As [`lower_stored`], with the word for the length lent too, as the library has it.
pub fn lower_stored_into(
    program: &ProgramBytes,
    words: Rooms,
    lists: Lists,
    blob: Rooms,
    file: &mut [u8],
    length: &mut u64,
) -> Result<(), Refusal> {
    done(call!(
        cir_lower_stored:
        counts program.counts,
        tables u8 u8 program,
        rooms words,
        lists lists,
        rooms blob,
        write u8 file,
        out u64 length,
    ))
}

/// Rooms for the words of a frame and of the evals, each as long as the whole words of its bytes at the least.
#[derive(Debug)]
pub struct FrameRooms<'a> {
    /// For the main cells.
    pub main: &'a mut [u64],
    /// For the aux cells.
    pub aux: &'a mut [u64],
    /// For the challenges.
    pub challenges: &'a mut [u64],
    /// For the alpha powers.
    pub alphas: &'a mut [u64],
    /// For the base evals.
    pub base_evals: &'a mut [u64],
    /// For the extension evals.
    pub ext_evals: &'a mut [u64],
}

/// Reads a blob into `rooms` and walks it over a frame, as [`walk`](super::blob::walk) does over words. The evals change on
/// "done" alone.
///
/// Refusals: 15 and 10 of reading, 1 where a room of `words` is shorter than its bytes, each with nothing written but what
/// was read; then those of the walk: 2, 1, 14, 11, 12.
pub fn walk_stored(
    file: &[u8],
    frame: &FrameBytes,
    written: WrittenBytes,
    rooms: Rooms,
    words: FrameRooms,
) -> Result<(), Refusal> {
    done(call!(
        cir_walk_stored:
        shape frame.shape,
        offset frame.table_offset,
        read u8 file,
        cells u8 frame,
        write u8 written.base_evals,
        write u8 written.ext_evals,
        rooms rooms,
        write u64 words.main,
        write u64 words.aux,
        write u64 words.challenges,
        write u64 words.alphas,
        write u64 words.base_evals,
        write u64 words.ext_evals,
        write u8 written.bytes,
        write u64 written.slots,
    ))
}
