//! Stored form A over lent memory: a blob written, a file read, and its listing. [`bytes`](super::bytes) says what the form is.

use super::blob::{Blob, BlobCounts};
use super::call;
use super::lower::Rooms;
use crate::error::{Refusal, done};

/// The bytes that [`list_stored`] asks for: the listing of the longest file fits.
pub const LISTING_ROOM: usize = 524_288;

/// Writes the blob in form A at the front of `file` and its length into `length`; constants are put below p. Refusals: 1 where a
/// table is shorter than the counts say, then 10 where `file` is too short; then nothing is written.
pub fn write_stored(blob: &Blob, file: &mut [u8], length: &mut u64) -> Result<(), Refusal> {
    done(call!(cir_write_stored: blob_counts blob.counts, tables u32 u64 blob, write u8 file, out u64 length,))
}

/// Reads a file in form A to the front of the rooms, and its counts into `counts`; constants are put below p, and only the framing
/// is judged. Refusals: 15, then 10 where a room is too short; then nothing is written.
pub fn read_stored(file: &[u8], rooms: Rooms, counts: &mut BlobCounts) -> Result<(), Refusal> {
    done(call!(
        cir_read_stored:
        read u8 file,
        rooms rooms,
        out u32 &mut counts.nodes,
        out u32 &mut counts.base_consts,
        out u32 &mut counts.ext_consts,
        out u32 &mut counts.roots,
        out u32 &mut counts.num_base,
        out u32 &mut counts.base_slots,
        out u32 &mut counts.ext_slots,
    ))
}

/// Writes what the program `blob-list` prints of a file to the front of `out`, and its length into `length`: the listing, or one line
/// `refused` and the number. Refusal: 10 where `out` has less than [`LISTING_ROOM`] bytes, with nothing written.
pub fn list_stored(file: &[u8], out: &mut [u8], length: &mut u64) -> Result<(), Refusal> {
    done(call!(cir_list_stored: read u8 file, write u8 out, out u64 length,))
}
