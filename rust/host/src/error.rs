//! What a call answers other than "done".

use std::fmt;

/// A call's answer other than "done", as the library gives it: a number and a place.
///
/// Whatever was lent is as it was, but for the bytes that calls on blobs borrow, the lists that lowering borrows and the
/// rooms of calls on bytes.
#[derive(Clone, Copy, Debug, PartialEq, Eq)]
pub struct Refusal {
    /// The reason's number: [`Error::number`] of the error that it stands for.
    pub number: u8,
    /// The node or root that the reason names, 0 where it names none.
    pub place: u64,
}

/// Reads a call's answer: 0 for "done", else the number of a refusal and 256 times its place.
#[inline]
pub(crate) fn done(answer: u64) -> Result<(), Refusal> {
    if answer == 0 {
        return Ok(());
    }
    let number = (answer % 256) as u8;
    // No answer has a place and no number, so one would mean that the archive is not the one that this crate is for.
    // Going on would be worse than stopping.
    assert!(number != 0, "the static library gives no place without a number");
    Err(Refusal {
        number,
        place: answer / 256,
    })
}

/// Why a call was refused. Each variant is one number of the scope document; where it names a place, the variant has it.
#[derive(Clone, Copy, Debug, PartialEq, Eq, Hash)]
#[non_exhaustive]
pub enum Error {
    /// 1: lent memory is shorter than counts or shape need.
    ShortMemory,
    /// 2: an index or a main width over its limit, or a shape over 256 steps or 65,536 of anything else.
    OverLimit,
    /// 3: a handle whose id is not below the node count, or whose dim is not that node's.
    NoSuchHandle,
    /// 4: a new node, and none fits.
    NodesFull,
    /// 5: a new constant, and its table is full.
    ConstantsFull,
    /// 6: a constraint number at or past the root room or the root count.
    NoSuchConstraint,
    /// 7: the program is not well-formed.
    IllFormed {
        /// The lowest node at fault, else the lowest root.
        place: u64,
    },
    /// 8: the node count or a constant count is over 536,870,911.
    TooManyNodes,
    /// 9: `num_base` or the root count is over 4,294,967,295.
    TooManyRoots,
    /// 10: the output room is too short, or a stored body is over 4,294,967,295 words.
    ShortOutput,
    /// 11: the blob is illegal for the shape.
    IllegalBlob {
        /// The lowest node at fault, else the lowest root.
        place: u64,
    },
    /// 12: a root that has to be base is an extension value.
    ExtensionRoot {
        /// The lowest such root, or the one that was asked for.
        place: u64,
    },
    /// 13: a leaf is outside the frame.
    OutsideFrame {
        /// The lowest such node, read or not.
        place: u64,
    },
    /// 14: eval buffers are too short.
    ShortEvals,
    /// 15: a stored form is under 32 bytes, or its distance or length is not as its counts say.
    NotStored,
}

impl Error {
    /// The scope document's number for this reason.
    pub fn number(&self) -> u8 {
        match self {
            Error::ShortMemory => 1,
            Error::OverLimit => 2,
            Error::NoSuchHandle => 3,
            Error::NodesFull => 4,
            Error::ConstantsFull => 5,
            Error::NoSuchConstraint => 6,
            Error::IllFormed { .. } => 7,
            Error::TooManyNodes => 8,
            Error::TooManyRoots => 9,
            Error::ShortOutput => 10,
            Error::IllegalBlob { .. } => 11,
            Error::ExtensionRoot { .. } => 12,
            Error::OutsideFrame { .. } => 13,
            Error::ShortEvals => 14,
            Error::NotStored => 15,
        }
    }

    /// The node or root that the reason names, if it names one.
    pub fn place(&self) -> Option<u64> {
        match self {
            Error::IllFormed { place }
            | Error::IllegalBlob { place }
            | Error::ExtensionRoot { place }
            | Error::OutsideFrame { place } => Some(*place),
            _ => None,
        }
    }

    fn reason(&self) -> &'static str {
        match self {
            Error::ShortMemory => "lent memory is too short",
            Error::OverLimit => "an index or a shape is over its limit",
            Error::NoSuchHandle => "there is no such handle",
            Error::NodesFull => "no further node fits",
            Error::ConstantsFull => "no further constant fits",
            Error::NoSuchConstraint => "there is no such constraint",
            Error::IllFormed { .. } => "the program is not well-formed",
            Error::TooManyNodes => "there are too many nodes or constants",
            Error::TooManyRoots => "there are too many roots",
            Error::ShortOutput => "the output room is too short",
            Error::IllegalBlob { .. } => "the blob is illegal for this shape",
            Error::ExtensionRoot { .. } => "a root that has to be base is an extension value",
            Error::OutsideFrame { .. } => "a leaf is outside the frame",
            Error::ShortEvals => "eval buffers are too short",
            Error::NotStored => "this is no stored blob",
        }
    }
}

impl From<Refusal> for Error {
    fn from(Refusal { number, place }: Refusal) -> Self {
        match number {
            1 => Error::ShortMemory,
            2 => Error::OverLimit,
            3 => Error::NoSuchHandle,
            4 => Error::NodesFull,
            5 => Error::ConstantsFull,
            6 => Error::NoSuchConstraint,
            7 => Error::IllFormed { place },
            8 => Error::TooManyNodes,
            9 => Error::TooManyRoots,
            10 => Error::ShortOutput,
            11 => Error::IllegalBlob { place },
            12 => Error::ExtensionRoot { place },
            13 => Error::OutsideFrame { place },
            14 => Error::ShortEvals,
            15 => Error::NotStored,
            // As in `done`: the archive is not the one that this crate is for.
            _ => panic!("the static library gives no number {number}"),
        }
    }
}

impl fmt::Display for Error {
    fn fmt(&self, f: &mut fmt::Formatter<'_>) -> fmt::Result {
        write!(f, "refused {}: {}", self.number(), self.reason())?;
        match self.place() {
            Some(place) => write!(f, ", place {place}"),
            None => Ok(()),
        }
    }
}

impl std::error::Error for Error {}
