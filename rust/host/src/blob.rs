//! Blobs that own their words and their stored form.

use crate::lent::blob::{self as lent, BlobCounts, Written};
use crate::lent::lower::Rooms;
use crate::lent::stored;
use crate::{Error, Ext, Frame, Shape, Value};

/// Words of a stored form's trailer.
const TRAILER: usize = 8;

/// Four tables, as rooms that a call fills.
#[derive(Clone, Debug, PartialEq, Eq)]
pub(crate) struct Tables {
    nodes: Vec<[u32; 4]>,
    base_consts: Vec<u64>,
    ext_consts: Vec<Ext>,
    roots: Vec<u32>,
}

impl Tables {
    pub(crate) fn new(nodes: usize, base_consts: usize, ext_consts: usize, roots: usize) -> Self {
        Tables {
            nodes: vec![[0; 4]; nodes],
            base_consts: vec![0; base_consts],
            ext_consts: vec![[0; 3]; ext_consts],
            roots: vec![0; roots],
        }
    }

    pub(crate) fn lend_mut(&mut self) -> Rooms<'_> {
        Rooms {
            nodes: self.nodes.as_flattened_mut(),
            base_consts: &mut self.base_consts,
            ext_consts: self.ext_consts.as_flattened_mut(),
            roots: &mut self.roots,
        }
    }

    /// Bytes of these tables in stored form A.
    pub(crate) fn stored_len(&self) -> usize {
        16 * self.nodes.len()
            + 8 * self.base_consts.len()
            + 24 * self.ext_consts.len()
            + 4 * self.roots.len()
            + 4 * TRAILER
    }
}

/// A lowered program, with its stored form.
///
/// It comes from [`Program::lower`](crate::Program::lower) or from a file; a file may hold any words. What may be walked over
/// frames of a shape is what passes [`check`](Blob::check).
#[derive(Clone, Debug, PartialEq, Eq)]
pub struct Blob {
    file: Vec<u8>,
    counts: BlobCounts,
    tables: Tables,
}

impl Blob {
    /// A blob of a stored form that the library wrote or read, and the tables that it filled.
    pub(crate) fn of(file: Vec<u8>, mut tables: Tables) -> Self {
        let counts = stored_counts(&file).expect("a stored form has a trailer");
        tables.nodes.truncate(counts.nodes as usize);
        Blob { file, counts, tables }
    }

    /// Reads a blob in stored form A. Only the framing is looked at: [`check`](Blob::check) judges the rest.
    ///
    /// # Errors
    ///
    /// [`Error::NotStored`] where the file is under 32 bytes, or its distance or length is not as its counts say.
    pub fn read(file: &[u8]) -> Result<Self, Error> {
        // Counts that say more than the file holds are refused, so rooms need be no longer than that.
        let counts = stored_counts(file).unwrap_or_default();
        let most = |count: u32, bytes: usize| (count as usize).min(file.len() / bytes);
        let mut tables = Tables::new(
            most(counts.nodes, 16),
            most(counts.base_consts, 8),
            most(counts.ext_consts, 24),
            most(counts.roots, 4),
        );
        let mut read = BlobCounts::default();
        stored::read_stored(file, tables.lend_mut(), &mut read)?;
        Ok(Blob::of(file.to_vec(), tables))
    }

    /// The blob in stored form A.
    pub fn stored(&self) -> &[u8] {
        &self.file
    }

    /// How many of each thing the blob has. Those of a file may be any numbers: [`check`](Blob::check) and the walk borrow a
    /// byte and a word or three for every slot.
    pub fn counts(&self) -> BlobCounts {
        self.counts
    }

    /// Op, a, b and res of each node. [`lent::blob`](crate::lent::blob) says what they mean.
    pub fn nodes(&self) -> &[[u32; 4]] {
        &self.tables.nodes
    }

    /// The base constants, each below [`P`](crate::P).
    pub fn base_consts(&self) -> &[u64] {
        &self.tables.base_consts
    }

    /// The extension constants, each limb below [`P`](crate::P).
    pub fn ext_consts(&self) -> &[Ext] {
        &self.tables.ext_consts
    }

    /// The slot of each constraint; bit 31 means an extension slot.
    pub fn roots(&self) -> &[u32] {
        &self.tables.roots
    }

    fn lend(&self) -> lent::Blob<'_> {
        lent::Blob {
            counts: self.counts,
            nodes: self.tables.nodes.as_flattened(),
            base_consts: &self.tables.base_consts,
            ext_consts: self.tables.ext_consts.as_flattened(),
            roots: &self.tables.roots,
        }
    }

    /// Whether the blob may be walked over frames of this shape.
    ///
    /// # Errors
    ///
    /// [`Error::OverLimit`] of the shape; [`Error::IllegalBlob`] with the lowest node at fault, else the lowest root;
    /// [`Error::ExtensionRoot`] where a root below `num_base` is an extension slot.
    pub fn check(&self, shape: &Shape) -> Result<(), Error> {
        lent::check_blob(&self.lend(), shape, &mut vec![0; self.counts.bytes()])?;
        Ok(())
    }

    /// Checks the blob and walks it over one frame: every constraint's value. A [`walker`](Blob::walker) does the same for
    /// many frames without allocating for each.
    ///
    /// # Errors
    ///
    /// Those of [`check`](Blob::check), and [`Error::ShortMemory`] where the frame is shorter than its shape says.
    pub fn walk(&self, frame: &Frame) -> Result<Vec<Value>, Error> {
        Ok(self.walker().walk(frame)?.iter().collect())
    }

    /// The memory for walks of this blob.
    pub fn walker(&self) -> Walker<'_> {
        Walker {
            blob: self,
            evals: EvalRoom::new(self.counts.num_base as usize, self.counts.roots as usize),
            bytes: vec![0; self.counts.bytes()],
            slots: vec![0; self.counts.slot_words()],
        }
    }
}

/// The counts in a file's trailer, if it is long enough to have one.
fn stored_counts(file: &[u8]) -> Option<BlobCounts> {
    let trailer = file.last_chunk::<{ 4 * TRAILER }>()?;
    let word = |at: usize| u32::from_le_bytes(std::array::from_fn(|byte| trailer[4 * at + byte]));
    Some(BlobCounts {
        nodes: word(0),
        base_consts: word(1),
        ext_consts: word(2),
        roots: word(3),
        num_base: word(4),
        base_slots: word(5),
        ext_slots: word(6),
    })
}

/// Walks one blob over frame after frame in the same memory.
#[derive(Clone, Debug)]
pub struct Walker<'a> {
    blob: &'a Blob,
    evals: EvalRoom,
    bytes: Vec<u8>,
    slots: Vec<u64>,
}

impl Walker<'_> {
    /// Checks the blob and walks it over one frame.
    ///
    /// # Errors
    ///
    /// Those of [`Blob::walk`].
    pub fn walk(&mut self, frame: &Frame) -> Result<Evals<'_>, Error> {
        let written = Written {
            base_evals: &mut self.evals.base,
            ext_evals: self.evals.ext.as_flattened_mut(),
            bytes: &mut self.bytes,
            slots: &mut self.slots,
        };
        lent::walk(&self.blob.lend(), &frame.lend(), written)?;
        Ok(self.evals.show())
    }
}

/// Eval buffers as long as constraints need.
#[derive(Clone, Debug)]
pub(crate) struct EvalRoom {
    /// The values of constraints below `num_base`.
    pub(crate) base: Vec<u64>,
    /// All constraints have a place here if one at or past `num_base` is there; those below leave theirs as it was.
    pub(crate) ext: Vec<Ext>,
}

impl EvalRoom {
    pub(crate) fn new(num_base: usize, roots: usize) -> Self {
        EvalRoom {
            base: vec![0; num_base.min(roots)],
            ext: vec![[0; 3]; if num_base < roots { roots } else { 0 }],
        }
    }

    pub(crate) fn show(&self) -> Evals<'_> {
        Evals {
            base: &self.base,
            ext: self.ext.get(self.base.len()..).unwrap_or_default(),
        }
    }
}

/// Every constraint's value at one row.
#[derive(Clone, Copy, Debug, PartialEq, Eq)]
pub struct Evals<'a> {
    base: &'a [u64],
    ext: &'a [Ext],
}

impl<'a> Evals<'a> {
    /// The values of the constraints below `num_base`.
    pub fn base(&self) -> &'a [u64] {
        self.base
    }

    /// The values of the other constraints, the first of which is the one numbered `num_base`.
    pub fn ext(&self) -> &'a [Ext] {
        self.ext
    }

    /// One constraint's value, if there is such a constraint.
    pub fn get(&self, constraint: usize) -> Option<Value> {
        match constraint.checked_sub(self.base.len()) {
            None => Some(Value::Base(self.base[constraint])),
            Some(past) => self.ext.get(past).map(|limbs| Value::Ext(*limbs)),
        }
    }

    /// All values in the order of the constraints.
    pub fn iter(&self) -> impl Iterator<Item = Value> + 'a {
        let base = self.base.iter().map(|word| Value::Base(*word));
        base.chain(self.ext.iter().map(|limbs| Value::Ext(*limbs)))
    }
}
