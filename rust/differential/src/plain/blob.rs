//! The blob check and the walk as the scope document words them, written from its text and from neither side's code. What
//! a word means is worked out first; slots are names, and a name has a value once a node gave it one.

use std::collections::{BTreeMap, BTreeSet};

use super::program::{Answer, frame_short, refuse_at_lowest, refuse_if, shape_fits, short};
use super::{ext_add, ext_mul, ext_neg, ext_sub};
use crate::{Limbs, P};
use host::Refusal;
use host::lent::blob::{Blob, BlobCounts, Written};
use host::lent::program::{Frame, Shape};

pub(super) const BIT_31: u32 = 1 << 31;

/// A slot: whether it is an extension slot, and which one.
#[derive(Clone, Copy, PartialEq, Eq, PartialOrd, Ord)]
pub(super) struct Slot {
    pub(super) extension: bool,
    pub(super) number: u32,
}

impl Slot {
    /// What a result or a root names, if there is such a slot.
    fn named(word: u32, counts: &BlobCounts) -> Option<Self> {
        let slot = Slot {
            extension: word & BIT_31 != 0,
            number: word & !BIT_31,
        };
        slot.exists(counts).then_some(slot)
    }

    fn exists(self, counts: &BlobCounts) -> bool {
        let count = if self.extension {
            counts.ext_slots
        } else {
            counts.base_slots
        };
        self.number < count
    }
}

/// What an operand or a leaf stands for.
#[derive(Clone, Copy)]
enum Source {
    Filled(Slot),
    BaseConstant(u32),
    ExtConstant(u32),
    Main { step: u32, column: u32 },
    Aux { step: u32, column: u32 },
    Challenge(u32),
    Alpha(u32),
    TableOffset,
}

use Source::{Alpha, Aux, BaseConstant, Challenge, ExtConstant, Filled, Main, TableOffset};

impl Source {
    fn is_extension(self) -> bool {
        match self {
            Filled(slot) => slot.extension,
            BaseConstant(_) | Main { .. } => false,
            ExtConstant(_) | Aux { .. } | Challenge(_) | Alpha(_) | TableOffset => true,
        }
    }

    /// Whether it is inside the tables and the frame. Whether a slot was filled is not asked here.
    fn is_there(self, counts: &BlobCounts, shape: &Shape) -> bool {
        let cell = |step: u32, column: u32, width: usize| (step as usize) < shape.steps && (column as usize) < width;
        match self {
            Filled(slot) => slot.exists(counts),
            BaseConstant(index) => index < counts.base_consts,
            ExtConstant(index) => index < counts.ext_consts,
            Main { step, column } => cell(step, column, shape.main_width),
            Aux { step, column } => cell(step, column, shape.aux_width),
            Challenge(index) => (index as usize) < shape.challenges,
            Alpha(index) => (index as usize) < shape.alphas,
            TableOffset => true,
        }
    }

    /// What an operand word stands for, if it has a kind.
    fn operand(word: u32) -> Option<Self> {
        const PAYLOADS: u32 = 1 << 29;
        let payload = word % PAYLOADS;
        let slot = |extension| {
            Filled(Slot {
                extension,
                number: payload,
            })
        };
        match word / PAYLOADS {
            0 => Some(slot(false)),
            1 => Some(slot(true)),
            2 => Some(BaseConstant(payload)),
            3 => Some(ExtConstant(payload)),
            4 => Some(Challenge(payload)),
            5 => Some(Alpha(payload)),
            6 if payload == 0 => Some(TableOffset),
            _ => None,
        }
    }
}

/// What a node does with what it reads.
#[derive(Clone, Copy)]
enum Deed {
    /// A leaf, or Embed.
    Take(Source),
    Add(Source, Source),
    Sub(Source, Source),
    Mul(Source, Source),
    Neg(Source),
}

use Deed::{Add, Mul, Neg, Sub, Take};

impl Deed {
    fn reads(self) -> Vec<Source> {
        match self {
            Take(a) | Neg(a) => vec![a],
            Add(a, b) | Sub(a, b) | Mul(a, b) => vec![a, b],
        }
    }
}

struct Step {
    deed: Deed,
    result: Slot,
}

/// The step that four words stand for after nodes that filled these slots, if it is legal there.
fn step(words: &[u32], filled: &BTreeSet<Slot>, counts: &BlobCounts, shape: &Shape) -> Option<Step> {
    let [tag, a, b, res] = *words else {
        unreachable!("a node is four words")
    };
    let (first, second) = (Source::operand(a), Source::operand(b));
    // The deed, the class of the result where it is fixed, and the words without a use.
    let (deed, class, unused) = match tag {
        0 => (Take(BaseConstant(a)), Some(false), [b, 0]),
        1 => (Take(ExtConstant(a)), Some(true), [b, 0]),
        2 => {
            // a: the column in 16 bits. b: main at bit 16, the step in bits 8 to 15, the row in bits 0 to 7.
            let (column, step, row) = (a & 0xFFFF, b >> 8 & 0xFF, b & 0xFF);
            let (spare, main) = (a >> 16 | b >> 17, b >> 16 & 1 == 1);
            let cell = if main {
                Main { step, column }
            } else {
                Aux { step, column }
            };
            (Take(cell), Some(!main), [spare, row])
        }
        3 => (Take(Challenge(a)), Some(true), [b, 0]),
        4 => (Take(Alpha(a)), Some(true), [b, 0]),
        5 => (Take(TableOffset), Some(true), [a, b]),
        6 => (Add(first?, second?), None, [0, 0]),
        7 => (Sub(first?, second?), None, [0, 0]),
        8 => (Mul(first?, second?), None, [0, 0]),
        9 => (Neg(first?), None, [b, 0]),
        10 => (Take(first?), Some(true), [b, 0]),
        _ => return None,
    };
    let result = Slot::named(res, counts)?;
    let reads_are_legal = deed.reads().iter().all(|source| {
        let was_filled = match source {
            Filled(slot) => filled.contains(slot),
            _ => true,
        };
        source.is_there(counts, shape) && was_filled && (result.extension || !source.is_extension())
    });
    let legal = unused == [0, 0] && class.is_none_or(|class| class == result.extension) && reads_are_legal;
    legal.then_some(Step { deed, result })
}

/// A legal blob.
struct Legal {
    steps: Vec<Step>,
    roots: Vec<Slot>,
}

/// 11, then 12, or what the blob says. The lent words hold what the counts say.
fn legal(blob: &Blob, shape: &Shape) -> Result<Legal, Refusal> {
    let counts = &blob.counts;
    let nodes = blob.nodes.chunks_exact(4).take(counts.nodes as usize);
    let words = blob.roots.iter().take(counts.roots as usize);
    let mut filled = BTreeSet::new();
    let mut steps = Vec::new();
    refuse_at_lowest(
        11,
        nodes.map(|words| match step(words, &filled, counts, shape) {
            Some(step) => {
                filled.insert(step.result);
                steps.push(step);
                false
            }
            None => true,
        }),
    )?;
    let mut roots = Vec::new();
    refuse_at_lowest(
        11,
        words.map(|word| match Slot::named(*word, counts) {
            Some(slot) if filled.contains(&slot) => {
                roots.push(slot);
                false
            }
            _ => true,
        }),
    )?;
    let leading = roots.iter().take(counts.num_base as usize);
    refuse_at_lowest(12, leading.map(|slot| slot.extension))?;
    Ok(Legal { steps, roots })
}

/// Whether what the check is lent is shorter than the counts need.
fn check_short(blob: &Blob, bytes: &[u8]) -> bool {
    let counts = &blob.counts;
    short(blob.nodes.len(), &[4, counts.nodes as usize])
        || short(blob.roots.len(), &[counts.roots as usize])
        || bytes.len() < counts.bytes()
}

fn clear(bytes: &mut [u8], counts: &BlobCounts) {
    bytes[..counts.bytes()].fill(0);
}

pub fn check_blob(blob: &Blob, shape: &Shape, bytes: &mut [u8]) -> Answer {
    shape_fits(shape)?;
    refuse_if(1, check_short(blob, bytes))?;
    clear(bytes, &blob.counts);
    legal(blob, shape).map(drop)
}

/// The value of a source, below p.
fn value(source: Source, blob: &Blob, frame: &Frame, slots: &BTreeMap<Slot, Limbs>) -> Limbs {
    let base = |words: &[u64], at: usize| [words[at] % P, 0, 0];
    let ext = |words: &[u64], at: usize| [words[3 * at] % P, words[3 * at + 1] % P, words[3 * at + 2] % P];
    let cell = |step: u32, column: u32, width: usize| step as usize * width + column as usize;
    match source {
        Filled(slot) => slots[&slot],
        BaseConstant(index) => base(blob.base_consts, index as usize),
        ExtConstant(index) => ext(blob.ext_consts, index as usize),
        Main { step, column } => base(frame.main, cell(step, column, frame.shape.main_width)),
        Aux { step, column } => ext(frame.aux, cell(step, column, frame.shape.aux_width)),
        Challenge(index) => ext(frame.challenges, index as usize),
        Alpha(index) => ext(frame.alphas, index as usize),
        TableOffset => ext(&frame.table_offset, 0),
    }
}

pub fn walk(blob: &Blob, frame: &Frame, written: Written) -> Answer {
    let Written {
        base_evals,
        ext_evals,
        bytes,
        slots,
    } = written;
    let counts = &blob.counts;
    shape_fits(&frame.shape)?;
    refuse_if(
        1,
        check_short(blob, bytes)
            || short(blob.base_consts.len(), &[counts.base_consts as usize])
            || short(blob.ext_consts.len(), &[3, counts.ext_consts as usize])
            || frame_short(frame, 1)
            || slots.len() < counts.slot_words(),
    )?;
    let (num_base, root_count) = (counts.num_base as usize, counts.roots as usize);
    refuse_if(
        14,
        base_evals.len() < num_base.min(root_count)
            || num_base < root_count && short(ext_evals.len(), &[3, root_count]),
    )?;
    clear(bytes, counts);
    let Legal { steps, roots } = legal(blob, &frame.shape)?;

    let mut values: BTreeMap<Slot, Limbs> = BTreeMap::new();
    for Step { deed, result } in steps {
        let of = |source| value(source, blob, frame, &values);
        let limbs = match deed {
            Take(a) => of(a),
            Add(a, b) => ext_add(of(a), of(b)),
            Sub(a, b) => ext_sub(of(a), of(b)),
            Mul(a, b) => ext_mul(of(a), of(b)),
            Neg(a) => ext_neg(of(a)),
        };
        assert!(
            result.extension || limbs[1..] == [0, 0],
            "base values stay among themselves"
        );
        values.insert(result, limbs);
    }

    for (c, root) in roots.iter().enumerate() {
        let limbs = values[root];
        if c < num_base {
            base_evals[c] = limbs[0];
        } else {
            ext_evals[3 * c..3 * c + 3].copy_from_slice(&limbs);
        }
    }
    slots[..counts.slot_words()].fill(0);
    for (slot, limbs) in values {
        let number = slot.number as usize;
        if slot.extension {
            let at = counts.base_slots as usize + 3 * number;
            slots[at..at + 3].copy_from_slice(&limbs);
        } else {
            slots[number] = limbs[0];
        }
    }
    Ok(())
}
