//! Blobs of the published Rust and ours, each as the other, and the published walk on plain words.

use stark::constraint_ir::device::{DeviceNode, DeviceProgram, RES_EXT_BIT, eval_device_program};

use super::BlobWords;
use crate::Limbs;
use crate::programs::Cells;
use crate::programs::published::Published;
use host::lent::blob::BlobCounts;

fn triples(words: &[u64]) -> Vec<Limbs> {
    let triples = words.chunks_exact(3);
    triples.map(|words| [words[0], words[1], words[2]]).collect()
}

/// A program lowered by the published Rust, in our words.
pub fn lower(program: &Published) -> BlobWords {
    words(&DeviceProgram::lower(program))
}

pub fn words(device: &DeviceProgram) -> BlobWords {
    let counts = BlobCounts {
        nodes: device.nodes.len() as u32,
        base_consts: device.base_consts.len() as u32,
        ext_consts: device.ext_consts.len() as u32,
        roots: device.roots.len() as u32,
        num_base: device.num_base,
        base_slots: device.num_base_slots,
        ext_slots: device.num_ext_slots,
    };
    BlobWords {
        counts,
        nodes: device
            .nodes
            .iter()
            .flat_map(|node| [node.op, node.a, node.b, node.res])
            .collect(),
        base_consts: device.base_consts.clone(),
        ext_consts: device.ext_consts.concat(),
        roots: device.roots.clone(),
    }
}

/// A blob of ours as a published one. Words past the counts are left out.
pub fn device(words: &BlobWords) -> DeviceProgram {
    let counts = &words.counts;
    let nodes = words.nodes.chunks_exact(4).take(counts.nodes as usize);
    DeviceProgram {
        nodes: nodes
            .map(|node| DeviceNode {
                op: node[0],
                a: node[1],
                b: node[2],
                res: node[3],
            })
            .collect(),
        base_consts: words.base_consts[..counts.base_consts as usize].to_vec(),
        ext_consts: triples(&words.ext_consts[..3 * counts.ext_consts as usize]),
        roots: words.roots[..counts.roots as usize].to_vec(),
        num_base: counts.num_base,
        num_base_slots: counts.base_slots,
        num_ext_slots: counts.ext_slots,
    }
}

/// A frame as the published walk has it, without words past the shape.
pub struct DeviceFrame {
    pub main: Vec<Vec<u64>>,
    pub aux: Vec<Vec<Limbs>>,
    pub challenges: Vec<Limbs>,
    pub alphas: Vec<Limbs>,
    pub table_offset: Limbs,
}

impl DeviceFrame {
    pub fn new(cells: &Cells) -> Self {
        let shape = &cells.shape;
        let main = |step| cells.main[shape.main_width * step..][..shape.main_width].to_vec();
        let aux = |step| triples(&cells.aux[3 * shape.aux_width * step..][..3 * shape.aux_width]);
        DeviceFrame {
            main: (0..shape.steps).map(main).collect(),
            aux: (0..shape.steps).map(aux).collect(),
            challenges: triples(&cells.challenges[..3 * shape.challenges]),
            alphas: triples(&cells.alphas[..3 * shape.alphas]),
            table_offset: cells.table_offset,
        }
    }

    /// The published walk.
    pub fn walk(&self, device: &DeviceProgram, base_evals: &mut [u64], ext_evals: &mut [Limbs]) {
        eval_device_program(
            device,
            &self.main,
            &self.aux,
            &self.challenges,
            &self.alphas,
            self.table_offset,
            base_evals,
            ext_evals,
        );
    }

    /// The two slices after the published walk had them. Words of `ext_evals` after the last triple stay.
    pub fn evals(&self, device: &DeviceProgram, base_evals: &[u64], ext_evals: &[u64]) -> (Vec<u64>, Vec<u64>) {
        let (mut base, mut ext) = (base_evals.to_vec(), triples(ext_evals));
        self.walk(device, &mut base, &mut ext);
        let mut ext = ext.concat();
        ext.extend(&ext_evals[ext.len()..]);
        (base, ext)
    }

    /// The final slots: one word a base slot, then three words an extension slot. The published walk shows roots only, so
    /// each slot is made one.
    pub fn slots(&self, device: &DeviceProgram) -> Vec<u64> {
        let bases = device.num_base_slots;
        let device = DeviceProgram {
            roots: (0..bases)
                .chain((0..device.num_ext_slots).map(|slot| slot | RES_EXT_BIT))
                .collect(),
            num_base: bases,
            ..device.clone()
        };
        let mut base = vec![0; bases as usize];
        let mut ext = vec![[0; 3]; device.roots.len()];
        self.walk(&device, &mut base, &mut ext);
        base.extend(ext[bases as usize..].concat());
        base
    }
}
