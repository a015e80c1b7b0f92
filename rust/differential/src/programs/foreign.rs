//! Well-formed programs that no builder makes: words drawn at random, as freely as the rules let them. Equal nodes stand
//! apart, constants are unused or equal to each other, and roots repeat.

use host::lent::program::{Counts, Shape};

use super::Words;
use crate::P;
use crate::inputs::Random;

/// Counts of a small program of at most `most` nodes.
pub fn small_counts(random: &mut Random, most: usize) -> Counts {
    let nodes = random.below(most + 1);
    Counts {
        nodes,
        base_consts: random.below(5),
        ext_consts: random.below(4),
        roots: if nodes == 0 { 0 } else { random.below(9) },
        num_base: 0,
    }
}

/// A well-formed program with these counts but for a fitting `num_base`; without nodes it has no roots. Leaves are mostly
/// inside a frame of this shape: about one in `outside` takes no notice of it.
pub fn well_formed(random: &mut Random, counts: Counts, shape: &Shape, outside: usize) -> Words {
    let mut words = Words {
        counts,
        nodes: Vec::with_capacity(4 * counts.nodes),
        base_consts: constants(random, counts.base_consts),
        ext_consts: constants(random, 3 * counts.ext_consts),
        roots: Vec::new(),
    };
    for id in 0..counts.nodes {
        let node = node(random, &words, id, shape, outside);
        words.nodes.extend(node);
    }
    // Half of the roots are one of a few nodes, so that they repeat.
    let few: Vec<usize> = (0..4).map(|_| random.below(counts.nodes.max(1))).collect();
    for _ in 0..counts.roots {
        let root = if random.once_in(2) {
            random.pick(&few)
        } else {
            random.below(counts.nodes)
        };
        words.roots.push(root as u32);
    }
    words.counts.num_base = words.fitting_num_base(random);
    words
}

/// Words of constants, half of them of a few, so that equal ones meet.
fn constants(random: &mut Random, words: usize) -> Vec<u64> {
    let few = [0, 1, P - 1, P, P + 1];
    let mut word = || {
        if random.once_in(2) {
            random.pick(&few)
        } else {
            random.word()
        }
    };
    (0..words).map(|_| word()).collect()
}

/// The words of node `id`. All nodes before it stand in `words`.
fn node(random: &mut Random, words: &Words, id: usize, shape: &Shape, outside: usize) -> [u32; 4] {
    let free = random.once_in(outside);
    let mut index = |inside: usize, all: usize| random.below(if free { all } else { inside }) as u32;
    // Once more where a tag has nothing to name: a table offset always fits.
    loop {
        let tag = index(11, 11);
        let node = match tag {
            0 if words.counts.base_consts != 0 => {
                let count = words.counts.base_consts;
                [tag, index(count, count), 0, 0]
            }
            1 if words.counts.ext_consts != 0 => {
                let count = words.counts.ext_consts;
                [tag, index(count, count), 0, 1]
            }
            2 => {
                let main = index(2, 2);
                let width = if main == 1 { shape.main_width } else { shape.aux_width };
                if !free && (shape.steps == 0 || width == 0) {
                    continue;
                }
                [
                    tag,
                    index(width, 65_536),
                    main << 16 | index(shape.steps, 256) << 8,
                    1 - main,
                ]
            }
            3 if free || shape.challenges != 0 => [tag, index(shape.challenges, 65_536), 0, 1],
            4 if free || shape.alphas != 0 => [tag, index(shape.alphas, 65_536), 0, 1],
            5 => [tag, 0, 0, 1],
            6..=8 if id != 0 => {
                let (a, b) = (index(id, id), index(id, id));
                [tag, a, b, words.dim(a as usize) | words.dim(b as usize)]
            }
            9 if id != 0 => {
                let a = index(id, id);
                [tag, a, 0, words.dim(a as usize)]
            }
            10 if id != 0 => [tag, index(id, id), 0, 1],
            _ => continue,
        };
        return node;
    }
}
