//! All small programs over a small alphabet: those that the published builder makes, and well-formed ones of no builder.

use stark::constraint_ir::{Expr, IrBuilder};

use crate::programs::Words;
use crate::programs::published::Published;
use host::lent::program::Counts;

/// A call of the builder that asks for a node. Operands are numbers of handles: 0 is node 0, then come the calls' own.
#[derive(Clone, Copy, Debug)]
enum Call {
    Main,
    Aux,
    Challenge,
    Add(usize, usize),
    Neg(usize),
    Embed(usize),
}

/// Every call that can be made with so many handles.
fn calls(handles: usize) -> Vec<Call> {
    let mut calls = vec![Call::Main, Call::Aux, Call::Challenge];
    for a in 0..handles {
        calls.extend((0..handles).map(|b| Call::Add(a, b)));
        calls.extend([Call::Neg(a), Call::Embed(a)]);
    }
    calls
}

fn made(builder: &mut IrBuilder, sequence: &[Call]) -> Vec<Expr> {
    let mut handles = vec![builder.const_base(0)];
    for call in sequence {
        handles.push(match *call {
            Call::Main => builder.main(0, 0),
            Call::Aux => builder.aux(0, 0),
            Call::Challenge => builder.challenge(0),
            Call::Add(a, b) => builder.add(handles[a], handles[b]),
            Call::Neg(a) => builder.neg(handles[a]),
            Call::Embed(a) => builder.embed(handles[a]),
        });
    }
    handles
}

/// What is emitted for constraints 0, 1 and 2: the number of a handle, or nothing.
type Emits = [Option<usize>; 3];

fn emits(handles: usize, most: usize) -> Vec<Emits> {
    let choices: Vec<Option<usize>> = [None].into_iter().chain((0..handles).map(Some)).collect();
    let mut all = Vec::new();
    for a in &choices {
        for b in &choices {
            all.extend(choices.iter().map(|c| [*a, *b, *c]));
        }
    }
    all.retain(|emits| emits.iter().flatten().count() <= most);
    all
}

/// Every program that up to `most` calls of the published builder make, each call one of: a main cell, an aux cell, a
/// challenge, a sum, a negation, an embedding, an emit for constraint 0, 1 or 2. A call that changes nothing is
/// left out, since fewer calls make the same program; and emits come last, since their place makes no difference.
pub fn built(most: usize, visit: &mut impl FnMut(Published)) {
    extend(&mut Vec::new(), most, visit);
}

fn extend(sequence: &mut Vec<Call>, left: usize, visit: &mut impl FnMut(Published)) {
    for emits in emits(sequence.len() + 1, left) {
        let mut builder = IrBuilder::new();
        let handles = made(&mut builder, sequence);
        for (constraint, handle) in emits.iter().enumerate() {
            if let Some(handle) = handle {
                builder.emit(constraint, handles[*handle]);
            }
        }
        let program = builder.finish(0);
        if program.len() != handles.len() {
            return;
        }
        visit(program);
    }
    if left == 0 {
        return;
    }
    for call in calls(sequence.len() + 1) {
        sequence.push(call);
        extend(sequence, left - 1, visit);
        sequence.pop();
    }
}

/// Every well-formed program of exactly so many nodes with up to so many roots, each node one of: a base constant, a main
/// cell, an aux cell, the table offset, a difference, a negation, an embedding.
pub fn foreign(nodes: usize, most_roots: usize, visit: &mut impl FnMut(&Words)) {
    let mut words = Words {
        counts: Counts {
            base_consts: 1,
            ..Counts::default()
        },
        base_consts: vec![1],
        ..Words::default()
    };
    append(&mut words, nodes, most_roots, visit);
}

fn append(words: &mut Words, left: usize, most_roots: usize, visit: &mut impl FnMut(&Words)) {
    let n = words.counts.nodes;
    if left == 0 {
        root(words, most_roots, visit);
        return;
    }
    let mut choices = vec![[0, 0, 0, 0], [2, 0, 1 << 16, 0], [2, 0, 0, 1], [5, 0, 0, 1]];
    for a in 0..n {
        let (id, dim) = (a as u32, words.dim(a));
        choices.extend((0..n).map(|b| [7, id, b as u32, dim | words.dim(b)]));
        choices.extend([[9, id, 0, dim], [10, id, 0, 1]]);
    }
    words.counts.nodes += 1;
    for choice in choices {
        words.nodes.extend(choice);
        append(words, left - 1, most_roots, visit);
        words.nodes.truncate(4 * n);
    }
    words.counts.nodes = n;
}

fn root(words: &mut Words, most: usize, visit: &mut impl FnMut(&Words)) {
    visit(words);
    if most == 0 {
        return;
    }
    words.counts.roots += 1;
    for id in 0..words.counts.nodes {
        words.roots.push(id as u32);
        root(words, most - 1, visit);
        words.roots.pop();
    }
    words.counts.roots -= 1;
}
