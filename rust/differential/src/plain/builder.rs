//! The builder as lists: nodes, constants and roots one after the other, looked through from the beginning. No hash places,
//! but as many of them as are lent count for what fits.
//!
//! Written from the scope document alone.

use host::lent::builder::{Filled, Handle};

use super::from_i64;
use crate::builder::{Call, Rooms};
use crate::{Limbs, P};

/// No more nodes or constants of a class than this, whatever is lent.
const MOST: usize = 536_870_911;

const BASE: u32 = 0;
const EXT: u32 = 1;

/// A builder that was reached from a fresh one.
#[derive(Clone, Debug, PartialEq, Eq)]
pub struct List {
    rooms: Rooms,
    /// Tag, x, y, dim.
    pub nodes: Vec<[u32; 4]>,
    /// Below p.
    pub base_consts: Vec<u64>,
    pub ext_consts: Vec<Limbs>,
    pub roots: Vec<u32>,
}

impl List {
    /// A fresh builder, or the number of the refusal.
    pub fn new(rooms: Rooms) -> Result<Self, u8> {
        let mut fresh = List {
            rooms,
            nodes: Vec::new(),
            base_consts: Vec::new(),
            ext_consts: Vec::new(),
            roots: Vec::new(),
        };
        fresh.call(&Call::ConstBase(0))?;
        Ok(fresh)
    }

    pub fn filled(&self) -> Filled {
        Filled {
            nodes: self.nodes.len(),
            base_consts: self.base_consts.len(),
            ext_consts: self.ext_consts.len(),
            roots: self.roots.len(),
        }
    }

    pub fn handle(&self, id: usize) -> Handle {
        Handle {
            id: id as u32,
            dim: self.nodes[id][3],
        }
    }

    /// The handle that the call makes, if it makes one, or the number of the refusal: then nothing has changed.
    pub fn call(&mut self, call: &Call) -> Result<Option<Handle>, u8> {
        let made = match *call {
            Call::New => {
                *self = List::new(self.rooms)?;
                self.handle(0)
            }
            Call::Emit(constraint, root) => return self.emit(constraint, root).map(|()| None),
            Call::ConstBase(value) => self.const_base(value)?,
            Call::ConstSigned(value) => self.const_base(from_i64(value))?,
            Call::One => self.const_base(1)?,
            Call::ConstExt(limbs) => self.const_ext(limbs.map(|limb| limb % P))?,
            Call::Add(..) | Call::Sub(..) | Call::Mul(..) | Call::Neg(_) | Call::Embed(_) => {
                self.push(self.operation(call)?)?
            }
            _ => self.push(leaf(call)?)?,
        };
        Ok(Some(made))
    }

    fn push(&mut self, node: [u32; 4]) -> Result<Handle, u8> {
        let equal = self.nodes.iter().position(|there| *there == node);
        let id = equal.unwrap_or(self.nodes.len());
        if equal.is_none() {
            let fits = self.rooms.nodes.min(self.rooms.places).min(MOST);
            if fits <= id {
                return Err(4);
            }
            self.nodes.push(node);
        }
        Ok(self.handle(id))
    }

    fn const_base(&mut self, value: u64) -> Result<Handle, u8> {
        let value = value % P;
        let index = place(&self.base_consts, &value, self.rooms.base_consts)?;
        let made = self.push([0, index as u32, 0, BASE])?;
        if index == self.base_consts.len() {
            self.base_consts.push(value);
        }
        Ok(made)
    }

    fn const_ext(&mut self, value: Limbs) -> Result<Handle, u8> {
        let index = place(&self.ext_consts, &value, self.rooms.ext_consts)?;
        let made = self.push([1, index as u32, 0, EXT])?;
        if index == self.ext_consts.len() {
            self.ext_consts.push(value);
        }
        Ok(made)
    }

    /// Whether a handle is a node's of this builder.
    fn known(&self, handle: Handle) -> Result<Handle, u8> {
        match self.nodes.get(handle.id as usize) {
            Some(node) if node[3] == handle.dim => Ok(handle),
            _ => Err(3),
        }
    }

    fn operation(&self, call: &Call) -> Result<[u32; 4], u8> {
        let binary = |tag, a: Handle, b: Handle| {
            let (a, b) = (self.known(a)?, self.known(b)?);
            let dim = if (a.dim, b.dim) == (BASE, BASE) { BASE } else { EXT };
            Ok([tag, a.id, b.id, dim])
        };
        match *call {
            Call::Add(a, b) => binary(6, a, b),
            Call::Sub(a, b) => binary(7, a, b),
            Call::Mul(a, b) => binary(8, a, b),
            Call::Neg(a) => self.known(a).map(|a| [9, a.id, 0, a.dim]),
            Call::Embed(a) => self.known(a).map(|a| [10, a.id, 0, EXT]),
            _ => unreachable!("no operation"),
        }
    }

    fn emit(&mut self, constraint: usize, root: Handle) -> Result<(), u8> {
        self.known(root)?;
        if self.rooms.roots <= constraint {
            return Err(6);
        }
        while self.roots.len() <= constraint {
            self.roots.push(0);
        }
        self.roots[constraint] = root.id;
        Ok(())
    }

    /// Each constraint whose root is node 0, where there is room for so many.
    pub fn gaps(&self, room: usize) -> Result<Vec<u64>, u8> {
        let gaps: Vec<u64> = (0..self.roots.len())
            .filter(|constraint| self.roots[*constraint] == 0)
            .map(|constraint| constraint as u64)
            .collect();
        if gaps.len() <= room { Ok(gaps) } else { Err(10) }
    }
}

/// Where a constant stands, or goes: one that is new needs room.
fn place<T: PartialEq>(there: &[T], value: &T, room: usize) -> Result<usize, u8> {
    match there.iter().position(|constant| constant == value) {
        Some(index) => Ok(index),
        None if there.len() < room.min(MOST) => Ok(there.len()),
        None => Err(5),
    }
}

/// The node of a leaf, if its index has 16 bits.
fn leaf(call: &Call) -> Result<[u32; 4], u8> {
    let index = |index: usize| u16::try_from(index).map(u32::from).map_err(|_| 2);
    match *call {
        Call::Main { offset, column } => Ok([2, index(column)?, 1 << 16 | u32::from(offset) << 8, BASE]),
        Call::Aux { offset, column } => Ok([2, index(column)?, u32::from(offset) << 8, EXT]),
        Call::Challenge(number) => Ok([3, index(number)?, 0, EXT]),
        Call::AlphaPower(number) => Ok([4, index(number)?, 0, EXT]),
        Call::TableOffset => Ok([5, 0, 0, EXT]),
        _ => unreachable!("no leaf"),
    }
}
