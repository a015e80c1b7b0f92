//! A builder that owns its tables.

use crate::lent::builder::{self as lent, Filled, Handle, Tables};
use crate::{Error, Ext, Program, ProgramWords, Refusal};

/// A node of a [`Builder`], to make others of.
#[derive(Clone, Copy, Debug, PartialEq, Eq, Hash)]
pub struct Expr {
    handle: Handle,
}

impl Expr {
    /// The node's number in the program.
    pub fn id(self) -> u32 {
        self.handle.id
    }

    /// Whether its values are those of the extension.
    pub fn is_ext(self) -> bool {
        self.handle.dim != 0
    }
}

/// Makes a [`Program`] of its constraints, one node at a time. Equal nodes are one: what was made before is found again.
///
/// The tables grow as they have to.
///
/// ```
/// use host::{Builder, Frame, Shape, Value};
///
/// // One constraint: the second row's cell, less the first row's, less 1.
/// let mut builder = Builder::new();
/// let (this, next, one) = (builder.main(0, 0)?, builder.main(1, 0)?, builder.one()?);
/// let step = builder.sub(next, this)?;
/// let root = builder.sub(step, one)?;
/// builder.emit(0, root)?;
/// assert_eq!(builder.gaps(), []);
/// let program = builder.finish(1)?;
/// let shape = Shape { steps: 2, main_width: 1, ..Shape::default() };
/// let frame = Frame { shape, main: &[5, 9], ..Frame::default() };
/// assert_eq!(program.eval(&frame)?, [Value::Base(3)]);
/// # Ok::<(), host::Error>(())
/// ```
///
/// An [`Expr`] belongs to the builder that gave it. Another one refuses it with [`Error::NoSuchHandle`] where it has no such
/// node, and else takes it for its own.
#[derive(Clone, Debug)]
pub struct Builder {
    filled: Filled,
    nodes: Vec<[u32; 4]>,
    places: Vec<u32>,
    base_consts: Vec<u64>,
    ext_consts: Vec<Ext>,
    roots: Vec<u32>,
}

/// What a fresh builder has room for.
const NODES: usize = 64;
const CONSTANTS: usize = 8;

/// Places for each node that fits, so that half of them are free in a full table.
const PLACES: usize = 2;

/// How many times as many nodes fit when the tables have grown. With 4, a third of all nodes are made twice; with 2, all.
const GROWTH: usize = 4;

/// The most nodes, and constants of a class.
const MOST: usize = 536_870_911;

/// The most constraints.
const MOST_ROOTS: usize = 4_294_967_295;

impl Default for Builder {
    fn default() -> Self {
        Builder::new()
    }
}

impl Builder {
    /// A fresh builder, whose node 0 is the base constant 0.
    pub fn new() -> Self {
        Builder::with_room(NODES)
    }

    /// A fresh builder with room for so many nodes, to spare it growing.
    pub fn with_room(nodes: usize) -> Self {
        let nodes = nodes.clamp(1, MOST);
        let mut builder = Builder {
            filled: Filled::default(),
            nodes: vec![[0; 4]; nodes],
            places: vec![0; PLACES * nodes],
            base_consts: vec![0; CONSTANTS],
            ext_consts: Vec::new(),
            roots: Vec::new(),
        };
        let fresh = builder.lend(|tables| tables.fresh(&mut Handle::default()));
        fresh.expect("there is room for a node and a constant");
        builder
    }

    /// Lends the tables for one call.
    fn lend<T>(&mut self, call: impl FnOnce(&mut Tables) -> T) -> T {
        let mut tables = Tables {
            filled: self.filled,
            nodes: self.nodes.as_flattened_mut(),
            places: &mut self.places,
            base_consts: &mut self.base_consts,
            ext_consts: self.ext_consts.as_flattened_mut(),
            roots: &mut self.roots,
        };
        let answer = call(&mut tables);
        self.filled = tables.filled;
        answer
    }

    /// Makes a node. A call that finds a table full has changed nothing: the table grows, and the call is made again.
    fn make(&mut self, call: impl Fn(&mut Tables, &mut Handle) -> Result<(), Refusal>) -> Result<Expr, Error> {
        loop {
            let mut handle = Handle::default();
            match self.lend(|tables| call(tables, &mut handle)).map_err(Error::from) {
                Ok(()) => return Ok(Expr { handle }),
                Err(Error::NodesFull) if self.nodes.len() < MOST => self.grow_nodes()?,
                Err(Error::ConstantsFull) if self.grow_constants() => {}
                Err(error) => return Err(error),
            }
        }
    }

    /// Where a lookup starts depends on the number of places, so the nodes are made once more in longer tables: each in its
    /// turn, which gives it the number that it has.
    #[cold]
    fn grow_nodes(&mut self) -> Result<(), Error> {
        let mut larger = Builder::with_room(GROWTH * self.nodes.len());
        for id in 0..self.filled.nodes {
            larger.make_again(self, self.nodes[id])?;
        }
        larger.filled.roots = self.filled.roots;
        larger.roots = std::mem::take(&mut self.roots);
        *self = larger;
        Ok(())
    }

    /// Another builder's node, of whose operands it has all.
    fn make_again(&mut self, of: &Builder, [tag, x, y, _]: [u32; 4]) -> Result<Expr, Error> {
        let (index, offset) = (x as usize, (y >> 8) as u8);
        let expr = |id: u32| {
            let dim = of.nodes[id as usize][3];
            Expr {
                handle: Handle { id, dim },
            }
        };
        match tag {
            0 => self.const_base(of.base_consts[index]),
            1 => self.const_ext(of.ext_consts[index]),
            2 if y >> 16 == 0 => self.aux(offset, index),
            2 => self.main(offset, index),
            3 => self.challenge(index),
            4 => self.alpha_power(index),
            5 => self.table_offset(),
            6 => self.add(expr(x), expr(y)),
            7 => self.sub(expr(x), expr(y)),
            8 => self.mul(expr(x), expr(y)),
            9 => self.neg(expr(x)),
            _ => self.embed(expr(x)),
        }
    }

    /// Whether a table of constants was full and has grown.
    #[cold]
    fn grow_constants(&mut self) -> bool {
        let (bases, exts) = (self.base_consts.len(), self.ext_consts.len());
        let larger = |len: usize, filled: usize| {
            if len == filled {
                (2 * len).clamp(CONSTANTS, MOST)
            } else {
                len
            }
        };
        self.base_consts.resize(larger(bases, self.filled.base_consts), 0);
        self.ext_consts.resize(larger(exts, self.filled.ext_consts), [0; 3]);
        (bases, exts) != (self.base_consts.len(), self.ext_consts.len())
    }

    /// A cell of the main trace, `offset` rows on. It is base.
    ///
    /// # Errors
    ///
    /// [`Error::OverLimit`] where the column is over 65,535. [`Error::NodesFull`] where there are 536,870,911 nodes, as in
    /// every call that makes one.
    pub fn main(&mut self, offset: u8, column: usize) -> Result<Expr, Error> {
        self.make(|tables, made| tables.main(offset, column, made))
    }

    /// A cell of the aux trace, `offset` rows on.
    ///
    /// # Errors
    ///
    /// [`Error::OverLimit`] where the column is over 65,535.
    pub fn aux(&mut self, offset: u8, column: usize) -> Result<Expr, Error> {
        self.make(|tables, made| tables.aux(offset, column, made))
    }

    /// A challenge.
    ///
    /// # Errors
    ///
    /// [`Error::OverLimit`] where the index is over 65,535.
    pub fn challenge(&mut self, index: usize) -> Result<Expr, Error> {
        self.make(|tables, made| tables.challenge(index, made))
    }

    /// An alpha power.
    ///
    /// # Errors
    ///
    /// [`Error::OverLimit`] where the index is over 65,535.
    pub fn alpha_power(&mut self, index: usize) -> Result<Expr, Error> {
        self.make(|tables, made| tables.alpha_power(index, made))
    }

    /// The table offset.
    ///
    /// # Errors
    ///
    /// None but [`Error::NodesFull`].
    pub fn table_offset(&mut self) -> Result<Expr, Error> {
        self.make(|tables, made| tables.table_offset(made))
    }

    /// A constant of the base field, shared by value.
    ///
    /// # Errors
    ///
    /// [`Error::ConstantsFull`] where there are 536,870,911 constants.
    pub fn const_base(&mut self, value: u64) -> Result<Expr, Error> {
        self.make(|tables, made| tables.const_base(value, made))
    }

    /// As [`const_base`](Builder::const_base), where a negative value is p less its size.
    ///
    /// # Errors
    ///
    /// Those of [`const_base`](Builder::const_base).
    pub fn const_signed(&mut self, value: i64) -> Result<Expr, Error> {
        self.make(|tables, made| tables.const_signed(value, made))
    }

    /// A constant of the extension, shared by value.
    ///
    /// # Errors
    ///
    /// Those of [`const_base`](Builder::const_base).
    pub fn const_ext(&mut self, value: Ext) -> Result<Expr, Error> {
        self.make(|tables, made| tables.const_ext(value, made))
    }

    /// The base constant 1.
    ///
    /// # Errors
    ///
    /// Those of [`const_base`](Builder::const_base).
    pub fn one(&mut self) -> Result<Expr, Error> {
        self.make(|tables, made| tables.one(made))
    }

    /// `a + b`. It is base exactly if both are.
    ///
    /// # Errors
    ///
    /// [`Error::NoSuchHandle`] where an operand is another builder's.
    pub fn add(&mut self, a: Expr, b: Expr) -> Result<Expr, Error> {
        self.make(|tables, made| tables.add(a.handle, b.handle, made))
    }

    /// `a - b`, likewise.
    ///
    /// # Errors
    ///
    /// Those of [`add`](Builder::add).
    pub fn sub(&mut self, a: Expr, b: Expr) -> Result<Expr, Error> {
        self.make(|tables, made| tables.sub(a.handle, b.handle, made))
    }

    /// `a * b`, likewise.
    ///
    /// # Errors
    ///
    /// Those of [`add`](Builder::add).
    pub fn mul(&mut self, a: Expr, b: Expr) -> Result<Expr, Error> {
        self.make(|tables, made| tables.mul(a.handle, b.handle, made))
    }

    /// `-a`. It is base exactly if `a` is.
    ///
    /// # Errors
    ///
    /// Those of [`add`](Builder::add).
    pub fn neg(&mut self, a: Expr) -> Result<Expr, Error> {
        self.make(|tables, made| tables.neg(a.handle, made))
    }

    /// `a` as an extension value, also where it is one.
    ///
    /// # Errors
    ///
    /// Those of [`add`](Builder::add).
    pub fn embed(&mut self, a: Expr) -> Result<Expr, Error> {
        self.make(|tables, made| tables.embed(a.handle, made))
    }

    /// Makes a node the root of a constraint, in place of the one that it has. Constraints may come in any order; those up to
    /// the highest that get no root have node 0, which is 0 in every row: [`gaps`](Builder::gaps) lists them. A word is
    /// kept for each constraint up to the highest.
    ///
    /// # Errors
    ///
    /// [`Error::NoSuchHandle`] where the node is another builder's; [`Error::NoSuchConstraint`] where the constraint is not
    /// below 4,294,967,295.
    pub fn emit(&mut self, constraint: usize, root: Expr) -> Result<(), Error> {
        loop {
            let emitted = self.lend(|tables| tables.emit(constraint, root.handle));
            match emitted.map_err(Error::from) {
                Err(Error::NoSuchConstraint) if constraint < MOST_ROOTS => {
                    let len = (2 * self.roots.len()).clamp(constraint + 1, MOST_ROOTS);
                    self.roots.resize(len, 0);
                }
                answer => return answer,
            }
        }
    }

    /// The constraints up to the highest whose root is node 0, ascending: those that were left out, and those that were given
    /// the constant 0.
    pub fn gaps(&self) -> Vec<usize> {
        let (mut out, mut count) = (vec![0; self.filled.roots], 0);
        let listed = lent::gaps(self.filled.roots, &self.roots, &mut out, &mut count);
        listed.expect("as many words are lent as there are constraints");
        out.truncate(count as usize);
        out.into_iter().map(|constraint| constraint as usize).collect()
    }

    /// How many nodes there are. At least 1.
    pub fn node_count(&self) -> usize {
        self.filled.nodes
    }

    /// The program; constraints below `num_base` have base values.
    ///
    /// # Errors
    ///
    /// [`Error::TooManyRoots`] where `num_base` is over 4,294,967,295.
    pub fn finish(self, num_base: usize) -> Result<Program, Error> {
        let Builder {
            filled,
            mut nodes,
            mut base_consts,
            mut ext_consts,
            mut roots,
            ..
        } = self;
        nodes.truncate(filled.nodes);
        base_consts.truncate(filled.base_consts);
        ext_consts.truncate(filled.ext_consts);
        roots.truncate(filled.roots);
        Program::new(ProgramWords {
            nodes,
            base_consts,
            ext_consts,
            roots,
            num_base,
        })
    }
}
