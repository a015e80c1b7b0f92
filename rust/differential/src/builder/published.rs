//! The published builder on the same calls.

use stark::constraint_ir::{Dim, Expr};

use super::Call;
use super::owned::{Owned, PublishedBuilder as Builder};
use crate::programs;
use crate::programs::published::words;
use crate::quiet::unless_it_panics;

/// A published builder that is asked for handles by their numbers.
///
/// The number in a published handle is private. So a second builder has the same calls, but in place of their constraints it
/// has each handle that a call gave as a constraint of its own, whose root then is the number.
pub struct Replay {
    builder: Builder,
    numbering: Builder,
    /// By number.
    exprs: Vec<Expr>,
    /// The dim of each handle that was given.
    dims: Vec<u32>,
}

/// What the calls came to.
pub struct Replayed {
    /// The number and the dim of each handle that was given, in their order.
    pub handles: Vec<(u32, u32)>,
    pub words: programs::Words,
}

impl Default for Replay {
    fn default() -> Self {
        let mut builder = Builder::new();
        Replay {
            exprs: vec![builder.const_base(0)],
            builder,
            numbering: Builder::new(),
            dims: Vec::new(),
        }
    }
}

impl Replay {
    /// Whether the call is answered; else it panics. `id` is the number that the handle should have, for calls to come.
    pub fn call(&mut self, call: &Call, id: Option<u32>) -> bool {
        if let Call::Emit(constraint, root) = *call {
            self.builder.emit(constraint, self.exprs[root.id as usize]);
            return true;
        }
        let Replay { builder, exprs, .. } = self;
        let made = if panics(call) {
            unless_it_panics(|| builder.make(exprs, call))
        } else {
            Some(builder.make(exprs, call))
        };
        let Some(made) = made else {
            return false;
        };
        let again = self.numbering.make(exprs, call);
        self.numbering.emit(self.dims.len(), again);
        self.dims.push(u32::from(made.dim() == Dim::Ext));
        if id == Some(exprs.len() as u32) {
            exprs.push(made);
        }
        true
    }

    pub fn finish(self) -> Replayed {
        let numbers = self.numbering.finish(0);
        Replayed {
            handles: numbers.roots.into_iter().zip(self.dims).collect(),
            words: words(&self.builder.finish(0)),
        }
    }
}

/// Only a call with a high index can panic; the others need not be watched.
fn panics(call: &Call) -> bool {
    let (Call::Main { column: index, .. }
    | Call::Aux { column: index, .. }
    | Call::Challenge(index)
    | Call::AlphaPower(index)) = *call
    else {
        return false;
    };
    60_000 < index
}
