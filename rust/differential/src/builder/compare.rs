//! Calls on both sides, as for programs: the host's builder and `plain::probe` are lent equal memory between guards. After
//! each call answers, handles, counts and all of that memory have to be equal.

use std::fmt::Arguments;

use host::lent::builder::{self as host_calls, Filled, Handle, Tables};

use super::{Call, Rooms};
use crate::Score;
use crate::plain::builder::List;
use crate::plain::probe;
use crate::programs::compare::{Answer, GUARD, Lent, same_answer};

/// A builder's tables once for each side.
pub struct Memory {
    filled: [Filled; 2],
    nodes: Lent<u32>,
    places: Lent<u32>,
    base_consts: Lent<u64>,
    ext_consts: Lent<u64>,
    roots: Lent<u32>,
    made: Lent<Handle>,
}

/// The words of a builder's tables, each as long as is lent.
#[derive(Clone, Debug, Default, PartialEq, Eq)]
pub struct Words {
    pub filled: Filled,
    pub nodes: Vec<u32>,
    pub places: Vec<u32>,
    pub base_consts: Vec<u64>,
    pub ext_consts: Vec<u64>,
    pub roots: Vec<u32>,
}

/// What a guard holds, and a word that nobody has written: not 0, no id, and all different.
pub(super) fn fresh_short(at: usize) -> u32 {
    u32::MAX - at as u32
}

pub(super) fn fresh(at: usize) -> u64 {
    u64::MAX - at as u64
}

/// The word for a handle, before a call makes one.
pub(super) fn unmade() -> Lent<Handle> {
    Lent::filled(1, |at| Handle {
        id: fresh_short(2 * at),
        dim: fresh_short(2 * at + 1),
    })
}

pub(super) fn between_guards<T: Copy>(words: &[T], guard: impl Fn(usize) -> T) -> impl Fn(usize) -> T {
    move |at| match at.checked_sub(GUARD) {
        Some(inside) if inside < words.len() => words[inside],
        _ => guard(at),
    }
}

impl Memory {
    /// Tables of these words.
    pub fn of(words: &Words) -> Self {
        let shorts = |words: &[u32]| Lent::filled(words.len(), between_guards(words, fresh_short));
        let longs = |words: &[u64]| Lent::filled(words.len(), between_guards(words, fresh));
        Memory {
            filled: [words.filled; 2],
            nodes: shorts(&words.nodes),
            places: shorts(&words.places),
            base_consts: longs(&words.base_consts),
            ext_consts: longs(&words.ext_consts),
            roots: shorts(&words.roots),
            made: unmade(),
        }
    }

    /// Tables that nobody has written, with a few words more than make a node or a constant.
    pub fn unwritten(rooms: &Rooms) -> Self {
        let filled = usize::MAX / 2;
        let shorts = |len| (GUARD..).take(len).map(fresh_short).collect();
        let longs = |len| (GUARD..).take(len).map(fresh).collect();
        Memory::of(&Words {
            filled: Filled {
                nodes: filled,
                base_consts: filled + 1,
                ext_consts: filled + 2,
                roots: filled + 3,
            },
            nodes: shorts(4 * rooms.nodes + rooms.places % 4),
            places: shorts(rooms.places),
            base_consts: longs(rooms.base_consts),
            ext_consts: longs(3 * rooms.ext_consts + rooms.places % 3),
            roots: shorts(rooms.roots),
        })
    }

    pub fn filled(&self) -> Filled {
        self.filled[0]
    }

    /// What both sides hold.
    pub fn words(&mut self) -> Words {
        Words {
            filled: self.filled[0],
            nodes: self.nodes.host().to_vec(),
            places: self.places.host().to_vec(),
            base_consts: self.base_consts.host().to_vec(),
            ext_consts: self.ext_consts.host().to_vec(),
            roots: self.roots.host().to_vec(),
        }
    }

    /// The answer, and the handle in the word for it, which a refusal leaves as it was.
    #[track_caller]
    pub fn call(&mut self, score: &mut Score, call: &Call, what: Arguments<'_>) -> (Answer, Handle) {
        let what = format_args!("{call:?}, {what}");
        let before = self.filled[0];
        let mut tables = Tables {
            filled: before,
            nodes: self.nodes.host(),
            places: self.places.host(),
            base_consts: self.base_consts.host(),
            ext_consts: self.ext_consts.host(),
            roots: self.roots.host(),
        };
        let answer = call.on_host(&mut tables, &mut self.made.host()[0]);
        let ours = tables.filled;
        let mut tables = Tables {
            filled: before,
            nodes: self.nodes.plain(),
            places: self.places.plain(),
            base_consts: self.base_consts.plain(),
            ext_consts: self.ext_consts.plain(),
            roots: self.roots.plain(),
        };
        let plain = probe::call(&mut tables, call, &mut self.made.plain()[0]);
        let theirs = tables.filled;
        self.filled = [ours, theirs];
        same_answer(score, &answer, &plain, what);
        assert_eq!(ours, theirs, "{what}: the counts, ours and plain");
        if answer.is_err() {
            assert_eq!(ours, before, "{what}: a refusal changes no count");
        }
        self.compare(score, what);
        (answer, self.made.host()[0])
    }

    #[track_caller]
    fn compare(&self, score: &mut Score, what: Arguments<'_>) {
        self.nodes.compare("nodes", score, what);
        self.places.compare("places", score, what);
        self.base_consts.compare("base_consts", score, what);
        self.ext_consts.compare("ext_consts", score, what);
        self.roots.compare("roots", score, what);
        self.made.compare("the handle", score, what);
    }

    /// The gap report with so many words lent for it: the answer, and the gaps where it is 0.
    #[track_caller]
    pub fn gaps(&mut self, score: &mut Score, room: usize, what: Arguments<'_>) -> Result<Vec<u64>, u8> {
        let what = format_args!("gaps, {room} words lent, {what}");
        let (mut out, mut count) = (Lent::words(room), Lent::words(1));
        let filled = self.filled[0].roots;
        let answer = host_calls::gaps(filled, self.roots.host(), out.host(), &mut count.host()[0]);
        let plain = probe::gaps(filled, self.roots.plain(), out.plain(), &mut count.plain()[0]);
        same_answer(score, &answer, &plain, what);
        self.roots.compare("roots", score, what);
        let mut out = out.compared("out", score, what);
        let count = count.compared("count", score, what)[0];
        answer.map_err(|refusal| refusal.number)?;
        out.truncate(count as usize);
        Ok(out)
    }

    /// Holds the filled part of the tables to the lists, and the rest to what nobody has written: of tables that were
    /// `unwritten`.
    #[track_caller]
    pub fn is_list(&mut self, score: &mut Score, list: &List, what: Arguments<'_>) {
        assert_eq!(self.filled[0], list.filled(), "{what}: the counts, ours and the lists'");
        let shorts = [
            (self.nodes.host(), list.nodes.as_flattened(), "nodes"),
            (self.roots.host(), &list.roots, "roots"),
        ];
        for (ours, listed, name) in shorts {
            starts_with(score, ours, listed, fresh_short, name, what);
        }
        let longs = [
            (self.base_consts.host(), &list.base_consts[..], "base_consts"),
            (self.ext_consts.host(), list.ext_consts.as_flattened(), "ext_consts"),
        ];
        for (ours, listed, name) in longs {
            starts_with(score, ours, listed, fresh, name, what);
        }
    }
}

#[track_caller]
fn starts_with<T: Copy + PartialEq + std::fmt::Debug>(
    score: &mut Score,
    ours: &[T],
    listed: &[T],
    fresh: impl Fn(usize) -> T,
    name: &str,
    what: Arguments<'_>,
) {
    let (filled, rest) = ours.split_at(listed.len());
    assert_eq!(filled, listed, "{what}: {name}, ours and the lists'");
    let mut unwritten = (GUARD + listed.len()..).map(fresh);
    assert!(
        rest.iter().all(|word| Some(*word) == unwritten.next()),
        "{what}: words of {name} past what is filled"
    );
    score.words += ours.len() as u64;
}
