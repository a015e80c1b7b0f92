//! A row of calls on four builders: the host's, the published one, and the two plain ones.

use std::fmt::Arguments;

use host::Builder;
use host::lent::builder::Handle;

use super::compare::Memory;
use super::owned::Owned;
use super::published::Replay;
use super::{Call, Recipe, Rooms, random_calls};
use crate::inputs::Random;
use crate::plain::builder::List;
use crate::{P, Score};

/// Rows of calls that were compared.
#[derive(Default)]
pub struct Compared {
    pub rows: u64,
    pub calls: u64,
    /// Calls that were answered with a node that was there.
    pub shared: u64,
    /// Calls that the published builder panics on.
    pub refused: u64,
    pub nodes: u64,
}

/// Makes a random row of calls and compares it.
#[track_caller]
pub fn random_row(score: &mut Score, random: &mut Random, compared: &mut Compared, what: Arguments<'_>) {
    let (calls, list, rooms) = with_room(random);
    row(score, compared, &calls, &rooms, what);
    if random.once_in(8) {
        owned(score, &calls, &list, what);
    }
}

/// A random row of calls, what it comes to, and rooms for all of that.
pub fn with_room(random: &mut Random) -> (Vec<Call>, List, Rooms) {
    let recipe = Recipe {
        calls: if random.once_in(50) { 300 } else { random.below(50) },
        leaves: random.pick(&[1, 2, 3, 8]),
        constraints: random.pick(&[0, 1, 3, 6, 40]),
        limits: random.pick(&[5, 20, 80]),
    };
    let (calls, list) = random_calls(random, &recipe);
    // Full to the last place, half full, and anything between.
    let mut rooms = Rooms::of(&list.filled());
    let (n, more) = (rooms.nodes, random.below(64));
    rooms.places = random.pick(&[n, n, n + 1, n + n / 2, 2 * n, 2 * n + 1, 3 * n, 2 * n + more]);
    for room in rooms.each_mut() {
        *room += random.pick(&[0, 0, 1, 5]);
    }
    (calls, list, rooms)
}

/// A random row of calls in rooms of which one is short, or several.
#[track_caller]
pub fn short_row(score: &mut Score, random: &mut Random, what: Arguments<'_>) {
    let (calls, rooms) = short_of_room(random);
    in_rooms(score, &calls, &rooms, what);
}

/// A random row of calls, and rooms of which one is short for it, or several.
pub fn short_of_room(random: &mut Random) -> (Vec<Call>, Rooms) {
    let recipe = Recipe {
        calls: random.below(30),
        leaves: 3,
        constraints: random.pick(&[0, 2, 5]),
        limits: 40,
    };
    let (calls, list) = random_calls(random, &recipe);
    let mut rooms = Rooms::of(&list.filled());
    rooms.places *= 2;
    for _ in 0..1 + random.below(2) {
        let short = random.below(5);
        let room = &mut *rooms.each_mut()[short];
        *room = random.below(*room + 1);
    }
    (calls, rooms)
}

/// Calls on fresh builders, where there is room for all: every number and dim, every answer, and the program.
#[track_caller]
pub fn row(score: &mut Score, compared: &mut Compared, calls: &[Call], rooms: &Rooms, what: Arguments<'_>) -> Memory {
    let what = format_args!("{what}, {rooms:?}, {calls:?}");
    let mut memory = Memory::unwritten(rooms);
    let (answer, zero) = memory.call(score, &Call::New, what);
    assert_eq!((answer, zero), (Ok(()), Handle::default()), "{what}: a fresh builder");
    let (mut list, mut replay) = (List::new(*rooms).expect("there is room"), Replay::default());
    let mut handles = Vec::new();
    for call in calls {
        let there = list.nodes.len() as u32;
        let listed = list.call(call);
        let (answer, made) = memory.call(score, call, what);
        let id = if answer.is_ok() { Some(made.id) } else { None };
        let answered = replay.call(call, id);
        let expected = if answered { Ok(()) } else { Err(super::refused(2)) };
        assert_eq!(
            answer, expected,
            "{call:?}, {what}: ours, and whether the published one panics"
        );
        assert_eq!(listed.is_ok(), answered, "{call:?}, {what}: the lists");
        if let Ok(Some(handle)) = listed {
            assert_eq!(made, handle, "{call:?}, {what}: ours and the lists'");
            handles.push((made.id, made.dim));
            compared.shared += u64::from(made.id < there);
        }
        compared.refused += u64::from(!answered);
    }
    let replayed = replay.finish();
    assert_eq!(
        handles, replayed.handles,
        "{what}: handles, ours and the published ones"
    );
    memory.is_list(score, &list, what);
    let published = &replayed.words;
    assert_eq!(list.nodes.as_flattened(), published.nodes, "{what}: nodes");
    assert_eq!(list.roots, published.roots, "{what}: roots");
    same_constants(&list.base_consts, &published.base_consts, what);
    same_constants(list.ext_consts.as_flattened(), &published.ext_consts, what);
    compared.rows += 1;
    compared.calls += calls.len() as u64;
    compared.nodes += list.nodes.len() as u64;
    score.agreed += 1;
    memory
}

/// All calls in these rooms, on the host's builder and the two plain ones, and the gaps after them.
#[track_caller]
pub fn in_rooms(score: &mut Score, calls: &[Call], rooms: &Rooms, what: Arguments<'_>) -> Memory {
    let what = format_args!("{what}, {rooms:?}, {calls:?}");
    let mut memory = Memory::unwritten(rooms);
    let before = memory.words();
    let (answer, zero) = memory.call(score, &Call::New, what);
    let mut list = match List::new(*rooms) {
        Ok(list) => list,
        Err(number) => {
            assert_eq!(answer, Err(super::refused(number)), "{what}");
            assert_eq!(memory.words(), before, "{what}: no fresh builder, and nothing written");
            return memory;
        }
    };
    assert_eq!((answer, zero), (Ok(()), Handle::default()), "{what}");
    for call in calls {
        let listed = list.call(call);
        let (answer, made) = memory.call(score, call, what);
        assert_eq!(
            answer.map_err(|refusal| refusal.number),
            listed.map(|_| ()),
            "{call:?}, {what}"
        );
        if let Ok(Some(handle)) = listed {
            assert_eq!(made, handle, "{call:?}, {what}");
        }
    }
    memory.is_list(score, &list, what);
    for room in 0..=list.roots.len() {
        let gaps = memory.gaps(score, room, what);
        assert_eq!(gaps, list.gaps(room), "{what}: the gaps in {room} words");
    }
    memory
}

/// Ours are below p; the published ones are any words of the same value.
#[track_caller]
fn same_constants(ours: &[u64], published: &[u64], what: Arguments<'_>) {
    assert!(ours.iter().all(|word| *word < P), "{what}: constants below p");
    let reduced: Vec<u64> = published.iter().map(|word| word % P).collect();
    assert_eq!(ours, reduced, "{what}: constants");
}

/// The same calls on the builder that owns its tables, which grow.
#[track_caller]
pub fn owned(score: &mut Score, calls: &[Call], list: &List, what: Arguments<'_>) {
    let mut builder = Builder::with_room(1 + calls.len() % 7);
    let zero = builder.const_base(0).expect("node 0 is there");
    let mut exprs = vec![zero];
    for call in calls {
        let made = match *call {
            Call::Emit(constraint, root) => builder.emit(constraint, exprs[root.id as usize]).map(|()| None),
            _ => builder.make(&exprs, call).map(Some),
        };
        if let Ok(Some(made)) = made
            && made.id() as usize == exprs.len()
        {
            exprs.push(made);
        }
        score.answered(&made.map(|_| ()).map_err(|error| super::refused(error.number())));
    }
    let what = format_args!("the builder that grows, {what}, {calls:?}");
    let gaps: Vec<u64> = builder.gaps().into_iter().map(|gap| gap as u64).collect();
    assert_eq!(Ok(gaps), list.gaps(usize::MAX), "{what}: gaps");
    let program = builder.finish(0).expect("a builder's program is well-formed");
    let words = program.words();
    assert_eq!(words.nodes, list.nodes, "{what}: nodes");
    assert_eq!(words.base_consts, list.base_consts, "{what}: constants");
    assert_eq!(words.ext_consts, list.ext_consts, "{what}: extension constants");
    assert_eq!(words.roots, list.roots, "{what}: roots");
}

impl Compared {
    pub fn say(&self) {
        println!(
            "{} rows of calls agree with the published builder: {} calls, {} of them answered with a node that was there, \
             {} refused; {} nodes",
            self.rows, self.calls, self.shared, self.refused, self.nodes
        );
    }
}
