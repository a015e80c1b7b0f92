//! Tables that are full: rows of calls in every short room, held to the builder that is lists; and each refusal by itself, in
//! its order, and at its limit.

#![forbid(unsafe_code)]

use differential::builder::agree::in_rooms;
use differential::builder::compare::{Memory, Words};
use differential::builder::{Call, INDEXES, Recipe, Rooms, random_calls, refused};
use differential::inputs::Random;
use differential::{P, Score};
use host::lent::builder::{Filled, Handle};

const fn base(id: u32) -> Handle {
    Handle { id, dim: 0 }
}

const fn ext(id: u32) -> Handle {
    Handle { id, dim: 1 }
}

#[test]
fn every_short_room_is_that_of_the_lists() {
    const SEED: u64 = 0x726F_6F6D;
    let rows = if cfg!(debug_assertions) { 60 } else { 600 };
    let (mut random, mut score) = (Random::new(SEED), Score::new("every short room"));
    let mut runs = 0;
    for _ in 0..rows {
        let recipe = Recipe {
            calls: 4 + random.below(20),
            leaves: 3,
            constraints: random.pick(&[0, 2, 5]),
            limits: 40,
        };
        let (calls, list) = random_calls(&mut random, &recipe);
        let mut ample = Rooms::of(&list.filled());
        ample.places *= 2;
        for room in 0..5 {
            for len in 0..=*ample.each_mut()[room] + 1 {
                let mut rooms = ample;
                *rooms.each_mut()[room] = len;
                in_rooms(&mut score, &calls, &rooms, format_args!("seed {SEED:#x}"));
                runs += 1;
            }
        }
        // All of them short at once.
        for len in 0..list.nodes.len() {
            let mut rooms = ample;
            for room in rooms.each_mut() {
                *room = random.below(len + 1).min(*room);
            }
            in_rooms(&mut score, &calls, &rooms, format_args!("seed {SEED:#x}"));
            runs += 1;
        }
    }
    println!("every short room: {rows} rows of calls of seed {SEED:#x} in {runs} sets of rooms");
    score.finish(&[0, 2, 3, 4, 5, 6, 10]);
}

const AMPLE: Rooms = Rooms {
    nodes: 8,
    places: 16,
    base_consts: 4,
    ext_consts: 4,
    roots: 4,
};

/// What each call answers, on a fresh builder with these rooms.
#[track_caller]
fn answers(rooms: Rooms, calls: &[Call]) -> Vec<Result<Option<Handle>, u8>> {
    let mut score = Score::new("named calls");
    let what = format_args!("named calls");
    in_rooms(&mut score, calls, &rooms, what);
    let mut memory = Memory::unwritten(&rooms);
    memory.call(&mut score, &Call::New, what).0.expect("a fresh builder");
    let one = |call: &Call| match memory.call(&mut score, call, what) {
        (Ok(()), _) if matches!(call, Call::Emit(..)) => Ok(None),
        (Ok(()), made) => Ok(Some(made)),
        (Err(refusal), _) => Err(refusal.number),
    };
    calls.iter().map(one).collect()
}

fn made(id: u32, dim: u32) -> Result<Option<Handle>, u8> {
    Ok(Some(Handle { id, dim }))
}

#[test]
fn an_equal_node_is_answered_when_the_tables_are_full() {
    let rooms = |nodes, places| Rooms { nodes, places, ..AMPLE };
    let calls = [
        Call::Challenge(0),
        Call::Main { offset: 0, column: 0 },
        Call::Challenge(0),
        Call::Add(base(0), ext(1)),
        Call::TableOffset,
        Call::ConstBase(P),
        Call::ConstBase(7),
        Call::ConstExt([7, 7, 7]),
        Call::Challenge(0),
        Call::Neg(ext(1)),
    ];
    // Two nodes fit, for want of nodes or of places.
    for rooms in [rooms(2, 2), rooms(2, 9), rooms(5, 2)] {
        let expected = [
            made(1, 1),
            Err(4),
            made(1, 1),
            Err(4),
            Err(4),
            made(0, 0),
            Err(4),
            Err(4),
            made(1, 1),
            Err(4),
        ];
        assert_eq!(answers(rooms, &calls), expected, "{rooms:?}");
    }
}

#[test]
fn a_constant_whose_node_finds_no_room_leaves_none_behind() {
    let rooms = Rooms { nodes: 1, ..AMPLE };
    let mut score = Score::new("no constant is left");
    let calls = [
        Call::ConstBase(7),
        Call::ConstSigned(-7),
        Call::One,
        Call::ConstExt([1, 2, 3]),
    ];
    let mut memory = in_rooms(&mut score, &calls, &rooms, format_args!("named calls"));
    let words = memory.words();
    let expected = Filled {
        nodes: 1,
        base_consts: 1,
        ext_consts: 0,
        roots: 0,
    };
    assert_eq!(words.filled, expected);
    assert!(
        words.base_consts[1..].iter().all(|word| P < *word),
        "only the constant 0 is written"
    );
    assert!(
        words.ext_consts.iter().all(|word| P < *word),
        "no extension constant is written"
    );
    score.finish(&[0, 4]);
}

#[test]
fn a_new_constant_is_refused_before_its_node() {
    let full = Rooms {
        nodes: 1,
        base_consts: 1,
        ext_consts: 0,
        ..AMPLE
    };
    let calls = [
        Call::ConstBase(0),
        Call::ConstBase(P),
        Call::ConstBase(1),
        Call::One,
        Call::ConstSigned(-1),
        Call::ConstExt([0; 3]),
    ];
    assert_eq!(
        answers(full, &calls),
        [made(0, 0), made(0, 0), Err(5), Err(5), Err(5), Err(5)]
    );
    // Its table has room: then it is the node.
    let room = Rooms {
        base_consts: 2,
        ext_consts: 1,
        ..full
    };
    assert_eq!(
        answers(room, &calls),
        [made(0, 0), made(0, 0), Err(4), Err(4), Err(4), Err(4)]
    );
}

#[test]
fn a_fresh_builder_needs_a_constant_and_a_node() {
    let mut score = Score::new("a fresh builder");
    for nodes in 0..3 {
        for places in 0..3 {
            for base_consts in 0..3 {
                let rooms = Rooms {
                    nodes,
                    places,
                    base_consts,
                    ..AMPLE
                };
                let mut memory = Memory::unwritten(&rooms);
                let (answer, _) = memory.call(&mut score, &Call::New, format_args!("{rooms:?}"));
                let expected = if base_consts == 0 {
                    Err(refused(5))
                } else if nodes.min(places) == 0 {
                    Err(refused(4))
                } else {
                    Ok(())
                };
                assert_eq!(answer, expected, "{rooms:?}");
            }
        }
    }
    score.finish(&[0, 4, 5]);
}

#[test]
fn a_column_or_index_is_at_most_65535() {
    let calls: [fn(usize) -> Call; 4] = [
        |column| Call::Main { offset: 255, column },
        |column| Call::Aux { offset: 0, column },
        Call::Challenge,
        Call::AlphaPower,
    ];
    for call in calls {
        let row = INDEXES.map(call);
        let dim = u32::from(!matches!(row[0], Call::Main { .. }));
        let expected = [made(1, dim), made(2, dim), Err(2), Err(2), Err(2), Err(2)];
        assert_eq!(answers(AMPLE, &row), expected, "{row:?}");
    }
}

#[test]
fn a_foreign_handle_is_refused() {
    // Node 1 is extension, node 2 base; there is no node 3.
    let there = [Call::TableOffset, Call::Main { offset: 0, column: 3 }];
    let foreign = [
        base(1),
        ext(0),
        ext(2),
        base(3),
        ext(3),
        base(u32::MAX),
        ext(u32::MAX),
        Handle { id: 1, dim: 2 },
        Handle { id: 2, dim: u32::MAX },
        Handle { id: 0, dim: 2 },
    ];
    for handle in foreign {
        let calls = [
            Call::Add(handle, base(0)),
            Call::Add(ext(1), handle),
            Call::Sub(handle, handle),
            Call::Mul(base(2), handle),
            Call::Neg(handle),
            Call::Embed(handle),
            Call::Emit(0, handle),
            Call::Emit(9, handle),
        ];
        let row = [&there[..], &calls[..]].concat();
        assert_eq!(answers(AMPLE, &row)[2..], [Err(3); 8], "{handle:?}");
    }
    let known = [
        Call::Add(ext(1), base(2)),
        Call::Neg(base(0)),
        Call::Embed(ext(3)),
        Call::Emit(1, ext(5)),
    ];
    let row = [&there[..], &known[..]].concat();
    assert_eq!(
        answers(AMPLE, &row)[2..],
        [made(3, 1), made(4, 0), made(5, 1), Ok(None)]
    );
}

#[test]
fn constraints_fill_the_root_room() {
    let calls = [
        Call::Emit(4, base(0)),
        Call::One,
        Call::Emit(2, base(1)),
        Call::Emit(usize::MAX, base(1)),
        Call::Emit(3, base(0)),
        Call::Emit(3, base(1)),
        Call::Emit(2, base(0)),
    ];
    let done = Ok(None);
    assert_eq!(
        answers(AMPLE, &calls),
        [Err(6), made(1, 0), done, Err(6), done, done, done]
    );
    let none = Rooms { roots: 0, ..AMPLE };
    assert_eq!(answers(none, &[Call::Emit(0, base(0))]), [Err(6)]);
    let mut score = Score::new("roots");
    let mut memory = in_rooms(&mut score, &calls, &AMPLE, format_args!("named calls"));
    assert_eq!(memory.words().roots, [0, 0, 0, 1]);
    assert_eq!(
        memory.gaps(&mut score, 3, format_args!("three gaps")),
        Ok(vec![0, 1, 2])
    );
    score.finish(&[0, 6, 10]);
}

/// The refusals that a call can give, in their order; a call is made so that any set of them holds.
const ORDER: [u8; 6] = [1, 2, 3, 6, 5, 4];

/// A call and its memory, where exactly these refusals hold: two nodes, one constant of each class, one root.
fn refusing(call: usize, holds: impl Fn(u8) -> bool) -> (Call, Words) {
    let filled = if holds(1) { usize::MAX } else { 2 };
    let index = if holds(2) { 65_536 } else { 3 };
    let handle = if holds(3) { ext(0) } else { ext(1) };
    let value = 9;
    let room = |number: u8, needed: usize| if holds(number) { needed } else { needed + 1 };
    let mut words = Words {
        filled: Filled {
            nodes: 2,
            base_consts: 1,
            ext_consts: 1,
            roots: 1,
        },
        nodes: [vec![0, 0, 0, 0, 5, 0, 0, 1], vec![u32::MAX; 4 * (room(4, 2) - 2)]].concat(),
        places: vec![0; 4],
        base_consts: [vec![0], vec![u64::MAX; room(5, 1) - 1]].concat(),
        ext_consts: vec![0; 3 * room(5, 1)],
        roots: vec![1; room(6, 4)],
    };
    words.filled.nodes = filled;
    let call = [
        Call::Main {
            offset: 1,
            column: index,
        },
        Call::Aux {
            offset: 1,
            column: index,
        },
        Call::Challenge(index),
        Call::AlphaPower(index),
        Call::ConstBase(value),
        Call::ConstSigned(-1),
        Call::ConstExt([value; 3]),
        Call::One,
        Call::Add(handle, base(0)),
        Call::Sub(base(0), handle),
        Call::Mul(handle, handle),
        Call::Neg(handle),
        Call::Embed(handle),
        Call::Emit(4, handle),
    ][call];
    (call, words)
}

/// The refusals of each call of `refusing`.
fn of_call(call: usize) -> &'static [u8] {
    match call {
        0..4 => &[1, 2, 4],
        4..8 => &[1, 5, 4],
        8..13 => &[1, 3, 4],
        _ => &[1, 3, 6],
    }
}

#[test]
fn every_set_of_refusals_is_answered_with_its_first() {
    let mut score = Score::new("every set of refusals");
    for call in 0..14 {
        let numbers = of_call(call);
        for set in 0..1 << numbers.len() {
            let holds = |number: u8| {
                numbers
                    .iter()
                    .position(|own| *own == number)
                    .is_some_and(|at| set >> at & 1 == 1)
            };
            let (call, words) = refusing(call, holds);
            let mut memory = Memory::of(&words);
            let (answer, _) = memory.call(&mut score, &call, format_args!("set {set}"));
            let first = ORDER.into_iter().find(|number| holds(*number));
            assert_eq!(
                answer,
                first.map_or(Ok(()), |number| Err(refused(number))),
                "{call:?}, set {set}"
            );
            if first.is_some() {
                assert_eq!(memory.words(), words, "{call:?}, set {set}: a refusal changes no word");
            }
        }
    }
    score.finish(&[0, 1, 2, 3, 4, 5, 6]);
}

/// A count of a builder.
type Count = fn(&mut Filled) -> &mut usize;

/// The counts that a call reads, each with the most that its memory is enough for.
fn counts(call: &Call, words: &Words) -> Vec<(Count, usize)> {
    let nodes = words.nodes.len() / 4;
    let mut counts: Vec<(Count, usize)> = match call {
        // It borrows no places.
        Call::Emit(..) => vec![
            (|filled| &mut filled.nodes, nodes),
            (|filled| &mut filled.roots, words.roots.len()),
        ],
        _ => vec![(|filled| &mut filled.nodes, nodes.min(words.places.len()))],
    };
    match call {
        Call::ConstBase(_) | Call::ConstSigned(_) | Call::One => {
            counts.push((|filled| &mut filled.base_consts, words.base_consts.len()));
        }
        Call::ConstExt(_) => counts.push((|filled| &mut filled.ext_consts, words.ext_consts.len() / 3)),
        _ => {}
    }
    counts
}

#[test]
fn each_count_past_its_memory_is_refused_first() {
    let mut score = Score::new("counts past their memory");
    let past = [
        0,
        1,
        2,
        1 << 31,
        usize::MAX / 4,
        usize::MAX / 2,
        usize::MAX - 9,
        usize::MAX,
    ];
    for call in 0..14 {
        // More places than nodes, and fewer.
        for places in [4, 2] {
            let (call, mut words) = refusing(call, |_| false);
            words.places.truncate(places);
            for (count, most) in counts(&call, &words) {
                for more in past {
                    let mut words = words.clone();
                    *count(&mut words.filled) = most.saturating_add(more);
                    let mut memory = Memory::of(&words);
                    let what = format_args!("{more} past what is lent, {words:?}");
                    let (answer, _) = memory.call(&mut score, &call, what);
                    assert_eq!(answer == Err(refused(1)), more != 0, "{call:?}, {what}");
                }
            }
        }
    }
    for more in past {
        let filled = Filled {
            roots: 3usize.saturating_add(more),
            ..Filled::default()
        };
        let roots = vec![0; 3];
        let mut memory = Memory::of(&Words {
            filled,
            roots,
            ..Words::default()
        });
        let expected = if more == 0 { Err(10) } else { Err(1) };
        assert_eq!(
            memory.gaps(&mut score, 2, format_args!("{more} past the roots")),
            expected
        );
    }
    score.finish(&[0, 1, 4, 5, 10]);
}
