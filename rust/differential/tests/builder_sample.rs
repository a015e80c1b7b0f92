//! The printed sample of builder calls: its lines hold what their description says, the host gives the answers in them, the
//! published builder confirms those of rows where there is room, and the Rattle program that replays it reads the same lines.

#![forbid(unsafe_code)]

use std::collections::BTreeSet;

use differential::Score;
use differential::builder::agree::{Compared, row};
use differential::builder::sample::{Asked, lines, rows};
use differential::builder::{Call, Rooms};
use differential::lines::{Numbers, file_has};
use differential::plain::builder::List;
use host::lent::builder::{Filled, Handle, Tables, gaps};

fn handle(coded: u64) -> Handle {
    Handle {
        id: coded as u32,
        dim: (coded >> 32) as u32,
    }
}

/// What the numbers of a call say, by the description of a line alone. 16 is no call that changes a builder.
fn call([number, a, b, c]: [u64; 4]) -> Option<Call> {
    let (offset, column, index) = (a as u8, b as usize, a as usize);
    Some(match number {
        0 => Call::New,
        1 => Call::Main { offset, column },
        2 => Call::Aux { offset, column },
        3 => Call::Challenge(index),
        4 => Call::AlphaPower(index),
        5 => Call::TableOffset,
        6 => Call::ConstBase(a),
        7 => Call::ConstSigned(a as i64),
        8 => Call::ConstExt([a, b, c]),
        9 => Call::One,
        10 => Call::Add(handle(a), handle(b)),
        11 => Call::Sub(handle(a), handle(b)),
        12 => Call::Mul(handle(a), handle(b)),
        13 => Call::Neg(handle(a)),
        14 => Call::Embed(handle(a)),
        15 => Call::Emit(index, handle(b)),
        16 => return None,
        _ => panic!("{number} is no call"),
    })
}

/// The gaps, or the number of the refusal.
fn listed(filled: usize, roots: &[u32], room: usize) -> Result<Vec<u64>, u8> {
    let (mut out, mut count) = (vec![0; room], 0);
    gaps(filled, roots, &mut out, &mut count).map_err(|refusal| refusal.number)?;
    out.truncate(count as usize);
    Ok(out)
}

#[test]
fn host_gives_the_sample() {
    let lines = lines();
    let (mut answered, mut asked, mut all) = (BTreeSet::new(), BTreeSet::new(), 0);
    for (at, line) in lines.iter().enumerate() {
        let what = &format!("row {at}: {line}");
        let mut numbers = Numbers::of(line);
        let [nodes, places, base_consts, ext_consts, roots] = [(); 5].map(|()| numbers.count());
        let (mut nodes, mut places) = (vec![1; 4 * nodes], vec![1; places]);
        let (mut base_consts, mut ext_consts) = (vec![1; base_consts], vec![1; 3 * ext_consts]);
        let mut roots = vec![1; roots];
        let mut tables = Tables {
            filled: Filled::default(),
            nodes: &mut nodes,
            places: &mut places,
            base_consts: &mut base_consts,
            ext_consts: &mut ext_consts,
            roots: &mut roots,
        };
        for _ in 0..numbers.count() {
            let arguments = [(); 4].map(|()| numbers.one());
            asked.insert(arguments[0]);
            let mut made = Handle::default();
            let (answer, gives) = match call(arguments) {
                Some(call) => {
                    let answer = call.on_host(&mut tables, &mut made);
                    let number = answer.map_or_else(|refusal| refusal.number, |()| 0);
                    (number, u64::from(made.id) + (u64::from(made.dim) << 32))
                }
                None => match listed(tables.filled.roots, tables.roots, arguments[1] as usize) {
                    Ok(gaps) => (0, gaps.len() as u64),
                    Err(number) => (number, 0),
                },
            };
            assert_eq!(
                (u64::from(answer), gives),
                (numbers.one(), numbers.one()),
                "{arguments:?}, {what}"
            );
            answered.insert(answer);
            all += 1;
        }
        let Filled {
            nodes,
            base_consts,
            ext_consts,
            roots,
        } = tables.filled;
        let counts = [(); 4].map(|()| numbers.count());
        assert_eq!([nodes, base_consts, ext_consts, roots], counts, "{what}");
        assert_eq!(tables.nodes[..4 * nodes], numbers.short_words(4 * nodes), "{what}");
        assert_eq!(tables.base_consts[..base_consts], numbers.words(base_consts), "{what}");
        assert_eq!(
            tables.ext_consts[..3 * ext_consts],
            numbers.words(3 * ext_consts),
            "{what}"
        );
        assert_eq!(tables.roots[..roots], numbers.short_words(roots), "{what}");
        let count = numbers.count();
        assert_eq!(listed(roots, tables.roots, count), Ok(numbers.words(count)), "{what}");
        numbers.end(what);
    }
    println!(
        "the sample: {} rows, {all} calls with answers {answered:?}",
        lines.len()
    );
    assert_eq!(asked, BTreeSet::from_iter(0..=16));
    assert_eq!(answered, BTreeSet::from([0, 2, 3, 4, 5, 6, 10]));
}

/// The Rattle program that replays the sample has it in a file of its own.
#[test]
fn builder_cases_has_the_sample() {
    let (file, kept) = (
        "crates/builder_cases/stdin",
        include_str!("../../../crates/builder_cases/stdin"),
    );
    file_has(file, kept, &lines(), "builder_sample");
}

/// Whether the published builder has answers for these calls: it has no rooms, and no handles but its own.
fn published_has(rooms: Rooms, calls: &[Call]) -> bool {
    List::new(rooms).is_ok_and(|mut list| calls.iter().all(|call| matches!(list.call(call), Ok(_) | Err(2))))
}

/// The answers in the sample are those of plain lists; here the published builder confirms them.
#[test]
fn published_builder_confirms_the_sample() {
    let (mut score, mut compared) = (Score::new("the sample"), Compared::default());
    for (at, sampled) in rows().iter().enumerate() {
        let calls = sampled.asked.iter().filter_map(|asked| match asked {
            Asked::Call(call) => Some(*call),
            Asked::Gaps(_) => None,
        });
        let calls: Vec<Call> = calls.collect();
        if published_has(sampled.rooms, &calls) {
            row(
                &mut score,
                &mut compared,
                &calls,
                &sampled.rooms,
                format_args!("row {at}"),
            );
        }
    }
    compared.say();
    assert!(15 <= compared.rows);
    score.finish(&[0, 2]);
}
