//! Calls on a builder in bytes, against the same calls on the same builder in words.
//!
//! Tables and rooms stand between guards. After each call every byte, every word of the rooms, the counts and the handle have
//! to be the packing of what the call on words left: held in turn to `plain::probe`, as [`Memory`] does.

use std::array;
use std::fmt::Arguments;

use host::lent::builder::{self as word_calls, Filled, Handle, Tables};
use host::lent::builder_bytes::{self as host_calls, ByteTables, TableRooms};

use super::agree::{self, Compared, short_of_room, with_room};
use super::compare::{Memory, Words, between_guards, unmade};
use super::{Call, Rooms, hostile, refused};
use crate::Score;
use crate::inputs::Random;
use crate::programs::compare::{Answer, Lent, same_answer};
use crate::stored::{and_some, bytes32, bytes64, put, words32, words64};

/// A builder's tables in bytes, and the same builder in words.
struct Bytes {
    words: Memory,
    filled: Filled,
    nodes: Lent<u8>,
    places: Lent<u8>,
    base_consts: Lent<u8>,
    ext_consts: Lent<u8>,
    roots: Lent<u8>,
    made: Lent<Handle>,
}

/// How many words each room has more than its bytes, or less: of nodes, places, constants and roots.
type Spare = [isize; 4];

/// Rooms for words, which hold what no table holds.
struct WordRooms {
    nodes: Lent<u32>,
    places: Lent<u32>,
    constants: Lent<u64>,
    roots: Lent<u32>,
}

fn room32(len: usize) -> Lent<u32> {
    Lent::filled(len, |at| u32::MAX / 3 + at as u32)
}

fn room64(len: usize) -> Lent<u64> {
    Lent::filled(len, |at| u64::MAX / 3 + at as u64)
}

fn lent_bytes(bytes: &[u8]) -> Lent<u8> {
    Lent::filled(bytes.len(), between_guards(bytes, |at| !(at as u8)))
}

impl WordRooms {
    fn new(lens: [usize; 4]) -> Self {
        WordRooms {
            nodes: room32(lens[0]),
            places: room32(lens[1]),
            constants: room64(lens[2]),
            roots: room32(lens[3]),
        }
    }

    fn lend(&mut self) -> TableRooms<'_> {
        TableRooms {
            nodes: self.nodes.host(),
            places: self.places.host(),
            constants: self.constants.host(),
            roots: self.roots.host(),
        }
    }

    /// The words of the tables that the call uses, at the fronts of the plain side.
    fn put(&mut self, call: &Call, words: &Words) {
        let [nodes, places, constants, roots] = uses(call);
        if nodes {
            put(self.nodes.plain(), &words.nodes);
        }
        if places {
            put(self.places.plain(), &words.places);
        }
        if constants {
            let table = match call {
                Call::ConstExt(_) => &words.ext_consts,
                _ => &words.base_consts,
            };
            put(self.constants.plain(), table);
        }
        if roots {
            put(self.roots.plain(), &words.roots);
        }
    }

    #[track_caller]
    fn compare(&self, score: &mut Score, what: Arguments<'_>) {
        self.nodes.compare("node_words", score, what);
        self.places.compare("place_words", score, what);
        self.constants.compare("const_words", score, what);
        self.roots.compare("root_words", score, what);
    }
}

/// Which of the four rooms a call uses.
fn uses(call: &Call) -> [bool; 4] {
    match call {
        Call::Emit(..) => [true, false, false, true],
        Call::New | Call::ConstBase(_) | Call::ConstSigned(_) | Call::One | Call::ConstExt(_) => {
            [true, true, true, false]
        }
        _ => [true, true, false, false],
    }
}

impl Bytes {
    /// Tables of these words, with a few bytes more than make a word.
    fn of(random: &mut Random, words: &Words) -> Self {
        let mut shorts = |words: &[u32]| lent_bytes(&and_some(random, bytes32(words), 4));
        let (nodes, places, roots) = (shorts(&words.nodes), shorts(&words.places), shorts(&words.roots));
        let mut longs = |words: &[u64]| lent_bytes(&and_some(random, bytes64(words), 8));
        Bytes {
            words: Memory::of(words),
            filled: words.filled,
            nodes,
            places,
            base_consts: longs(&words.base_consts),
            ext_consts: longs(&words.ext_consts),
            roots,
            made: unmade(),
        }
    }

    /// Tables that nobody has written.
    fn unwritten(random: &mut Random, rooms: &Rooms) -> Self {
        Bytes::of(random, &Memory::unwritten(rooms).words())
    }

    /// The words that the bytes hold.
    fn words(&mut self) -> Words {
        Words {
            filled: self.filled,
            nodes: words32(self.nodes.host()),
            places: words32(self.places.host()),
            base_consts: words64(self.base_consts.host()),
            ext_consts: words64(self.ext_consts.host()),
            roots: words32(self.roots.host()),
        }
    }

    /// How many words each room that the call uses has to hold; 0 for the others.
    fn needs(&mut self, call: &Call) -> [usize; 4] {
        let constants = match call {
            Call::ConstExt(_) => self.ext_consts.host().len(),
            _ => self.base_consts.host().len(),
        };
        let whole = [
            self.nodes.host().len() / 4,
            self.places.host().len() / 4,
            constants / 8,
            self.roots.host().len() / 4,
        ];
        let uses = uses(call);
        array::from_fn(|k| if uses[k] { whole[k] } else { 0 })
    }

    /// The call on bytes, and on words where each room is long enough.
    #[track_caller]
    fn call(&mut self, score: &mut Score, call: &Call, spare: Spare, what: Arguments<'_>) -> Answer {
        let what = format_args!("{call:?} on bytes, words to spare {spare:?}, {what}");
        let needs = self.needs(call);
        let lens = array::from_fn(|k| needs[k].saturating_add_signed(spare[k]));
        let mut rooms = WordRooms::new(lens);
        let mut tables = ByteTables {
            bytes: Tables {
                filled: self.filled,
                nodes: self.nodes.host(),
                places: self.places.host(),
                base_consts: self.base_consts.host(),
                ext_consts: self.ext_consts.host(),
                roots: self.roots.host(),
            },
            words: rooms.lend(),
        };
        let answer = call.on_bytes(&mut tables, &mut self.made.host()[0]);
        self.filled = tables.bytes.filled;
        let expected = if (0..4).any(|k| lens[k] < needs[k]) {
            Err(refused(1))
        } else {
            self.on_words(call, &mut rooms, what)
        };
        same_answer(score, &answer, &expected, what);
        assert_eq!(
            self.filled,
            self.words.filled(),
            "{what}: the counts, on bytes and on words"
        );
        rooms.compare(score, what);
        self.compare(score, what);
        answer
    }

    /// The call on words, and what it leaves as the plain side of the bytes and rooms.
    #[track_caller]
    fn on_words(&mut self, call: &Call, rooms: &mut WordRooms, what: Arguments<'_>) -> Answer {
        let (answer, made) = self.words.call(&mut Score::new("the same call on words"), call, what);
        let words = self.words.words();
        rooms.put(call, &words);
        if answer.is_ok() {
            put(self.nodes.plain(), &bytes32(&words.nodes));
            put(self.places.plain(), &bytes32(&words.places));
            put(self.base_consts.plain(), &bytes64(&words.base_consts));
            put(self.ext_consts.plain(), &bytes64(&words.ext_consts));
            put(self.roots.plain(), &bytes32(&words.roots));
            self.made.plain()[0] = made;
        }
        answer
    }

    #[track_caller]
    fn compare(&self, score: &mut Score, what: Arguments<'_>) {
        let tables = [
            (&self.nodes, "nodes"),
            (&self.places, "places"),
            (&self.base_consts, "base_consts"),
            (&self.ext_consts, "ext_consts"),
            (&self.roots, "roots"),
        ];
        for (table, name) in tables {
            table.compare(name, score, what);
        }
        self.made.compare("the handle", score, what);
    }

    /// The gap report into these bytes, with so many words to spare in the room of the roots and in that of the report.
    #[track_caller]
    fn gaps(&mut self, score: &mut Score, out: &[u8], spare: [isize; 2], what: Arguments<'_>) -> Answer {
        let what = format_args!("gaps into {} bytes, words to spare {spare:?}, {what}", out.len());
        let needs = [self.roots.host().len() / 4, out.len() / 8];
        let lens: [usize; 2] = array::from_fn(|k| needs[k].saturating_add_signed(spare[k]));
        let (mut root_words, mut out_words) = (room32(lens[0]), room64(lens[1]));
        let (mut out, mut count) = (lent_bytes(out), Lent::words(1));
        let filled = self.filled.roots;
        let answer = host_calls::gaps(
            filled,
            self.roots.host(),
            out.host(),
            root_words.host(),
            out_words.host(),
            &mut count.host()[0],
        );
        let expected = if (0..2).any(|k| lens[k] < needs[k]) {
            Err(refused(1))
        } else {
            let (roots, mut report) = (words32(self.roots.plain()), words64(out.plain()));
            let answer = word_calls::gaps(filled, &roots, &mut report, &mut count.plain()[0]);
            put(root_words.plain(), &roots);
            put(out_words.plain(), &report);
            if answer.is_ok() {
                put(out.plain(), &bytes64(&report));
            }
            answer
        };
        same_answer(score, &answer, &expected, what);
        root_words.compare("root_words", score, what);
        out_words.compare("out_words", score, what);
        out.compare("out", score, what);
        count.compare("count", score, what);
        self.compare(score, what);
        answer
    }

    /// The call with every set of its rooms one word short, where they have one, and with every set of them empty.
    #[track_caller]
    fn in_short_rooms(&mut self, score: &mut Score, call: &Call, what: Arguments<'_>) {
        let needs = self.needs(call);
        for set in 1..16 {
            if (0..4).any(|k| set >> k & 1 == 1 && needs[k] == 0) {
                continue;
            }
            for short in [1, isize::MAX] {
                let spare = array::from_fn(|k| if set >> k & 1 == 1 { -short } else { 0 });
                let answer = self.call(score, call, spare, what);
                assert_eq!(answer, Err(refused(1)), "{call:?}, {spare:?}, {what}");
            }
        }
    }

    /// The gap report into room for none to eight gaps and for all roots, with a few bytes more than make a word.
    #[track_caller]
    fn all_gaps(&mut self, score: &mut Score, random: &mut Random, what: Arguments<'_>) {
        let roots = self.roots.host().len() / 4;
        for room in (0..=roots.min(8)).chain([roots]) {
            let out = some_bytes(random, room);
            for spare in [[0, 0], [2, 1], [-1, 0], [0, -1]] {
                _ = self.gaps(score, &out, spare, what);
            }
        }
    }
}

/// So many words of eight bytes, and a few bytes more.
fn some_bytes(random: &mut Random, words: usize) -> Vec<u8> {
    let words: Vec<u64> = (0..words).map(|_| random.uniform()).collect();
    and_some(random, bytes64(&words), 8)
}

/// Rooms that are exact or longer.
fn enough(random: &mut Random) -> Spare {
    [0; 4].map(|_| random.pick(&[0, 0, 1, 5]))
}

/// A fresh builder, these calls, and the gap report.
#[track_caller]
fn row(score: &mut Score, random: &mut Random, calls: &[Call], rooms: &Rooms, what: Arguments<'_>) -> Bytes {
    let mut bytes = Bytes::unwritten(random, rooms);
    for call in [Call::New].iter().chain(calls) {
        let spare = enough(random);
        _ = bytes.call(score, call, spare, what);
    }
    bytes.all_gaps(score, random, what);
    bytes
}

/// A random row of calls where there is room for all: on bytes, and on words with the published builder.
#[track_caller]
pub fn random_row(score: &mut Score, random: &mut Random, compared: &mut Compared, what: Arguments<'_>) {
    let (calls, _, rooms) = with_room(random);
    let mut bytes = row(score, random, &calls, &rooms, what);
    let mut published = agree::row(&mut Score::new("the same row on words"), compared, &calls, &rooms, what);
    assert_eq!(
        bytes.words(),
        published.words(),
        "{what}, {calls:?}: the tables, in bytes and in words"
    );
    score.agreed += 1;
}

/// A random row of calls in tables that are too short for it.
#[track_caller]
pub fn short_row(score: &mut Score, random: &mut Random, what: Arguments<'_>) {
    let (calls, rooms) = short_of_room(random);
    row(score, random, &calls, &rooms, what);
}

/// A random row of calls, each first in every set of short rooms, then in rooms that all have so many words to spare.
#[track_caller]
pub fn row_in_short_rooms(score: &mut Score, random: &mut Random, spare: isize, what: Arguments<'_>) {
    let (calls, rooms) = short_of_room(random);
    let mut bytes = Bytes::unwritten(random, &rooms);
    for call in [Call::New].iter().chain(&calls) {
        bytes.in_short_rooms(score, call, what);
        _ = bytes.call(score, call, [spare; 4], what);
    }
}

/// A few calls over bytes that no builder wrote, in rooms of which some are short, and the gap report.
#[track_caller]
pub fn any_memory(score: &mut Score, random: &mut Random, what: Arguments<'_>) {
    let words = hostile::any_words(random);
    let mut bytes = Bytes::of(random, &words);
    for _ in 0..1 + random.below(5) {
        let before = bytes.words();
        let call = hostile::any_call(random, &before);
        let spare = if random.once_in(8) {
            [0; 4].map(|_| random.pick(&[0, 1, -1, -2]))
        } else {
            enough(random)
        };
        let answer = bytes.call(score, &call, spare, format_args!("{what}, {before:?}"));
        if answer.is_err() {
            assert_eq!(bytes.words(), before, "{call:?}, {what}: a refusal changes no byte");
        }
    }
    let len = random.below(7);
    let out = some_bytes(random, len);
    let spare = [0; 2].map(|_| random.pick(&[0, 0, 0, 2, -1]));
    _ = bytes.gaps(score, &out, spare, what);
}
