//! Stored form A over lent memory, on E lowered as document 01 lists it: written, read and listed, and what is refused.

#![forbid(unsafe_code)]

use host::lent::blob::{Blob, BlobCounts};
use host::lent::lower::Rooms;
use host::lent::stored::{LISTING_ROOM, list_stored, read_stored, write_stored};
use host::{P, Refusal};

const B: u32 = 1 << 31;

const COUNTS: BlobCounts = BlobCounts {
    nodes: 7,
    base_consts: 2,
    ext_consts: 0,
    roots: 2,
    num_base: 1,
    base_slots: 2,
    ext_slots: 1,
};

const NODES: [u32; 28] = [
    2, 0, 65536, 0, 2, 0, 65792, 1, 7, 1, 0, 0, 7, 0, 1073741825, 0, 2, 2, 0, B, 8, 536870912, 2147483648, B, 6,
    536870912, 0, B,
];

/// What the example prints after its heading.
fn listing() -> &'static str {
    let (_, listing) = include_str!("../examples/table.stdout")
        .split_once("listing:\n")
        .expect("it lists");
    listing
}

fn refused(number: u8) -> Result<(), Refusal> {
    Err(Refusal { number, place: 0 })
}

/// E with constants p and p + 1, which are put below p.
fn blob(nodes: &[u32]) -> Blob<'_> {
    Blob {
        counts: COUNTS,
        nodes,
        base_consts: &[P, P + 1],
        ext_consts: &[],
        roots: &[0, B],
    }
}

#[test]
fn written_read_and_listed() {
    let (mut file, mut length) = ([7u8; 170], 9);
    assert_eq!(write_stored(&blob(&NODES), &mut file, &mut length), Ok(()));
    assert_eq!((length, &file[168..]), (168, &[7, 7][..]));

    let (mut nodes, mut bases, mut roots) = ([5u32; 29], [5u64; 3], [5u32; 3]);
    let mut counts = BlobCounts::default();
    let rooms = Rooms {
        nodes: &mut nodes,
        base_consts: &mut bases,
        ext_consts: &mut [],
        roots: &mut roots,
    };
    assert_eq!(read_stored(&file[..168], rooms, &mut counts), Ok(()));
    assert_eq!(counts, COUNTS);
    assert_eq!((&nodes[..28], nodes[28]), (&NODES[..], 5));
    assert_eq!((bases, roots), ([0, 1, 5], [0, B, 5]));

    let mut out = vec![7u8; LISTING_ROOM];
    assert_eq!(list_stored(&file[..168], &mut out, &mut length), Ok(()));
    assert_eq!(&out[..length as usize], listing().as_bytes());
    assert!(out[length as usize..].iter().all(|byte| *byte == 7));
}

#[test]
fn refusals_write_nothing() {
    let (mut file, mut length) = ([7u8; 168], 9);
    assert_eq!(write_stored(&blob(&NODES[..27]), &mut file, &mut length), refused(1));
    assert_eq!(write_stored(&blob(&NODES), &mut file[..167], &mut length), refused(10));
    assert_eq!((file, length), ([7; 168], 9));
    assert_eq!(write_stored(&blob(&NODES), &mut file, &mut length), Ok(()));

    let (mut nodes, mut bases, mut roots) = ([5u32; 28], [5u64; 2], [5u32; 2]);
    let mut counts = BlobCounts::default();
    for (from, room, number) in [(1, 28, 15), (0, 27, 10)] {
        let rooms = Rooms {
            nodes: &mut nodes[..room],
            base_consts: &mut bases,
            ext_consts: &mut [],
            roots: &mut roots,
        };
        assert_eq!(read_stored(&file[from..], rooms, &mut counts), refused(number));
    }
    assert_eq!(
        (nodes, bases, roots, counts),
        ([5; 28], [5; 2], [5; 2], BlobCounts::default())
    );

    let mut out = vec![7u8; LISTING_ROOM];
    length = 9;
    assert_eq!(list_stored(&file, &mut out[1..], &mut length), refused(10));
    assert!(length == 9 && out.iter().all(|byte| *byte == 7));
    assert_eq!(list_stored(&file[1..], &mut out, &mut length), Ok(()));
    assert_eq!(&out[..length as usize], b"refused 15\n");
}
