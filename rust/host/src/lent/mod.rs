//! The library's calls as they are: over memory that the caller lends as slices, with [`Refusal`](crate::Refusal)s.
//!
//! A slice may be longer than its count says; the words past it are neither read nor written. A length always belongs to
//! its pointer, and what a call writes overlaps nothing that it reads, since it is lent as slices.

pub mod blob;
pub mod builder;
pub mod builder_bytes;
pub mod bytes;
pub mod lower;
pub mod program;
pub mod stored;

/// Declares a call of the library and makes it; gives its answer.
///
/// After the name stand the call's parameters, in the order of `include/cir.h`. A slice is two of C's parameters, pointer and
/// length. Parameters that several calls have in a row stand here once, under one word: `counts` of a program, `blob_counts`,
/// `shape` and `offset` of a frame, `tables` of a program or blob, `cells` of a frame, `rooms` for tables, and `lists`; of a
/// `builder` the nodes and places, with a table of its `constants` too, both also over bytes, with the rooms for their words;
/// the `handle` of a node, and one that is `made`.
///
/// No linker checks the types against the library: `tests/declarations.rs` holds them to its source and to the header.
macro_rules! call {
    (@ $call:ident [$($types:tt)*] [$($values:tt)*]) => {{
        unsafe extern "C" {
            fn $call($($types)*) -> u64;
        }
        // SAFETY: the library reads and writes inside the lent memory only. Each pointer and length are of one slice, what
        // is written is lent by `&mut`, so that nobody else holds it meanwhile, and counts, shapes and files that say more
        // than the slices hold are refused.
        unsafe { $call($($values)*) }
    }};
    (@ $call:ident [$($types:tt)*] [$($values:tt)*] number $word:ident $number:expr, $($rest:tt)*) => {
        $crate::lent::call!(@ $call [$($types)* _: $word,] [$($values)* $number,] $($rest)*)
    };
    (@ $call:ident [$($types:tt)*] [$($values:tt)*] out $word:ident $out:expr, $($rest:tt)*) => {
        $crate::lent::call!(@ $call [$($types)* _: *mut $word,] [$($values)* $out,] $($rest)*)
    };
    (@ $call:ident [$($types:tt)*] [$($values:tt)*] read $word:ident $slice:expr, $($rest:tt)*) => {
        $crate::lent::call!(
            @ $call
            [$($types)* _: *const $word, _: usize,]
            [$($values)* $slice.as_ptr(), $slice.len(),]
            $($rest)*
        )
    };
    (@ $call:ident [$($types:tt)*] [$($values:tt)*] write $word:ident $slice:expr, $($rest:tt)*) => {
        $crate::lent::call!(
            @ $call
            [$($types)* _: *mut $word, _: usize,]
            [$($values)* $slice.as_mut_ptr(), $slice.len(),]
            $($rest)*
        )
    };
    (@ $call:ident $types:tt $values:tt counts $counts:expr, $($rest:tt)*) => {
        $crate::lent::call!(
            @ $call $types $values
            number usize $counts.nodes,
            number usize $counts.base_consts,
            number usize $counts.ext_consts,
            number usize $counts.roots,
            number usize $counts.num_base,
            $($rest)*
        )
    };
    (@ $call:ident $types:tt $values:tt blob_counts $counts:expr, $($rest:tt)*) => {
        $crate::lent::call!(
            @ $call $types $values
            number u32 $counts.nodes,
            number u32 $counts.base_consts,
            number u32 $counts.ext_consts,
            number u32 $counts.roots,
            number u32 $counts.num_base,
            number u32 $counts.base_slots,
            number u32 $counts.ext_slots,
            $($rest)*
        )
    };
    (@ $call:ident $types:tt $values:tt shape $shape:expr, $($rest:tt)*) => {
        $crate::lent::call!(
            @ $call $types $values
            number usize $shape.steps,
            number usize $shape.main_width,
            number usize $shape.aux_width,
            number usize $shape.challenges,
            number usize $shape.alphas,
            $($rest)*
        )
    };
    (@ $call:ident $types:tt $values:tt offset $limbs:expr, $($rest:tt)*) => {
        $crate::lent::call!(
            @ $call $types $values number u64 $limbs[0], number u64 $limbs[1], number u64 $limbs[2], $($rest)*
        )
    };
    (@ $call:ident $types:tt $values:tt builder $builder:expr, $($rest:tt)*) => {
        $crate::lent::call!(
            @ $call $types $values
            out usize &mut $builder.filled.nodes,
            write u32 $builder.nodes,
            write u32 $builder.places,
            $($rest)*
        )
    };
    (@ $call:ident $types:tt $values:tt constants $table:ident $builder:expr, $($rest:tt)*) => {
        $crate::lent::call!(
            @ $call $types $values
            out usize &mut $builder.filled.nodes,
            out usize &mut $builder.filled.$table,
            write u32 $builder.nodes,
            write u32 $builder.places,
            write u64 $builder.$table,
            $($rest)*
        )
    };
    (@ $call:ident $types:tt $values:tt builder_bytes $builder:expr, $($rest:tt)*) => {
        $crate::lent::call!(
            @ $call $types $values
            out usize &mut $builder.bytes.filled.nodes,
            write u8 $builder.bytes.nodes,
            write u8 $builder.bytes.places,
            write u32 $builder.words.nodes,
            write u32 $builder.words.places,
            $($rest)*
        )
    };
    (@ $call:ident $types:tt $values:tt constants_bytes $table:ident $builder:expr, $($rest:tt)*) => {
        $crate::lent::call!(
            @ $call $types $values
            out usize &mut $builder.bytes.filled.nodes,
            out usize &mut $builder.bytes.filled.$table,
            write u8 $builder.bytes.nodes,
            write u8 $builder.bytes.places,
            write u8 $builder.bytes.$table,
            write u32 $builder.words.nodes,
            write u32 $builder.words.places,
            write u64 $builder.words.constants,
            $($rest)*
        )
    };
    (@ $call:ident $types:tt $values:tt handle $handle:expr, $($rest:tt)*) => {
        $crate::lent::call!(@ $call $types $values number u32 $handle.id, number u32 $handle.dim, $($rest)*)
    };
    (@ $call:ident $types:tt $values:tt made $handle:expr, $($rest:tt)*) => {
        $crate::lent::call!(@ $call $types $values out u32 &mut $handle.id, out u32 &mut $handle.dim, $($rest)*)
    };
    (@ $call:ident $types:tt $values:tt tables $short:ident $long:ident $of:expr, $($rest:tt)*) => {
        $crate::lent::call!(
            @ $call $types $values
            read $short $of.nodes,
            read $long $of.base_consts,
            read $long $of.ext_consts,
            read $short $of.roots,
            $($rest)*
        )
    };
    (@ $call:ident $types:tt $values:tt cells $word:ident $frame:expr, $($rest:tt)*) => {
        $crate::lent::call!(
            @ $call $types $values
            read $word $frame.main,
            read $word $frame.aux,
            read $word $frame.challenges,
            read $word $frame.alphas,
            $($rest)*
        )
    };
    (@ $call:ident $types:tt $values:tt rooms $rooms:expr, $($rest:tt)*) => {
        $crate::lent::call!(
            @ $call $types $values
            write u32 $rooms.nodes,
            write u64 $rooms.base_consts,
            write u64 $rooms.ext_consts,
            write u32 $rooms.roots,
            $($rest)*
        )
    };
    (@ $call:ident $types:tt $values:tt lists $lists:expr, $($rest:tt)*) => {
        $crate::lent::call!(
            @ $call $types $values
            write u32 $lists.used,
            write u32 $lists.last_use,
            write u32 $lists.is_root,
            write u32 $lists.slot_of,
            write u32 $lists.free_slots,
            $($rest)*
        )
    };
    ($call:ident: $($parameters:tt)*) => {
        $crate::lent::call!(@ $call [] [] $($parameters)*)
    };
}

pub(crate) use call;
