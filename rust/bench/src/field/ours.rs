//! Our side: the host's calls, brought to the shape that the driver calls. The calls go into the static library, so
//! nothing of theirs is inlined here.

use host::{ext, field};

/// The buffers are as long as each other, and a chain's value is three words or one of many, so no call refuses.
const ROOM: &str = "the buffers have the call's room";

pub fn add_each(xs: &mut [u64], ys: &[u64]) {
    field::add_each(xs, ys).expect(ROOM);
}

pub fn sub_each(xs: &mut [u64], ys: &[u64]) {
    field::sub_each(xs, ys).expect(ROOM);
}

pub fn mul_each(xs: &mut [u64], ys: &[u64]) {
    field::mul_each(xs, ys).expect(ROOM);
}

pub fn ext_mul_each(xs: &mut [u64], ys: &[u64]) {
    ext::mul_each(xs, ys).expect(ROOM);
}

pub fn add_chain(xs: &mut [u64], ys: &[u64]) {
    xs[0] = field::add_chain(xs[0], ys);
}

pub fn sub_chain(xs: &mut [u64], ys: &[u64]) {
    xs[0] = field::sub_chain(xs[0], ys);
}

pub fn mul_chain(xs: &mut [u64], ys: &[u64]) {
    xs[0] = field::mul_chain(xs[0], ys);
}

pub fn ext_mul_chain(xs: &mut [u64], ys: &[u64]) {
    ext::mul_chain(xs, ys).expect(ROOM);
}
