//! What the published files use of crates that are not at hand, apart from derives.

/// `itertools`: the one method that `frame.rs` calls.
pub trait Itertools: Iterator {
    fn collect_vec(self) -> Vec<Self::Item>
    where
        Self: Sized,
    {
        self.collect()
    }
}

impl<I: Iterator> Itertools for I {}

/// `rkyv`: a length as it is stored. `table.rs` reads it in methods that nothing here calls.
#[derive(Clone, Copy)]
pub struct StoredLength(pub u32);

impl StoredLength {
    pub fn to_native(self) -> u32 {
        self.0
    }
}
