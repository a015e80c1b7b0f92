//! Shim for `debug.rs`.

/// Named in a debug assertion of `Table::new`, which nothing here calls: whether the words are whole rows.
pub fn validate_2d_structure<T>(data: &[T], width: usize) -> bool {
    data.len().is_multiple_of(width)
}
