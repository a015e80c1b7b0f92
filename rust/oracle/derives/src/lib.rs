//! Shim for the derives of `serde` and `rkyv` that `table.rs` names: nothing is stored here, so they derive nothing.

#![forbid(unsafe_code)]

use proc_macro::TokenStream;

#[proc_macro_derive(Serialize, attributes(serde))]
pub fn serialize(_item: TokenStream) -> TokenStream {
    TokenStream::new()
}

#[proc_macro_derive(Deserialize, attributes(serde))]
pub fn deserialize(_item: TokenStream) -> TokenStream {
    TokenStream::new()
}

/// `table.rs` has methods on the type that this derive makes of `Table`, so that type has to be there.
#[proc_macro_derive(Archive)]
pub fn archive(_item: TokenStream) -> TokenStream {
    "pub struct ArchivedTable<F: IsField> {
        data: Vec<FieldElement<F>>,
        width: crate::StoredLength,
        height: crate::StoredLength,
    }"
    .parse()
    .expect("the text is Rust")
}
