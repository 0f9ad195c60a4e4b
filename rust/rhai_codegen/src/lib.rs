//! Stands in for the source's crate of the same name: one attribute, which changes nothing.

use proc_macro::TokenStream;

/// Leaves the item as it is.
#[proc_macro_attribute]
pub fn expose_under_internals(_: TokenStream, item: TokenStream) -> TokenStream {
    item
}
