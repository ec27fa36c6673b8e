//! Stand-in for `serde`: the derive that the original names, expanding to nothing.

extern crate proc_macro;

use proc_macro::TokenStream;

#[proc_macro_derive(Serialize)]
pub fn serialize(_item: TokenStream) -> TokenStream {
    TokenStream::new()
}
