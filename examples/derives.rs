//! Stands in for the derives of facet and serde: it takes their attributes and writes nothing.
extern crate proc_macro;
use proc_macro::TokenStream;

#[proc_macro_derive(Facet, attributes(facet))]
pub fn facet(_: TokenStream) -> TokenStream {
    TokenStream::new()
}

#[proc_macro_derive(Deserialize, attributes(serde))]
pub fn deserialize(_: TokenStream) -> TokenStream {
    TokenStream::new()
}
