//! The derives of `serde` and `schemars` by name, which derive nothing: the comparison reads and writes no document, and
//! with these the types of the original build from their own source with no other crate.

use proc_macro::TokenStream;

#[proc_macro_derive(Serialize, attributes(serde))]
pub fn serialize(_: TokenStream) -> TokenStream {
    TokenStream::new()
}

#[proc_macro_derive(Deserialize, attributes(serde))]
pub fn deserialize(_: TokenStream) -> TokenStream {
    TokenStream::new()
}

#[proc_macro_derive(JsonSchema, attributes(serde))]
pub fn json_schema(_: TokenStream) -> TokenStream {
    TokenStream::new()
}
