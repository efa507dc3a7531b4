//! A stand-in for `serde`: the original derives `Serialize` and `Deserialize`, and nothing here
//! writes or reads those forms. Both derives accept `#[serde(..)]` and make nothing.

use proc_macro::TokenStream;

/// Accepts `#[derive(serde::Serialize)]`.
#[proc_macro_derive(Serialize, attributes(serde))]
pub fn serialize(_item: TokenStream) -> TokenStream {
    TokenStream::new()
}

/// Accepts `#[derive(serde::Deserialize)]`.
#[proc_macro_derive(Deserialize, attributes(serde))]
pub fn deserialize(_item: TokenStream) -> TokenStream {
    TokenStream::new()
}
