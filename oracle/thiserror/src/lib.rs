//! A stand-in for `#[derive(thiserror::Error)]`. The message texts are not
//! ported (document 01), so the derive gives nothing.

use proc_macro::TokenStream;

#[proc_macro_derive(Error, attributes(error))]
pub fn error(_item: TokenStream) -> TokenStream {
  TokenStream::new()
}
