//! `derive(ZeroCopySend)` marks a type; nothing here asks for the mark.

use proc_macro::TokenStream;

#[proc_macro_derive(ZeroCopySend)]
pub fn zero_copy_send(_: TokenStream) -> TokenStream {
    TokenStream::new()
}
