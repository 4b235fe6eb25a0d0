//! Stand-in of `tracing`: no subscriber, nothing is told.

use proc_macro::TokenStream;

#[proc_macro_attribute]
pub fn instrument(_how: TokenStream, item: TokenStream) -> TokenStream {
    item
}

#[proc_macro]
pub fn trace(_what: TokenStream) -> TokenStream {
    TokenStream::new()
}
