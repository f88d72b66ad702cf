//! Stand-in for the attribute of tracing: the function stays as it is written.

use proc_macro::TokenStream;

#[proc_macro_attribute]
pub fn instrument(_arguments: TokenStream, item: TokenStream) -> TokenStream {
    item
}
