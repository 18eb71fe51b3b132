//! Stand-in for clap's derive: `GraphParams` keeps its attributes and no command line is made of them.
use proc_macro::TokenStream;

#[proc_macro_derive(Args, attributes(arg))]
pub fn args(_item: TokenStream) -> TokenStream {
    TokenStream::new()
}
