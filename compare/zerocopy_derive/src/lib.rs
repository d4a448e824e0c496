//! Stand-ins for the four derives of the crate `zerocopy_derive` that doradb's
//! page types name. `FromBytes` and `IntoBytes` become marker traits of the
//! using crate's `layout` module, `KnownLayout` and `Immutable` nothing.

use proc_macro::{TokenStream, TokenTree};

/// Marks a type of which every run of bytes of its size is a value.
#[proc_macro_derive(FromBytes)]
pub fn from_bytes(item: TokenStream) -> TokenStream {
    mark(item, "FromBytes")
}

/// Marks a type without padding.
#[proc_macro_derive(IntoBytes)]
pub fn into_bytes(item: TokenStream) -> TokenStream {
    mark(item, "IntoBytes")
}

/// Expands to nothing: sizes are taken from `size_of`.
#[proc_macro_derive(KnownLayout)]
pub fn known_layout(_: TokenStream) -> TokenStream {
    TokenStream::new()
}

/// Expands to nothing: no page type has interior mutability.
#[proc_macro_derive(Immutable)]
pub fn immutable(_: TokenStream) -> TokenStream {
    TokenStream::new()
}

fn mark(item: TokenStream, marker: &str) -> TokenStream {
    let name = struct_name(item);
    format!("unsafe impl crate::layout::{marker} for {name} {{}}")
        .parse()
        .expect("an impl of a marker trait")
}

fn struct_name(item: TokenStream) -> String {
    let mut tokens = item.into_iter();
    while let Some(token) = tokens.next() {
        if matches!(&token, TokenTree::Ident(word) if word.to_string() == "struct") {
            return tokens.next().expect("a struct's name").to_string();
        }
    }
    panic!("these derives stand in for structs alone");
}
