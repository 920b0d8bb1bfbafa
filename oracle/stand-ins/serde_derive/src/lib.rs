//! Stand-in for serde's derives: an implementation that is never called.

use proc_macro::{TokenStream, TokenTree};

/// The name of the struct or enum; the types of docs/src have no generics.
fn name(input: TokenStream) -> String {
    let mut words = input.into_iter();
    while let Some(t) = words.next() {
        if let TokenTree::Ident(i) = &t
            && matches!(i.to_string().as_str(), "struct" | "enum")
        {
            return words.next().expect("a name").to_string();
        }
    }
    panic!("no struct or enum here");
}

#[proc_macro_derive(Serialize, attributes(serde))]
pub fn serialize(input: TokenStream) -> TokenStream {
    format!(
        "impl ::serde::Serialize for {} {{
            fn serialize<S: ::serde::Serializer>(&self, _: S) -> Result<S::Ok, S::Error> {{
                unimplemented!()
            }}
        }}",
        name(input)
    )
    .parse()
    .expect("an implementation")
}

#[proc_macro_derive(Deserialize, attributes(serde))]
pub fn deserialize(input: TokenStream) -> TokenStream {
    format!(
        "impl<'de> ::serde::Deserialize<'de> for {} {{
            fn deserialize<D: ::serde::Deserializer<'de>>(_: D) -> Result<Self, D::Error> {{
                unimplemented!()
            }}
        }}",
        name(input)
    )
    .parse()
    .expect("an implementation")
}
