//! Stand-in for thiserror: `Display` by way of `Debug`; message texts are not compared.

use proc_macro::{TokenStream, TokenTree};

#[proc_macro_derive(Error, attributes(error))]
pub fn error(input: TokenStream) -> TokenStream {
    let mut words = input.into_iter();
    let name = loop {
        match words.next() {
            Some(TokenTree::Ident(i)) if matches!(i.to_string().as_str(), "struct" | "enum") => {
                break words.next().expect("a name");
            }
            Some(_) => {}
            None => panic!("no struct or enum here"),
        }
    };
    format!(
        "impl ::std::error::Error for {name} {{}}
        impl ::std::fmt::Display for {name} {{
            fn fmt(&self, f: &mut ::std::fmt::Formatter<'_>) -> ::std::fmt::Result {{
                write!(f, \"{{self:?}}\")
            }}
        }}"
    )
    .parse()
    .expect("an implementation")
}
