//! A stand-in for the crate thiserror: `#[derive(Error)]` on an enum.
//! A variant whose only field is marked `#[from]` gets its `From`; the text of an error is its debug text.

use proc_macro::{Delimiter, TokenStream, TokenTree};

#[proc_macro_derive(Error, attributes(error, from))]
pub fn derive_error(input: TokenStream) -> TokenStream {
    let mut name = None;
    let mut out = String::new();
    let mut tokens = input.into_iter();
    while let Some(token) = tokens.next() {
        match token {
            TokenTree::Ident(word) if word.to_string() == "enum" => {
                name = tokens.next().map(|t| t.to_string());
            }
            TokenTree::Group(body) if name.is_some() && body.delimiter() == Delimiter::Brace => {
                from_impls(name.as_ref().unwrap(), body.stream(), &mut out);
            }
            _ => {}
        }
    }
    let name = name.expect("an enum");
    out += &format!(
        "impl ::std::fmt::Display for {name} {{
            fn fmt(&self, f: &mut ::std::fmt::Formatter) -> ::std::fmt::Result {{
                ::std::fmt::Debug::fmt(self, f)
            }}
        }}
        impl ::std::error::Error for {name} {{}}"
    );
    out.parse().unwrap()
}

// The variants' fields stand in parentheses behind the variant's name; attributes stand in brackets before it.
fn from_impls(name: &str, variants: TokenStream, out: &mut String) {
    let mut last = String::new();
    for token in variants {
        match token {
            TokenTree::Ident(variant) => last = variant.to_string(),
            TokenTree::Group(fields) if fields.delimiter() == Delimiter::Parenthesis => {
                let mut parts = fields.stream().into_iter();
                let (mark, attribute) = (parts.next(), parts.next());
                let is_from = mark.is_some_and(|m| m.to_string() == "#")
                    && attribute.is_some_and(|a| a.to_string() == "[from]");
                if is_from {
                    let field: TokenStream = parts.collect();
                    *out += &format!(
                        "impl From<{field}> for {name} {{
                            fn from(e: {field}) -> {name} {{ {name}::{last}(e) }}
                        }}"
                    );
                }
            }
            _ => {}
        }
    }
}
