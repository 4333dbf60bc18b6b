//! The macros of the stand-ins for `serde`, `thiserror` and `tracing`.
use proc_macro::{Delimiter, TokenStream, TokenTree};

#[proc_macro_derive(Serialize, attributes(serde))]
pub fn serialize(_item: TokenStream) -> TokenStream {
    TokenStream::new()
}

/// A struct around one value becomes `Transparent`; anything else is left alone.
#[proc_macro_derive(Deserialize, attributes(serde))]
pub fn deserialize(item: TokenStream) -> TokenStream {
    let (name, rest) = name_and_rest(item);
    let parenthesised = |t: &TokenTree| matches!(t, TokenTree::Group(g) if g.delimiter() == Delimiter::Parenthesis);
    let Some(place) = rest.iter().position(parenthesised) else {
        return TokenStream::new();
    };
    let TokenTree::Group(group) = &rest[place] else { unreachable!() };
    let bounds: TokenStream = rest[..place].iter().cloned().collect();
    // One type parameter at most: its name is the token after `<`.
    let parameter = rest.get(1).filter(|_| place > 0).map(|t| format!("<{t}>")).unwrap_or_default();
    let is_pub = |t: &TokenTree| matches!(t, TokenTree::Ident(i) if i.to_string() == "pub");
    let inner: TokenStream = group.stream().into_iter().filter(|t| !is_pub(t)).collect();
    format!(
        "impl {bounds} ::serde::Transparent for {name} {parameter} {{
            type Inner = {inner};
            fn wrap(inner: {inner}) -> Self {{ Self(inner) }}
        }}"
    )
    .parse()
    .unwrap()
}

#[proc_macro_derive(Error, attributes(error))]
pub fn error(item: TokenStream) -> TokenStream {
    let (name, _) = name_and_rest(item);
    format!(
        "impl ::core::fmt::Display for {name} {{
            fn fmt(&self, f: &mut ::core::fmt::Formatter<'_>) -> ::core::fmt::Result {{ ::core::fmt::Debug::fmt(self, f) }}
        }}
        impl ::core::error::Error for {name} {{}}"
    )
    .parse()
    .unwrap()
}

#[proc_macro_attribute]
pub fn instrument(_arguments: TokenStream, item: TokenStream) -> TokenStream {
    item
}

/// The name of a struct or enum, and the tokens after it.
fn name_and_rest(item: TokenStream) -> (String, Vec<TokenTree>) {
    let mut tokens = item.into_iter();
    for token in tokens.by_ref() {
        if matches!(token.to_string().as_str(), "struct" | "enum") {
            break;
        }
    }
    let name = tokens.next().unwrap().to_string();
    (name, tokens.collect())
}
