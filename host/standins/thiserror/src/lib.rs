//! Stand-in for thiserror: `Display` writes the type's name, and each variant with a `#[from]` field gets its `From`.
//! No text is compared anywhere, so the patterns of `#[error(..)]` are not read.

use proc_macro::{Delimiter, Group, TokenStream, TokenTree};

#[proc_macro_derive(Error, attributes(error, from))]
pub fn error(item: TokenStream) -> TokenStream {
    let (name, body) = name_and_body(item);
    let mut text = format!(
        "impl ::std::fmt::Display for {name} {{
            fn fmt(&self, f: &mut ::std::fmt::Formatter<'_>) -> ::std::fmt::Result {{
                f.write_str(\"{name}\")
            }}
        }}
        impl ::std::error::Error for {name} {{}}"
    );
    for (variant, source) in body.map(sources).unwrap_or_default() {
        text += &format!(
            "impl ::std::convert::From<{source}> for {name} {{
                fn from(source: {source}) -> Self {{
                    Self::{variant}(source)
                }}
            }}"
        );
    }
    text.parse().expect("the text above is Rust")
}

/// The type's name, and its variants where it is an enum.
fn name_and_body(item: TokenStream) -> (String, Option<TokenStream>) {
    let mut tokens = item.into_iter();
    while let Some(token) = tokens.next() {
        let TokenTree::Ident(word) = token else { continue };
        let word = word.to_string();
        if word == "enum" || word == "struct" {
            let name = tokens.next().expect("a type has a name").to_string();
            let body = match tokens.next() {
                Some(TokenTree::Group(group)) if word == "enum" => Some(group.stream()),
                _ => None,
            };
            return (name, body);
        }
    }
    panic!("neither enum nor struct")
}

/// Each variant that has one field marked `#[from]`, with that field's type.
fn sources(body: TokenStream) -> Vec<(String, String)> {
    let mut found = Vec::new();
    let mut variant = String::new();
    for token in body {
        match token {
            TokenTree::Ident(word) => variant = word.to_string(),
            TokenTree::Group(group) if group.delimiter() == Delimiter::Parenthesis => {
                if let Some(source) = source_of(&group) {
                    found.push((variant.clone(), source));
                }
            }
            _ => {}
        }
    }
    found
}

/// `#[from] T` in brackets gives `T`.
fn source_of(fields: &Group) -> Option<String> {
    let mut tokens = fields.stream().into_iter();
    match (tokens.next(), tokens.next()) {
        (Some(TokenTree::Punct(hash)), Some(TokenTree::Group(attribute)))
            if hash.as_char() == '#' && attribute.stream().to_string() == "from" =>
        {
            Some(tokens.collect::<TokenStream>().to_string())
        }
        _ => None,
    }
}
