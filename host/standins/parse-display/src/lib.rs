//! Stand-in for parse_display: `Display` writes what the original's `#[display(..)]` attributes say. A pattern's `{0}`, `{1:+}` are
//! fields as the standard library formats them, `{}` is the variant's name in the attribute's style, a variant without a pattern has its
//! enum's, and without either its name is written. Only what the original uses is read; anything else is a panic at compile time.

use std::iter::Peekable;

use proc_macro::{Delimiter, Group, TokenStream, TokenTree, token_stream};

/// `#[display(pattern, style = "..")]`
#[derive(Clone, Default)]
struct Pattern {
    text: Option<String>,
    style: Option<String>,
}

#[proc_macro_derive(Display, attributes(display))]
pub fn display(item: TokenStream) -> TokenStream {
    let mut tokens = item.into_iter().peekable();
    let of_type = attributes(&mut tokens);
    let kind = visible_word(&mut tokens);
    let name = word(tokens.next());
    let arms = match kind.as_str() {
        "struct" => arm("Self", "", &of_type, &of_type),
        "enum" => match tokens.next() {
            Some(TokenTree::Group(body)) if body.delimiter() == Delimiter::Brace => variants(&body, &of_type),
            other => panic!("an enum without a body: {other:?}"),
        },
        other => panic!("neither enum nor struct: {other}"),
    };
    format!(
        "impl ::std::fmt::Display for {name} {{
            fn fmt(&self, f: &mut ::std::fmt::Formatter<'_>) -> ::std::fmt::Result {{
                match self {{ {arms} }}
            }}
        }}"
    )
    .parse()
    .expect("the text above is Rust")
}

/// One arm for each variant.
fn variants(body: &Group, of_type: &Pattern) -> String {
    let mut tokens = body.stream().into_iter().peekable();
    let mut arms = String::new();
    while tokens.peek().is_some() {
        let own = attributes(&mut tokens);
        let name = word(tokens.next());
        if matches!(tokens.peek(), Some(TokenTree::Group(_))) {
            tokens.next();
        }
        match tokens.next() {
            None => {}
            Some(TokenTree::Punct(comma)) if comma.as_char() == ',' => {}
            other => panic!("after the variant {name}: {other:?}"),
        }
        arms += &arm(&format!("Self::{name}"), &name, &own, of_type);
    }
    arms
}

/// The arm that writes a variant, or a struct, by its own pattern or else its type's.
fn arm(path: &str, name: &str, own: &Pattern, of_type: &Pattern) -> String {
    let style = own.style.as_deref().or(of_type.style.as_deref());
    let name = match style {
        None => name.to_string(),
        Some("lowercase") => name.to_lowercase(),
        Some(other) => panic!("the style {other} is not known"),
    };
    let pattern = own.text.as_deref().or(of_type.text.as_deref()).unwrap_or("{}").replace("{}", &name);
    let fields: Vec<usize> = (0..10).filter(|i| pattern.contains(&format!("{{{i}"))).collect();
    let bound: String = fields.iter().map(|i| format!("{i}: field{i}, ")).collect();
    let written = fields
        .iter()
        .fold(pattern.clone(), |text, i| text.replace(&format!("{{{i}"), &format!("{{field{i}")));
    assert_eq!(written.matches('{').count(), fields.len(), "a pattern that is not understood: {pattern}");
    format!("{path} {{ {bound}.. }} => ::std::write!(f, {written:?}),")
}

/// The `display` attribute among those that come next, if there is one.
fn attributes(tokens: &mut Peekable<token_stream::IntoIter>) -> Pattern {
    let mut found = Pattern::default();
    while matches!(tokens.peek(), Some(TokenTree::Punct(sign)) if sign.as_char() == '#') {
        tokens.next();
        let Some(TokenTree::Group(attribute)) = tokens.next() else { panic!("a # without an attribute") };
        let mut inside = attribute.stream().into_iter();
        if word(inside.next()) == "display" {
            let Some(TokenTree::Group(arguments)) = inside.next() else {
                panic!("display without a pattern")
            };
            found = pattern(arguments.stream().into_iter());
        }
    }
    found
}

fn pattern(mut tokens: token_stream::IntoIter) -> Pattern {
    let mut found = Pattern { text: Some(literal(tokens.next())), style: None };
    if tokens.next().is_some() {
        assert_eq!(word(tokens.next()), "style", "an argument that is not known");
        tokens.next();
        found.style = Some(literal(tokens.next()));
    }
    assert!(tokens.next().is_none(), "more than a pattern and a style");
    found
}

/// What a string literal without escapes holds.
fn literal(token: Option<TokenTree>) -> String {
    let text = token.expect("a literal").to_string();
    let held = text.strip_prefix('"').and_then(|text| text.strip_suffix('"')).expect("a string literal");
    assert!(!held.contains('\\'), "an escape: {held}");
    held.to_string()
}

/// The word after `pub` or `pub(..)`, or the first.
fn visible_word(tokens: &mut Peekable<token_stream::IntoIter>) -> String {
    let first = word(tokens.next());
    if first != "pub" {
        return first;
    }
    if matches!(tokens.peek(), Some(TokenTree::Group(_))) {
        tokens.next();
    }
    word(tokens.next())
}

fn word(token: Option<TokenTree>) -> String {
    match token {
        Some(TokenTree::Ident(word)) => word.to_string(),
        other => panic!("a word was expected: {other:?}"),
    }
}
