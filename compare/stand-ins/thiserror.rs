// Stands for the crate thiserror: its derive, for enums and structs with named fields whose words stand in a string, and for cases
// that hold another error. It writes `Display` from those strings, and `From` for fields that are marked so.
extern crate proc_macro;
use proc_macro::{Delimiter, Group, TokenStream, TokenTree};

// What an attribute `#[NAME(..)]` or `#[NAME]` holds, where the tokens begin with one.
fn attribute(tokens: &[TokenTree]) -> Option<(String, String)> {
    let [TokenTree::Punct(hash), TokenTree::Group(group), ..] = tokens else {
        return None;
    };
    if hash.as_char() != '#' {
        return None;
    }
    let inner: Vec<TokenTree> = group.stream().into_iter().collect();
    let held = match inner.get(1) {
        Some(TokenTree::Group(held)) => held.stream().to_string(),
        _ => String::new(),
    };
    Some((inner[0].to_string(), held))
}

// The names of named fields: between two commas, the first name that a colon follows.
fn fields(group: &Group) -> Vec<String> {
    let mut names = Vec::new();
    let mut place = true;
    let tokens: Vec<TokenTree> = group.stream().into_iter().collect();
    for pair in tokens.windows(2) {
        match (&pair[0], &pair[1]) {
            (TokenTree::Ident(name), TokenTree::Punct(colon))
                if place && colon.as_char() == ':' =>
            {
                names.push(name.to_string());
                place = false;
            }
            (TokenTree::Punct(comma), _) if comma.as_char() == ',' => place = true,
            _ => {}
        }
    }
    names
}

// The arm of `fmt` for a case or a struct, and the type that `From` is for.
fn arm(path: &str, words: &str, body: Option<&Group>) -> (String, Option<String>) {
    match body {
        Some(group) if group.delimiter() == Delimiter::Brace => (
            format!(
                "{path} {{ {} }} => write!(f, {words}),",
                fields(group).join(", ")
            ),
            None,
        ),
        Some(group) => {
            let held: Vec<TokenTree> = group.stream().into_iter().collect();
            let is_from = attribute(&held).is_some_and(|(name, _)| name == "from");
            let kind: TokenStream = held.into_iter().skip(if is_from { 2 } else { 0 }).collect();
            (
                format!("{path}(held) => std::fmt::Display::fmt(held, f),"),
                is_from.then(|| kind.to_string()),
            )
        }
        None => (format!("{path} => write!(f, {words}),"), None),
    }
}

#[proc_macro_derive(Error, attributes(error, from))]
pub fn error(item: TokenStream) -> TokenStream {
    let mut tokens: Vec<TokenTree> = item.into_iter().collect();
    let Some(TokenTree::Group(body)) = tokens.pop() else {
        panic!("an item with a body")
    };
    let name = tokens.last().expect("a name").to_string();
    let is_enum = tokens.iter().any(|token| token.to_string() == "enum");
    let mut arms = String::new();
    let mut code = String::new();
    if is_enum {
        let cases: Vec<TokenTree> = body.stream().into_iter().collect();
        let (mut at, mut words) = (0, String::new());
        while at < cases.len() {
            if let Some((attribute, held)) = attribute(&cases[at..]) {
                if attribute == "error" {
                    words = held;
                }
                at += 2;
            } else if let TokenTree::Ident(case) = &cases[at] {
                let held = match cases.get(at + 1) {
                    Some(TokenTree::Group(group)) => Some(group),
                    _ => None,
                };
                let (one, from) = arm(&format!("{name}::{case}"), &words, held);
                arms += &one;
                if let Some(kind) = from {
                    code += &format!(
                        "impl From<{kind}> for {name} {{ fn from(held: {kind}) -> Self {{ {name}::{case}(held) }} }}"
                    );
                }
                at += 1;
            } else {
                at += 1;
            }
        }
    } else {
        let words = (0..tokens.len())
            .filter_map(|at| attribute(&tokens[at..]))
            .find(|(name, _)| name == "error");
        arms = arm(&name, &words.expect("words").1, Some(&body)).0;
    }
    code += &format!(
        "impl std::fmt::Display for {name} {{ fn fmt(&self, f: &mut std::fmt::Formatter<'_>) -> std::fmt::Result {{ match self {{ {arms} }} }} }}
        impl std::error::Error for {name} {{}}"
    );
    code.parse().expect("what is written is Rust")
}
