//! Just enough of `#[derive(thiserror::Error)]` for enums: `#[error("..")]`, `#[error(transparent)]`, `#[from]`. No
//! syn, no quote: tokens are walked by hand and the impls are made as text.
use proc_macro::{Delimiter, Group, TokenStream, TokenTree};
use std::iter::Peekable;

type Tokens = Peekable<proc_macro::token_stream::IntoIter>;

#[proc_macro_derive(Error, attributes(error, from, source, backtrace))]
pub fn derive_error(input: TokenStream) -> TokenStream {
    let (name, body) = parse_enum(input);
    let variants = parse_variants(body);
    let display: String = variants.iter().map(Variant::display).collect();
    let source: String = variants.iter().map(Variant::source).collect();
    let froms: String = variants.iter().map(|variant| variant.from(&name)).collect();
    let text = format!(
        "impl ::core::fmt::Display for {name} {{
            #[allow(unused_variables)]
            fn fmt(&self, formatter: &mut ::core::fmt::Formatter<'_>) -> ::core::fmt::Result {{
                match self {{ {display} }}
            }}
        }}
        impl ::std::error::Error for {name} {{
            #[allow(unreachable_patterns)]
            fn source(&self) -> ::core::option::Option<&(dyn ::std::error::Error + 'static)> {{
                match self {{ {source} _ => ::core::option::Option::None }}
            }}
        }}
        {froms}"
    );
    text.parse().expect("thiserror shim: generated text")
}

struct Variant {
    name: String,
    /// The arguments of `#[error(..)]`.
    error: String,
    /// What holds the fields, if there are any.
    delimiter: Option<Delimiter>,
    fields: Vec<Field>,
}

struct Field {
    name: Option<String>,
    ty: String,
    from: bool,
}

impl Variant {
    fn transparent(&self) -> bool {
        self.error == "transparent"
    }

    fn display(&self) -> String {
        let Self { name, error, .. } = self;
        if self.transparent() {
            return format!("Self::{name}(_0) => ::core::fmt::Display::fmt(_0, formatter),\n");
        }
        let places: Vec<String> = (0..self.fields.len()).map(|place| format!("_{place}")).collect();
        let (pattern, arguments) = match self.delimiter {
            None => (String::new(), String::new()),
            Some(Delimiter::Brace) => {
                let names: Vec<&str> = self.fields.iter().filter_map(|field| field.name.as_deref()).collect();
                (format!("{{ {} }}", names.join(", ")), String::new())
            }
            Some(_) => (format!("({})", places.join(", ")), places.join(", ")),
        };
        format!("Self::{name} {pattern} => ::core::write!(formatter, {error}, {arguments}),\n")
    }

    fn source(&self) -> String {
        let name = &self.name;
        if self.transparent() {
            format!("Self::{name}(_0) => ::std::error::Error::source(_0),\n")
        } else if self.fields.iter().any(|field| field.from) {
            format!("Self::{name}(_0) => ::core::option::Option::Some(_0),\n")
        } else {
            String::new()
        }
    }

    fn from(&self, whole: &str) -> String {
        let Some(Field { ty, .. }) = self.fields.iter().find(|field| field.from) else { return String::new() };
        let make = format!("fn from(value: {ty}) -> Self {{ Self::{}(value) }}", self.name);
        format!("impl ::core::convert::From<{ty}> for {whole} {{ {make} }}\n")
    }
}

fn parse_enum(input: TokenStream) -> (String, TokenStream) {
    let mut tokens = input.into_iter();
    let mut name = None;
    while let Some(token) = tokens.next() {
        match (token, &name) {
            (TokenTree::Ident(word), None) if word.to_string() == "enum" => {
                name = tokens.next().map(|token| token.to_string())
            }
            (TokenTree::Group(group), Some(name)) if group.delimiter() == Delimiter::Brace => {
                return (name.clone(), group.stream());
            }
            _ => {}
        }
    }
    panic!("thiserror shim: only enums")
}

fn parse_variants(body: TokenStream) -> Vec<Variant> {
    let mut tokens = body.into_iter().peekable();
    let mut variants = Vec::new();
    while tokens.peek().is_some() {
        let error = parse_error(&mut tokens).expect("thiserror shim: #[error] missing");
        let name = tokens.next().expect("thiserror shim: a variant").to_string();
        let group = tokens.next_if(|token| matches!(token, TokenTree::Group(_)));
        let (delimiter, fields) = match &group {
            Some(TokenTree::Group(group)) => (Some(group.delimiter()), parse_fields(group)),
            _ => (None, Vec::new()),
        };
        variants.push(Variant { name, error, delimiter, fields });
        let comma = tokens.next().map(|token| token.to_string());
        assert!(comma.as_deref().is_none_or(|token| token == ","), "thiserror shim: unexpected {comma:?}");
    }
    variants
}

/// Walks over the attributes, and gives the arguments of `#[error(..)]`.
fn parse_error(tokens: &mut Tokens) -> Option<String> {
    let mut error = None;
    while tokens.next_if(|token| matches!(token, TokenTree::Punct(p) if p.as_char() == '#')).is_some() {
        let Some(TokenTree::Group(attribute)) = tokens.next() else { panic!("thiserror shim: an attribute") };
        let mut inner = attribute.stream().into_iter();
        if inner.next().is_some_and(|first| first.to_string() == "error") {
            let Some(TokenTree::Group(arguments)) = inner.next() else { panic!("thiserror shim: #[error(..)]") };
            error = Some(arguments.stream().to_string());
        }
    }
    error
}

fn parse_fields(group: &Group) -> Vec<Field> {
    let tokens: Vec<TokenTree> = group.stream().into_iter().collect();
    let parts = tokens.split(|token| matches!(token, TokenTree::Punct(p) if p.as_char() == ','));
    parts.filter(|part| !part.is_empty()).map(parse_field).collect()
}

fn parse_field(mut rest: &[TokenTree]) -> Field {
    let mut from = false;
    while let [TokenTree::Punct(p), TokenTree::Group(attribute), tail @ ..] = rest
        && p.as_char() == '#'
    {
        from |= attribute.stream().to_string() == "from";
        rest = tail;
    }
    let mut name = None;
    if let [TokenTree::Ident(word), TokenTree::Punct(colon), next, ..] = rest
        && colon.as_char() == ':'
        && !matches!(next, TokenTree::Punct(p) if p.as_char() == ':')
    {
        name = Some(word.to_string());
        rest = &rest[2..];
    }
    let ty: TokenStream = rest.iter().cloned().collect();
    Field { name, ty: ty.to_string(), from }
}
