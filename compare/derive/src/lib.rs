//! Stands in for the derives of `bincode_next`: the fields of a struct, in the order of their declaration.
use proc_macro::{Delimiter, TokenStream, TokenTree};

struct Item {
    name: String,
    fields: Vec<String>,
    tuple: bool,
    is_enum: bool,
}

/// The word before the first colon of each part between commas; in a tuple struct, the part's index.
fn item(input: TokenStream) -> Item {
    let tokens: Vec<TokenTree> = input.into_iter().collect();
    let at = tokens.iter().position(|t| matches!(t.to_string().as_str(), "struct" | "enum")).expect("a struct or an enum");
    let TokenTree::Group(body) = &tokens[at + 2] else { panic!("no generics are taken") };
    let tuple = body.delimiter() == Delimiter::Parenthesis;
    let body: Vec<String> = body.stream().into_iter().map(|t| t.to_string()).collect();
    let parts = body.split(|t| t == ",").filter(|p| !p.is_empty());
    let fields = parts
        .enumerate()
        .map(|(i, p)| p.iter().position(|t| t == ":").map_or(i.to_string(), |c| p[c - 1].clone()))
        .collect();
    Item { name: tokens[at + 1].to_string(), fields, tuple, is_enum: tokens[at].to_string() == "enum" }
}

#[proc_macro_derive(Decode)]
pub fn decode(input: TokenStream) -> TokenStream {
    let it = item(input);
    let one = "::bincode_next::Decode::decode(d)?";
    let body = if it.is_enum {
        "let _ = d; Err(::bincode_next::error::DecodeError)".into() // no enum is decoded by the Rust
    } else if it.tuple {
        format!("Ok(Self({}))", vec![one; it.fields.len()].join(", "))
    } else {
        format!("Ok(Self {{ {} }})", it.fields.iter().map(|f| format!("{f}: {one}, ")).collect::<String>())
    };
    format!(
        "impl<C> ::bincode_next::Decode<C> for {} {{
            fn decode<D: ::bincode_next::de::Decoder<Context = C>>(d: &mut D) -> Result<Self, ::bincode_next::error::DecodeError> {{ {body} }}
        }}",
        it.name
    )
    .parse()
    .unwrap()
}

#[proc_macro_derive(Encode)]
pub fn encode(input: TokenStream) -> TokenStream {
    let it = item(input);
    let body: String = it.fields.iter().map(|f| format!("::bincode_next::Encode::encode(&self.{f}, e)?; ")).collect();
    format!(
        "impl ::bincode_next::Encode for {} {{
            fn encode<E: ::bincode_next::enc::Encoder>(&self, e: &mut E) -> Result<(), ::bincode_next::error::EncodeError> {{ {body} Ok(()) }}
        }}",
        it.name
    )
    .parse()
    .unwrap()
}
