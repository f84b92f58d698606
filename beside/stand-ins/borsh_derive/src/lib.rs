//! `derive(BorshSerialize)` and `derive(BorshDeserialize)` for structs with named fields: the fields one after the other, as Borsh says.

use proc_macro::{Delimiter, TokenStream, TokenTree};

struct Struct {
    name: String,
    fields: Vec<String>,
}

#[proc_macro_derive(BorshSerialize)]
pub fn derive_serialize(item: TokenStream) -> TokenStream {
    let Struct { name, fields } = parse(item);
    let steps: String =
        fields.iter().map(|field| format!("::borsh::BorshSerialize::serialize(&self.{field}, writer)?;")).collect();
    let code = format!(
        "impl ::borsh::BorshSerialize for {name} {{
            fn serialize<W: ::std::io::Write>(&self, writer: &mut W) -> ::std::io::Result<()> {{ {steps} Ok(()) }}
        }}"
    );
    code.parse().expect("the code above is Rust")
}

#[proc_macro_derive(BorshDeserialize)]
pub fn derive_deserialize(item: TokenStream) -> TokenStream {
    let Struct { name, fields } = parse(item);
    let steps: String = fields
        .iter()
        .map(|field| format!("{field}: ::borsh::BorshDeserialize::deserialize_reader(reader)?,"))
        .collect();
    let code = format!(
        "impl ::borsh::BorshDeserialize for {name} {{
            fn deserialize_reader<R: ::std::io::Read>(reader: &mut R) -> ::std::io::Result<Self> {{ Ok(Self {{ {steps} }}) }}
        }}"
    );
    code.parse().expect("the code above is Rust")
}

/// The struct's name is the word after `struct`, its fields are in the braces.
fn parse(item: TokenStream) -> Struct {
    let mut tokens = item.into_iter();
    tokens
        .by_ref()
        .find(|token| matches!(token, TokenTree::Ident(word) if word.to_string() == "struct"))
        .expect("only structs are supported");
    let name = tokens.next().expect("a struct has a name").to_string();
    let Some(TokenTree::Group(body)) = tokens.next() else {
        panic!("only structs without type parameters are supported");
    };
    assert!(body.delimiter() == Delimiter::Brace, "only named fields are supported");

    Struct { name, fields: field_names(body.stream()) }
}

/// A field's name is the word before the first colon since the last comma outside angle brackets.
fn field_names(body: TokenStream) -> Vec<String> {
    let mut names = Vec::new();
    let mut last_word = String::new();
    let mut in_type = false;
    let mut angles = 0;

    for token in body {
        match token {
            TokenTree::Ident(word) if !in_type => last_word = word.to_string(),
            TokenTree::Punct(mark) => match mark.as_char() {
                ':' if !in_type => {
                    names.push(last_word.clone());
                    in_type = true;
                }
                '<' => angles += 1,
                '>' => angles -= 1,
                ',' if angles == 0 => in_type = false,
                _ => (),
            },
            _ => (),
        }
    }

    names
}
