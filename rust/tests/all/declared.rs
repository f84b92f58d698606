//! Holds `src/ffi.rs` against the C functions: the same names, parameters and results, and the same `Reply`. Nothing else would
//! notice a wrong declaration.

use std::{collections::BTreeMap, fs, path::Path};

type Fields = Vec<(String, String)>;

/// `name: type`, parted by commas.
fn fields(text: &str) -> Fields {
    let field =
        |field: &str| field.trim().trim_start_matches("pub ").split_once(": ").map(|(n, t)| (n.into(), t.into()));
    text.split(',').filter_map(field).collect()
}

/// Every function that begins with these words.
fn functions(begin: &str, text: &str) -> BTreeMap<String, (Fields, String)> {
    let one = |text: &str| {
        let (name, rest) = text.split_once('(')?;
        let (parameters, rest) = rest.split_once(')')?;
        let result = rest.trim_start().strip_prefix("->")?.trim_start();
        let result = result.split(|c: char| !c.is_alphanumeric()).next()?;
        Some((name.to_string(), (fields(parameters), result.to_string())))
    };
    text.split(begin).skip(1).filter_map(one).collect()
}

/// A slice is a pointer and a length, in this order.
fn in_c(parameters: Fields) -> Fields {
    let pointer = |name: &str, of: &str| vec![(name.into(), of.into()), (format!("{name}_len"), "usize".into())];
    let each = |(name, of): (String, String)| match of.as_str() {
        "&[u8]" => pointer(&name, "*const u8"),
        "&mut [u8]" => pointer(&name, "*mut u8"),
        _ => vec![(name, of)],
    };
    parameters.into_iter().flat_map(each).collect()
}

fn reply(text: &str) -> Fields {
    let (_, rest) = text.split_once("struct Reply {").unwrap();
    fields(rest.split_once('}').unwrap().0)
}

#[test]
fn the_declarations_are_those_of_the_c_functions() {
    let package = Path::new(env!("CARGO_MANIFEST_DIR"));
    let rust = fs::read_to_string(package.join("src/ffi.rs")).unwrap();
    let sources = fs::read_dir(package.join("../crates/tapes/src")).unwrap();
    let rattle: String = sources.map(|file| fs::read_to_string(file.unwrap().path()).unwrap()).collect();

    let declared = functions("pub fn ", &rust);
    let functions = functions("pub extern \"C\" fn ", &rattle);
    let wanted: BTreeMap<_, _> = functions.into_iter().map(|(name, (of, result))| (name, (in_c(of), result))).collect();
    assert!(wanted.len() >= 20, "only {} functions were found", wanted.len());
    assert_eq!(declared, wanted);
    assert_eq!(reply(&rust), reply(&rattle));
    assert!(rattle.contains("#[repr(C)]\npub struct Reply") && rust.contains("#[repr(C)]"));
}
