//! The declarations of `src/raw.rs` beside those of the C header: nothing else compares them, and a
//! linker sees names alone.
use std::collections::BTreeMap;

const HEADER: &str = include_str!("../../c/lampughjata.h");
const RAW: &str = include_str!("../src/raw.rs");

/// The types of each call's parameters, in C, by the call's name.
type Calls = BTreeMap<String, Vec<String>>;

/// The declarations of `text` that begin with `start` and then the rest of a call's name.
fn calls(text: &str, start: &str, parameter: impl Fn(&str) -> String) -> Calls {
    let declared = text.split(start).skip(1).map(|rest| {
        let end = rest.find(|c: char| !c.is_alphanumeric() && c != '_');
        let (name, rest) = rest.split_at(end.expect("an end of the name"));
        // In the macro the link name stands before the function, and its parenthesis closes there.
        let (_, rest) = rest.split_once("fn ").unwrap_or(("", rest));
        let (_, rest) = rest.split_once('(').expect("an opening parenthesis");
        let (parameters, _) = rest.split_once(')').expect("a closing parenthesis");
        let parameters = parameters.split(',').map(str::trim);
        let types = parameters.filter(|p| !p.is_empty()).map(&parameter);
        (format!("lampughjata_{name}"), types.collect())
    });
    declared.collect()
}

/// `const uint32_t *words` is a `const uint32_t *`.
fn c_type(parameter: &str) -> String {
    let name = parameter.rfind(|c: char| !c.is_alphanumeric() && c != '_');
    let spaced = parameter[..=name.expect("a type before the name")].replace('*', " * ");
    spaced.split_whitespace().collect::<Vec<_>>().join(" ")
}

/// `words: *const $unit` is a `const uint8_t *` over bytes.
fn rust_type(parameter: &str, unit: &str) -> String {
    let (_, rust) = parameter.split_once(": ").expect("a name and a type");
    match rust {
        "u32" => "uint32_t".to_string(),
        "usize" => "size_t".to_string(),
        "*const $unit" => format!("const {unit} *"),
        "*mut $unit" => format!("{unit} *"),
        other => panic!("{other} has no C type here"),
    }
}

/// What `raw.rs` declares: calls over numbers, and those of the macro over words and over bytes.
fn declared() -> Calls {
    let (numbers, lent) = RAW.split_once("macro_rules!").expect("a macro");
    let mut declared = calls(numbers, "safe fn lampughjata_", |p| rust_type(p, ""));
    for (unit, suffix) in [("uint32_t", ""), ("uint8_t", "_bytes")] {
        let over = calls(lent, "concat!(\"lampughjata_", |p| rust_type(p, unit));
        declared.extend(over.into_iter().map(|(name, types)| (name + suffix, types)));
    }
    declared
}

#[test]
fn declarations_are_the_headers() {
    let header = calls(HEADER, "uint64_t lampughjata_", c_type);
    assert_eq!(header.len(), 9 + 2 * 13);
    assert_eq!(declared(), header);
}
