//! The library's interface stands three times: in `include/order_line.h`, in the wrapper for Rust
//! (`examples/rust/src`) and in the source of the library (`crates/line_c/src`). No compiler holds
//! them against each other; these tests do, by their text.

use crate::interface::{RECEIVER_BYTES, SENDER_BYTES};
use crate::reference::order::LONGEST;
use crate::reference::tint::MOST_DOSES;
use std::collections::BTreeMap;
use std::fs;

/// A file's text by its path from the repository's top folder, without comments.
fn text(path: &str) -> String {
    let path = format!("{}/../{path}", env!("CARGO_MANIFEST_DIR"));
    let mut text = fs::read_to_string(&path).unwrap_or_else(|error| panic!("{path}: {error}"));
    while let Some(from) = text.find("/*") {
        let to = from + text[from..].find("*/").expect("a comment's end") + 2;
        text.replace_range(from..to, "");
    }
    let lines = text.lines().map(|line| line.split("//").next().unwrap());
    lines.collect::<Vec<_>>().join("\n")
}

fn number(text: &str) -> Option<u32> {
    let digits = text.trim_end_matches('u').replace('_', "");
    match digits.strip_prefix("0x") {
        Some(digits) => u32::from_str_radix(digits, 16).ok(),
        None => digits.parse().ok(),
    }
}

/// The header's numbers by their names without `ORDER_LINE_`.
fn header_numbers() -> BTreeMap<String, u32> {
    let header = text("include/order_line.h");
    let numbers = header.lines().filter_map(|line| {
        let (name, value) = line.strip_prefix("#define ORDER_LINE_")?.split_once(' ')?;
        Some((name.to_string(), number(value.trim())?))
    });
    numbers.collect()
}

/// The numbers `const NAME: TYPE = VALUE;` of a file in Rust.
fn constants(path: &str) -> BTreeMap<String, u32> {
    let text = text(path);
    let numbers = text.lines().filter_map(|line| {
        let line = line.strip_prefix("pub ").unwrap_or(line);
        let (name, value) = line.strip_prefix("const ")?.split_once(": ")?;
        let value = value.split_once(" = ")?.1.trim_end_matches(';');
        Some((name.to_string(), number(value)?))
    });
    numbers.collect()
}

/// A function's name, its parameters and the type of what it returns, in the words of C.
type Function = (String, Vec<String>, String);

/// A parameter `name: TYPE` of Rust or Rattle: one in C, or a pointer and its number of bytes or of
/// 16-bit numbers.
fn parameter(text: &str) -> Vec<String> {
    let (name, kind) = text.split_once(':').expect(text);
    let name = name.trim();
    let (bytes, numbers) = (
        format!("size_t {name}_bytes"),
        format!("size_t {name}_numbers"),
    );
    match kind.trim() {
        "usize" => vec![format!("size_t {name}")],
        "u8" | "u16" | "u32" => vec![format!("uint{}_t {name}", &kind.trim()[1..])],
        "bool" => vec![format!("bool {name}")],
        "*const u8" => vec![format!("const uint8_t *{name}")],
        "*mut u8" => vec![format!("uint8_t *{name}")],
        "*const u16" => vec![format!("const uint16_t *{name}")],
        "&mut u16" | "*mut u16" => vec![format!("uint16_t *{name}")],
        "&mut u32" | "*mut u32" => vec![format!("uint32_t *{name}")],
        "&mut usize" | "*mut usize" => vec![format!("size_t *{name}")],
        "&[u8]" => vec![format!("const uint8_t *{name}"), bytes],
        "&mut [u8]" => vec![format!("uint8_t *{name}"), bytes],
        "&[u16]" => vec![format!("const uint16_t *{name}"), numbers],
        "&mut [u16]" => vec![format!("uint16_t *{name}"), numbers],
        other => panic!("{other}"),
    }
}

fn parts(list: &str) -> impl Iterator<Item = String> + '_ {
    let parts = list.split(',').map(|part| part.split_whitespace());
    let parts = parts.map(|words| words.collect::<Vec<_>>().join(" "));
    parts.filter(|part| !part.is_empty() && part != "void")
}

/// The functions `fn order_line_*` of a file in Rust or Rattle.
fn functions(path: &str) -> Vec<Function> {
    let text = text(path);
    let after = text.split("fn order_line_").skip(1).map(|function| {
        let (name, rest) = function.split_once('(').unwrap();
        let (list, rest) = rest.split_once(')').unwrap();
        let result = rest.trim_start().trim_start_matches("-> ");
        let result = result.split([';', '\n']).next().unwrap();
        let parameters = parts(list).flat_map(|part| parameter(&part)).collect();
        let result = format!("uint{}_t", &result.trim()[1..]);
        (name.to_string(), parameters, result)
    });
    after.collect()
}

/// The functions that the header declares.
fn header_functions() -> Vec<Function> {
    let header = text("include/order_line.h");
    let declarations = header.split("\n\n").filter_map(|part| {
        let (result, rest) = part.trim().split_once(" order_line_")?;
        let (name, list) = rest.split_once('(')?;
        let list = list.trim_end_matches(");");
        Some((name.to_string(), parts(list).collect(), result.to_string()))
    });
    declarations.collect()
}

#[test]
fn the_header_and_the_wrapper_have_the_same_numbers() {
    let header = header_numbers();
    assert_eq!(header.len(), 41);
    assert_eq!(header, constants("examples/rust/src/numbers.rs"));
}

/// The one number that both compute, from the longest order; `tests/header.c` tries the header's.
#[test]
fn the_header_and_the_wrapper_compute_the_most_items() {
    let header = "#define ORDER_LINE_MOST_ITEMS ((ORDER_LINE_LONGEST_ORDER + 239) / 240)";
    assert!(text("include/order_line.h").contains(header), "{header}");
    let wrapper = "pub const MOST_ITEMS: usize = LONGEST_ORDER.div_ceil(240);";
    let numbers = text("examples/rust/src/numbers.rs");
    assert!(numbers.contains(wrapper), "{wrapper}");
}

#[test]
fn the_page_and_the_package_have_the_version_of_the_header() {
    let version = header_numbers()["VERSION"];
    let (major, minor, patch) = (version >> 16, version >> 8 & 255, version & 255);
    let row = format!("| Version | {major}.{minor}.{patch} |\n");
    assert!(text("docs/VERSION.md").contains(&row), "{row}");
    let line = format!("version = \"{major}.{minor}.{patch}\"\n");
    assert!(text("examples/rust/Cargo.toml").contains(&line), "{line}");
}

/// With `interface.rs` the library itself is compared, so its numbers are the header's.
#[test]
fn the_header_has_the_numbers_that_are_compared_with_the_library() {
    let sizes = [
        ("LONGEST_ORDER", LONGEST),
        ("MOST_DOSES", MOST_DOSES),
        ("SENDER_BYTES", SENDER_BYTES),
        ("RECEIVER_BYTES", RECEIVER_BYTES),
    ];
    let mut compared = constants("tests/src/interface.rs");
    compared.extend(sizes.map(|(name, number)| (name.to_string(), number as u32)));
    let refusals = constants("tests/src/reference/refusal.rs").into_iter();
    compared.extend(refusals.map(|(name, number)| (format!("REFUSED_{name}"), number)));
    for (name, number) in header_numbers() {
        assert_eq!(compared.get(&name), Some(&number), "{name}");
    }
}

#[test]
fn the_header_the_wrapper_and_the_library_have_the_same_functions() {
    let header = header_functions();
    assert_eq!(header.len(), 15);
    assert_eq!(header, functions("examples/rust/src/c.rs"));
    let files = [
        "version",
        "block_calls",
        "sender_calls",
        "receiver_calls",
        "tint_calls",
        "noise_calls",
    ];
    let paths = files.map(|file| format!("crates/line_c/src/{file}.rt"));
    let library: Vec<Function> = paths.iter().flat_map(|path| functions(path)).collect();
    assert_eq!(header, library);
}
