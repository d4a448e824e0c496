//! The C header beside all that declares its functions in Rust: the same functions with the same arguments, the same
//! answers; and beside the bindings: the same numbers and texts.

use dorgumanna::{BatchRefusal, Refusal};
use std::collections::BTreeMap;
use std::fs;

/// The declarations: of the bindings, and of the program that measures the library's speed.
const DECLARATIONS: [&str; 2] = ["src/c.rs", "../../compare/speed/src/ours.rs"];

fn header() -> String {
    read("../../include/dorgumanna.h")
}

fn read(name: &str) -> String {
    fs::read_to_string(name).expect(name)
}

/// A text whose words have one space between them.
fn in_a_line(text: &str) -> String {
    text.split_whitespace().collect::<Vec<_>>().join(" ")
}

/// Each function's arguments and result in Rust's words, by its name. `after` stands before every name, a `;` at the
/// end of every declaration.
fn functions(text: &str, after: &str, argument: fn(&str) -> String) -> BTreeMap<String, String> {
    let text = in_a_line(text);
    let declarations = text.split(';').filter_map(|part| {
        let (before, rest) = part.rsplit_once(after)?;
        let (name, rest) = rest.split_once('(')?;
        let (arguments, result) = rest.split_once(')')?;
        let arguments: Vec<String> = arguments.split(", ").map(argument).collect();
        let space = before.ends_with("space_") || result.ends_with("SpaceAnswer");
        Some((
            name.into(),
            format!("{} space: {space}", arguments.join(", ")),
        ))
    });
    declarations.collect()
}

/// `const uint8_t *key` as `key: *const u8`.
fn in_rust(argument: &str) -> String {
    let (kind, name) = argument.rsplit_once(' ').expect("a type and a name");
    let kind = match (kind, name.starts_with('*')) {
        ("const uint8_t", true) => "*const u8",
        ("uint8_t", true) => "*mut u8",
        ("uint8_t", false) => "u8",
        ("uint16_t", false) => "u16",
        ("uint64_t", false) => "u64",
        ("size_t", false) => "usize",
        ("bool", false) => "bool",
        _ => panic!("{argument}"),
    };
    format!("{}: {kind}", name.trim_start_matches('*'))
}

#[test]
fn functions_are_declared_alike() {
    let theirs = header();
    let (_, calls) = theirs.split_once("/* Reads.").expect("the calls");
    let calls = functions(calls, "answer dorgumanna_", in_rust);
    assert_eq!(calls.len(), 19);
    for name in DECLARATIONS {
        let ours = functions(&read(name), "fn dorgumanna_", str::to_string);
        assert_eq!(ours, calls, "{name}");
    }
}

/// The fields of the struct whose text ends in `end`, each turned by `field`.
fn fields(text: &str, start: &str, end: &str, field: fn(&str) -> Option<String>) -> Vec<String> {
    let (before, _) = text.split_once(end).expect(end);
    let (_, inside) = before.rsplit_once(start).expect(start);
    inside.lines().filter_map(field).collect()
}

#[test]
fn answers_have_the_same_fields() {
    let header = header();
    let rust = |line: &str| {
        Some(
            line.trim()
                .strip_prefix("pub ")?
                .trim_end_matches(',')
                .into(),
        )
    };
    let c = |line: &str| Some(in_rust(line.split_once(';')?.0.trim()));
    for (name, c_name, count) in [("Answer", "answer", 3), ("SpaceAnswer", "space_answer", 9)] {
        let theirs = fields(&header, "struct {", &format!("}} dorgumanna_{c_name};"), c);
        assert_eq!(theirs.len(), count);
        for file in DECLARATIONS {
            let ours = read(file);
            let (_, from) = ours
                .split_once(&format!("#[repr(C)]\npub struct {name} "))
                .expect(name);
            assert_eq!(fields(from, "{", "}", rust), theirs, "{file}");
        }
    }
}

#[test]
fn refusals_have_the_same_numbers_names_and_texts() {
    let all = [
        Refusal::PageLength,
        Refusal::Width,
        Refusal::KeyLength,
        Refusal::HeaderRules,
        Refusal::NotFit(9),
        Refusal::FenceOrder,
        Refusal::ValueRange,
        Refusal::Prefix,
        Refusal::OutsideFences,
        Refusal::SlotNumber,
        Refusal::Present,
        Refusal::Neighbours,
        Refusal::NoRoom,
        Refusal::Payload,
        Refusal::BufferLength,
        Refusal::ShortKey,
        Refusal::NotFound,
        Refusal::OtherValue(7),
    ];
    let header = in_a_line(&header());
    for (number, refusal) in (1..).zip(all) {
        assert_eq!(refusal.number(), number);
        let name = c_name(refusal);
        let (constant, text) = (
            format!(" {name} = {number},"),
            format!("case {name}: return \"{}\";", refusal.text()),
        );
        assert!(header.contains(&constant), "{constant}");
        assert!(header.contains(&text), "{text}");
    }
    let cut = format!("case DORGUMANNA_CUT: return \"{}\";", BatchRefusal::Cut);
    assert!(header.contains(&cut), "{cut}");
    assert_eq!(all[4].to_string(), "page not fit (U9)");
    assert_eq!(
        all[17].to_string(),
        "stored value differs from the expected one (7)"
    );
}

/// `NotFit(9)` as `DORGUMANNA_NOT_FIT`.
fn c_name(refusal: Refusal) -> String {
    let name = format!("{refusal:?}");
    let name = name.split('(').next().expect("a name");
    let words = name.chars().map(|letter| {
        let word = if letter.is_uppercase() { "_" } else { "" };
        format!("{word}{}", letter.to_ascii_uppercase())
    });
    format!("DORGUMANNA{}", words.collect::<String>())
}
