//! The wrapper has the calls, names, numbers and texts of the C header; examples/show has the texts
//! too.

use std::collections::BTreeMap;
use std::fmt::Debug;

use neulenta::{File, LONGEST, LONGEST_SHEET, Refusal, STACK, VERSION, Verdict};

const HEADER: &str = include_str!(concat!(env!("CARGO_MANIFEST_DIR"), "/../../include/neulenta.h"));

const RAW: &str = include_str!(concat!(env!("CARGO_MANIFEST_DIR"), "/src/raw.rs"));

/// What stands in the header between `start` and the next `end`.
fn between(start: &str, end: &str) -> &'static str {
    let (_, rest) = HEADER.split_once(start).unwrap_or_else(|| panic!("no {start:?}"));
    rest.split_once(end).unwrap_or_else(|| panic!("no {end:?} after {start:?}")).0
}

/// The number at the start of `text`.
fn number(text: &str) -> u64 {
    let digits = text.split(|digit: char| !digit.is_ascii_digit()).next();
    digits.and_then(|digits| digits.parse().ok()).unwrap_or_else(|| panic!("no number: {text:?}"))
}

/// The number that the header defines `name` as.
fn defined(name: &str) -> u64 {
    number(between(&format!("#define {name} "), "\n"))
}

/// The names and numbers of an enum of the header.
fn members(name: &str) -> BTreeMap<String, u64> {
    let lines = between(&format!("enum {name} {{"), "};").lines().map(str::trim);
    let members = lines.filter(|line| line.starts_with("NEULENTA_"));
    members
        .map(|line| line.split_once(" = ").unwrap_or_else(|| panic!("no number: {line:?}")))
        .map(|(name, value)| (name.to_string(), number(value)))
        .collect()
}

/// The header's name of a member: `NEULENTA_WRONG_MARK` of `WrongMark`.
fn c_name(member: impl Debug) -> String {
    let mut name = "NEULENTA".to_string();
    for letter in format!("{member:?}").chars() {
        if letter.is_uppercase() {
            name.push('_');
        }
        name.push(letter.to_ascii_uppercase());
    }
    name
}

/// The calls that `text` declares, each after `start`, with what `parameter` says of each parameter.
fn calls(
    text: &'static str,
    start: &str,
    parameter: fn(&'static str) -> [&'static str; 2],
) -> BTreeMap<&'static str, Vec<[&'static str; 2]>> {
    let call = |call: &'static str| {
        let (name, rest) = call.split_once('(').unwrap_or_else(|| panic!("no call: {call:?}"));
        let parameters = rest.split(')').next().unwrap_or_default().split(',').map(str::trim);
        (name, parameters.filter(|it| !it.is_empty()).map(parameter).collect())
    };
    text.split(start).skip(1).map(call).collect()
}

/// A parameter's name and type, as C declares it.
fn c_parameter(parameter: &'static str) -> [&'static str; 2] {
    let start = parameter.rfind([' ', '*']).unwrap_or_else(|| panic!("no name: {parameter:?}"));
    let (kind, name) = parameter.split_at(start + 1);
    let kind = match kind {
        "const uint8_t *" => "*const u8",
        "uint8_t *" => "*mut u8",
        "size_t " => "usize",
        "uint16_t " => "u16",
        _ => panic!("no type: {parameter:?}"),
    };
    [name, kind]
}

/// A parameter's name and type, as Rust declares it.
fn rust_parameter(parameter: &'static str) -> [&'static str; 2] {
    let (name, kind) = parameter.split_once(": ").unwrap_or_else(|| panic!("{parameter:?}"));
    [name, kind]
}

#[test]
fn calls_are_those_of_the_header() {
    let header = calls(HEADER, "\nneulenta_answer neulenta_", c_parameter);
    assert_eq!(calls(RAW, " pub fn neulenta_", rust_parameter), header);
    let names: Vec<_> = header.into_keys().collect();
    assert_eq!(names, ["check", "compare", "copy", "reconcile", "sheet"]);
}

/// Every refusal.
fn refusals() -> impl Iterator<Item = Refusal> {
    (0..1_000).filter_map(Refusal::of)
}

/// Demands that an enum of the header has just `ours` and, as 0, `none`.
fn demand_same(name: &str, ours: impl Iterator<Item = (String, u64)>, none: Option<&str>) {
    let none = none.map(|none| (none.to_string(), 0));
    assert_eq!(ours.chain(none).collect::<BTreeMap<_, _>>(), members(name), "{name}");
}

#[test]
fn names_and_numbers_are_those_of_the_header() {
    let refusals = refusals().map(|refusal| (c_name(refusal), refusal.number().into()));
    demand_same("neulenta_number", refusals, Some("NEULENTA_SUCCESS"));
    let files = (0..1_000).filter_map(File::of).map(|file| (c_name(file), file.number().into()));
    demand_same("neulenta_file", files, Some("NEULENTA_NO_FILE"));
    let verdicts = (0..1_000).filter_map(Verdict::of);
    let verdicts = verdicts.map(|verdict| (c_name(verdict), verdict.number()));
    demand_same("neulenta_verdict", verdicts, None);
}

#[test]
fn texts_are_those_of_the_header() {
    for refusal in refusals() {
        let case = between(&format!("case {}:", c_name(refusal)), ";");
        let text: String = case.split('"').skip(1).step_by(2).collect();
        assert_eq!(refusal.to_string(), text, "{refusal:?}");
    }
}

#[test]
fn examples_show_has_the_texts_of_what_the_program_refuses() {
    let script = include_str!(concat!(env!("CARGO_MANIFEST_DIR"), "/../../examples/show.awk"));
    for refusal in refusals().take_while(|refusal| *refusal != Refusal::ShortBuffer) {
        let line = format!("    meanings[{}] = \"{refusal}\"\n", refusal.number());
        assert!(script.contains(&line), "{line}");
    }
}

#[test]
fn the_longest_instance_and_sheet_and_the_stack_are_those_of_the_header() {
    assert_eq!(LONGEST as u64, defined("NEULENTA_LONGEST"));
    assert_eq!(LONGEST_SHEET as u64, defined("NEULENTA_LONGEST_SHEET"));
    assert_eq!(STACK as u64, defined("NEULENTA_STACK"));
}

#[test]
fn the_version_is_that_of_the_header_and_of_the_package() {
    let parts = ["MAJOR", "MINOR", "PATCH"];
    let parts = parts.map(|part| defined(&format!("NEULENTA_VERSION_{part}")));
    assert_eq!(u64::from(VERSION), parts.iter().fold(0, |version, part| version * 256 + part));
    assert_eq!(env!("CARGO_PKG_VERSION"), parts.map(|part| part.to_string()).join("."));
}
