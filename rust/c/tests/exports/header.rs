//! Compares the header with the exports, as text: structs, functions, sizes, offsets and versions.

use crate::header_text::{HEADER, number};
use deodarsieve_c::c_values::status;
use deodarsieve_c::exports::version;
use std::collections::BTreeMap;
use std::fs;
use std::path::Path;

const LAYOUT: &str = include_str!("../../src/c_values/layout.rs");
const CHECKS: &str = include_str!("../../src/layout_checks.rs");

/// The names of the structs in Rust and in C.
const STRUCTS: [(&str, &str); 12] = [
    ("FfiSlice", "deodarsieve_slice"),
    ("FfiHead", "deodarsieve_head"),
    ("FfiResult", "deodarsieve_result"),
    ("FfiTestView", "deodarsieve_test_view"),
    ("FfiRunStats", "deodarsieve_run_stats"),
    ("FfiFailedCounts", "deodarsieve_failed_counts"),
    ("FfiFinalStats", "deodarsieve_final_stats"),
    ("FfiFinishedTest", "deodarsieve_finished_test"),
    ("FfiOutput", "deodarsieve_output_on_test_finished"),
    ("FfiDuration", "deodarsieve_duration"),
    ("FfiStressProgress", "deodarsieve_stress_progress"),
    ("FfiStressRemaining", "deodarsieve_stress_remaining"),
];

/// Returns the C type of a Rust type.
fn c_type(rust: &str) -> String {
    if let Some(pointee) = rust.strip_prefix("&mut ") {
        return format!("{} *", c_type(pointee));
    }
    if let Some(pointee) = rust.strip_prefix("*const ").or(rust.strip_prefix('&')) {
        return format!("const {} *", c_type(pointee));
    }
    let scalar = match rust {
        "u8" => "uint8_t",
        "u32" => "uint32_t",
        "i32" => "int32_t",
        "u64" => "uint64_t",
        "usize" => "size_t",
        "bool" => "bool",
        _ => c_struct(rust),
    };
    scalar.to_owned()
}

/// Returns the C name of a struct.
fn c_struct(rust: &str) -> &'static str {
    let found = STRUCTS.iter().find(|(name, _)| *name == rust);
    found.unwrap_or_else(|| panic!("{rust} has no name in C")).1
}

/// Splits a declaration of C into its type and its name.
fn type_and_name(declaration: &str) -> (String, String) {
    let declaration = declaration.trim();
    let kind = declaration.trim_end_matches(|c: char| c.is_ascii_alphanumeric() || c == '_');
    (
        kind.trim_end().to_owned(),
        declaration[kind.len()..].to_owned(),
    )
}

/// Returns the header without comments and directives, with single spaces.
fn declarations() -> String {
    let mut text = String::new();
    let mut rest = HEADER;
    while let Some((before, comment)) = rest.split_once("/*") {
        text.push_str(before);
        rest = comment.split_once("*/").expect("a comment ends").1;
    }
    text.push_str(rest);
    let text = text.replace("\\\n", " ");
    let lines = text.lines().filter(|line| !line.starts_with('#'));
    let words: Vec<&str> = lines.flat_map(str::split_whitespace).collect();
    words.join(" ")
}

/// The types and names of the members of a struct, in their order.
type Members = Vec<(String, String)>;

fn structs_of_header() -> BTreeMap<String, Members> {
    let text = declarations();
    let found = text.split("typedef struct ").skip(1).map(|text| {
        let (name, rest) = text.split_once(" { ").expect("a struct has members");
        let (members, _) = rest.split_once(" }").expect("a struct ends");
        let members = members.split_terminator(';').map(type_and_name).collect();
        (name.to_owned(), members)
    });
    found.collect()
}

fn structs_of_exports() -> BTreeMap<String, Members> {
    let found = LAYOUT.split("pub struct ").skip(1).map(|text| {
        let (name, rest) = text.split_once(" {\n").expect("a struct has fields");
        let (fields, _) = rest.split_once("\n}").expect("a struct ends");
        let fields = fields
            .lines()
            .filter_map(|line| line.trim().strip_prefix("pub "));
        let members = fields.map(|field| {
            let (name, kind) = field
                .trim_end_matches(',')
                .split_once(": ")
                .expect("a field");
            (c_type(kind), name.to_owned())
        });
        (c_struct(name).to_owned(), members.collect())
    });
    found.collect()
}

#[test]
fn structs_have_the_members_of_the_header() {
    let structs = structs_of_exports();
    assert_eq!(structs.len(), STRUCTS.len());
    assert_eq!(structs_of_header(), structs);
    assert_eq!(LAYOUT.matches("#[repr(C)]").count(), STRUCTS.len());
}

/// The result and the types of the parameters of a function.
type Signature = (String, Vec<String>);

fn functions_of_header() -> BTreeMap<String, Signature> {
    let text = declarations();
    let found = text.split(';').filter_map(|text| {
        let (head, parameters) = text.trim().strip_suffix(')')?.split_once('(')?;
        let (result, name) = type_and_name(head.rsplit(['{', '}']).next()?);
        let types = parameters
            .split(',')
            .map(|parameter| type_and_name(parameter).0);
        let types = types.filter(|kind| !kind.is_empty()).collect();
        name.starts_with("deodarsieve_")
            .then_some((name, (result, types)))
    });
    found.collect()
}

fn functions_of_exports() -> BTreeMap<String, Signature> {
    let mut functions = BTreeMap::new();
    let folder = Path::new(env!("CARGO_MANIFEST_DIR")).join("src/exports");
    for entry in fs::read_dir(folder).expect("the exports") {
        let text = fs::read_to_string(entry.expect("a file").path()).expect("a text");
        for function in text.split("extern \"C\" fn ").skip(1) {
            let (name, rest) = function.split_once('(').expect("a function has parameters");
            let (parameters, rest) = rest.split_once(')').expect("the parameters end");
            let (result, _) = rest.split_once('{').expect("a function has a body");
            let result = result
                .trim()
                .strip_prefix("-> ")
                .map_or("void".into(), c_type);
            let types = parameters
                .split(',')
                .filter_map(|it| it.trim().split_once(": "));
            let types = types.map(|(_, kind)| c_type(kind)).collect();
            functions.insert(name.to_owned(), (result, types));
        }
    }
    functions
}

#[test]
fn functions_have_the_types_of_the_header() {
    let functions = functions_of_exports();
    assert_eq!(functions.len(), 19);
    assert_eq!(functions_of_header(), functions);
}

/// Returns the sizes and offsets that the header asserts.
fn checks_of_header() -> Vec<String> {
    let calls = HEADER.lines().filter_map(|line| {
        let call = line.strip_prefix("DEODARSIEVE_")?.strip_suffix(");")?;
        Some(call.replacen('(', " ", 1).replace(", ", " "))
    });
    calls.collect()
}

/// Returns the sizes and offsets that the crate asserts, as those of the header.
fn checks_of_crate() -> Vec<String> {
    let checks = CHECKS.lines().filter_map(|line| {
        let check = line
            .strip_prefix("const _: () = assert!(")?
            .strip_suffix(");")?;
        let (what, number) = check.split_once(" == ")?;
        if let Some(name) = what.strip_prefix("size_of::<") {
            return Some(format!(
                "SIZE {} {number}",
                c_struct(name.strip_suffix(">()")?)
            ));
        }
        let (name, field) = what
            .strip_prefix("offset_of!(")?
            .strip_suffix(')')?
            .split_once(", ")?;
        Some(format!("OFFSET {} {field} {number}", c_struct(name)))
    });
    checks.collect()
}

#[test]
fn sizes_and_offsets_are_those_of_the_header() {
    let checks = checks_of_crate();
    let count = CHECKS.matches("assert!").count();
    assert!(count > STRUCTS.len() && checks.len() == count);
    assert_eq!(checks_of_header(), checks);
}

#[test]
fn versions_are_those_of_the_package() {
    let parts =
        ["MAJOR", "MINOR", "PATCH"].map(|part| number(&format!("DEODARSIEVE_VERSION_{part}")));
    let [major, minor, patch] = parts;
    assert_eq!(
        format!("{major}.{minor}.{patch}"),
        env!("CARGO_PKG_VERSION")
    );
    assert_eq!(
        version::deodarsieve_version(),
        major * 1_000_000 + minor * 1_000 + patch
    );
}

#[test]
fn statuses_are_those_of_the_header() {
    assert_eq!(number("DEODARSIEVE_OK"), status::OK);
    assert_eq!(number("DEODARSIEVE_BAD_CODE"), status::BAD_CODE);
    assert_eq!(number("DEODARSIEVE_COUNTER_FULL"), status::COUNTER_FULL);
}
