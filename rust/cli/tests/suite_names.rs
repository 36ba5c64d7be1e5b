//! The names of suites in a run of `cargo test`, with a real cargo.
#![cfg(unix)]

use crate::common::{Folder, as_user, command};
use std::path::Path;

/// A workspace of three packages. Two have a file of the same name with tests.
const MANIFESTS: [(&str, &str); 4] = [
    (
        "Cargo.toml",
        "[workspace]\nresolver = \"3\"\nmembers = [\"money\", \"bank\", \"vault\"]\n",
    ),
    (
        "money/Cargo.toml",
        "[package]\nname = \"money\"\nversion = \"0.1.0\"\nedition = \"2024\"\n\n\
         [[example]]\nname = \"count\"\ntest = true\n\n[[bench]]\nname = \"speed\"\ntest = true\n",
    ),
    (
        "bank/Cargo.toml",
        "[package]\nname = \"bank\"\nversion = \"0.1.0\"\nedition = \"2024\"\n\n[lib]\nproc-macro = true\n",
    ),
    (
        "vault/Cargo.toml",
        "[package]\nname = \"steel-vault\"\nversion = \"0.1.0\"\nedition = \"2024\"\n\n\
         [lib]\nname = \"steel\"\ncrate-type = [\"cdylib\", \"rlib\"]\n",
    ),
];

/// The files with tests, and the name of the suite of each.
const SUITES: [(&str, &str); 9] = [
    ("bank/src/lib.rs", "bank"),
    ("bank/tests/it.rs", "bank::it"),
    ("money/src/lib.rs", "money"),
    ("money/src/main.rs", "money::bin/money"),
    ("money/src/bin/pay.rs", "money::bin/pay"),
    ("money/tests/it.rs", "money::it"),
    ("money/benches/speed.rs", "money::bench/speed"),
    ("money/examples/count.rs", "money::example/count"),
    ("vault/src/lib.rs", "steel-vault"),
];

/// What each file with tests has: a test, and a `main` for programs.
const TESTS: &str = "//! ```\n//! assert_eq!(1, 1);\n//! ```\n#![allow(dead_code)]\n\n\
                     fn main() {}\n\n#[test]\nfn adds() {}\n";

/// Writes the workspace to a folder.
fn write_workspace(folder: &Folder) {
    let tests = SUITES.map(|(path, _)| (path, TESTS));
    folder.write(MANIFESTS.iter().chain(&tests));
}

/// Returns the names of the suites in the order of the report, and without those that have no tests, if
/// `cargo test` has these arguments in a folder.
fn names(folder: &Path, arguments: &[&str]) -> Vec<String> {
    let options = ["--format", "json", "--others", "never", "--"];
    let mut command = command("test-report", &options);
    command.args([env!("CARGO")]).args(arguments);
    let output = as_user(&mut command, folder).output();
    let output = output.expect("the program runs");
    let report: serde_json::Value =
        serde_json::from_slice(&output.stdout).expect("the report is JSON");
    let suites = report["suites"].as_array().expect("this is a list").iter();
    let suites = suites.filter(|suite| suite["numbers"]["finished"] != 0);
    suites
        .map(|suite| suite["name"].as_str().unwrap_or_default().to_string())
        .collect()
}

/// Returns the names that suites of files whose paths begin so must have.
fn wanted(front: &str) -> Vec<&str> {
    let suites = SUITES.iter().filter(|(path, _)| path.starts_with(front));
    suites.map(|(_, name)| *name).collect()
}

#[test]
fn suites_have_the_names_that_nextest_gives_them() {
    let folder = Folder::new("workspace");
    write_workspace(&folder);
    let all = names(&folder.0, &["test", "--workspace"]);
    let documentation = ["bank", "money", "steel-vault"].map(|name| format!("{name} (doc tests)"));
    assert_eq!(all[..9], wanted(""));
    assert_eq!(all[9..], documentation);
    let mut money = wanted("money/");
    money.push(&documentation[1]);
    for arguments in [
        &["test", "-v", "-p", "money"][..],
        &["t", "-p", "money", "--", "-Zunstable-options"],
    ] {
        assert_eq!(names(&folder.0, arguments), money, "{arguments:?}");
    }
    let arguments = ["test", "-p", "money", "adds", "--", "--exact"];
    assert_eq!(names(&folder.0, &arguments), wanted("money/"));
    // From the folder of a package, and from a folder in which the programs are not.
    let source = folder.0.join("money/src");
    assert_eq!(names(&source, &["test"]), money);
    let manifest = folder.file("bank/Cargo.toml");
    let arguments = ["test", "--lib", "--manifest-path", &manifest];
    assert_eq!(names(&source, &arguments), ["bank"]);
    let arguments = ["test", "--target-dir", "../../other", "--test", "it"];
    assert_eq!(names(&source, &arguments), ["money::it"]);
}
