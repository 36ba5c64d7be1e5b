//! Packages whose manifests cargo can read and the crate `toml` cannot, with a real cargo.
#![cfg(unix)]

use crate::common::{Folder, as_user, command};
use std::fs;

/// A manifest with parts that follow its tables.
const TABLES: &str = "\
[package]
name = \"money\"
version = \"0.1.0\"
edition = \"2024\"

[workspace]

[[test]]
name = \"own\"
harness = false
";

/// The same as a manifest with dotted keys. A part that follows may add a table.
const DOTTED_KEYS: &str = "\
package.name = \"money\"
package.version = \"0.1.0\"
package.edition = \"2024\"
test = [{ name = \"own\", harness = false }]

[workspace]
";

/// Manifests in parts. The second parts are an inline table of several lines, escapes and a time without seconds, which
/// all are new in TOML 1.1, and a table whose name begins with that of a dotted key, which older versions allow.
const MANIFESTS: [(&str, &str); 5] = [
    (
        TABLES,
        "[package.metadata]\na = {\n    b = 1,\n    c = 2,\n}\n",
    ),
    (TABLES, "[package.metadata]\na = \"\\e[1m\\x41\"\n"),
    (TABLES, "[package.metadata]\na = 07:32\n"),
    (DOTTED_KEYS, "[package.metadata.a]\nb = 1\n"),
    ("\u{feff}", TABLES),
];

/// The package's other files: tests with the usual harness, and a program with its own that takes no arguments.
const SOURCES: [(&str, &str); 3] = [
    ("src/lib.rs", "#[test]\nfn adds() {}\n"),
    ("tests/usual.rs", "#[test]\nfn pays() {}\n"),
    (
        "tests/own.rs",
        "fn main() {\n    assert_eq!(std::env::args().count(), 1);\n}\n",
    ),
];

#[test]
fn each_program_has_its_harness_although_the_manifest_cannot_be_read() {
    let folder = Folder::new("manifests");
    folder.write(&SOURCES);
    for (first, second) in MANIFESTS {
        let manifest = [first, second].concat();
        fs::write(folder.file("Cargo.toml"), &manifest).expect("the folder is there");
        let mut command = command("test-report", &["--", env!("CARGO"), "test"]);
        let output = as_user(&mut command, &folder.0).output();
        let output = output.expect("the program runs");
        let text = String::from_utf8_lossy(&output.stdout);
        assert!(
            text.contains(" 2 tests run: 2 passed "),
            "{manifest}\n{text}"
        );
        let own = "money::own has its own harness, and no report\n";
        assert_eq!(text.matches(own).count(), 1, "{manifest}\n{text}");
        assert_eq!(output.status.code(), Some(0), "{manifest}");
    }
}
