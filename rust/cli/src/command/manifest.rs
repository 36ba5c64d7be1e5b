//! What the manifest of a package says of its targets.

use serde::Deserialize;
use std::fs;
use std::path::Path;

/// The parts of a manifest that say which harness targets have.
#[derive(Debug, Deserialize)]
pub struct Manifest {
    lib: Option<Target>,

    #[serde(default)]
    bin: Vec<Target>,

    #[serde(default)]
    example: Vec<Target>,

    #[serde(default)]
    test: Vec<Target>,

    #[serde(default)]
    bench: Vec<Target>,
}

/// What a manifest says of a target.
#[derive(Debug, Deserialize)]
struct Target {
    name: Option<String>,
    harness: Option<bool>,
}

impl Manifest {
    /// Returns the manifest in a file, or `None` if it cannot be read. Cargo may be able to read it all the same: the crate
    /// `toml` knows an older TOML.
    pub fn read(path: &Path) -> Option<Manifest> {
        let text = fs::read_to_string(path).ok()?;
        toml::from_str(&text).ok()
    }

    /// Returns true if the manifest says that a target has a harness of its own. `kind` is its first kind in cargo's
    /// messages.
    pub fn has_own_harness(&self, kind: &str, name: &str) -> bool {
        let has_own = |target: &Target| target.harness == Some(false);
        let targets = match kind {
            "bin" => &self.bin,
            "example" => &self.example,
            "test" => &self.test,
            "bench" => &self.bench,
            // All other kinds are those of the library.
            _ => return self.lib.as_ref().is_some_and(has_own),
        };
        let of_name = |target: &&Target| target.name.as_deref() == Some(name);
        targets.iter().find(of_name).is_some_and(has_own)
    }
}

#[cfg(test)]
mod tests {
    use super::*;

    /// A manifest with targets that have a harness of their own and others that have not.
    const TEXT: &str = r#"
package = { name = "money", version = "0.1.0" }
lib.harness = false

[[test]]
name = "own" # harness = true
path = """
[[test]]
harness = true
"""
harness = false

[[test]]
name = "usual"
harness = true

[[bench]]
name = "speed"
harness = false
[[bin]]
name = "speed"
"#;

    #[test]
    fn a_manifest_says_which_targets_have_their_own_harness() {
        let manifest: Manifest = toml::from_str(TEXT).expect("the text is a manifest");
        for (kind, name, wanted) in [
            ("lib", "money", true),
            ("proc-macro", "money", true),
            ("test", "own", true),
            ("test", "usual", false),
            ("test", "other", false),
            ("bench", "speed", true),
            ("bin", "speed", false),
            ("example", "own", false),
        ] {
            assert_eq!(
                manifest.has_own_harness(kind, name),
                wanted,
                "{kind} {name}"
            );
        }
    }

    #[test]
    fn a_file_that_is_no_manifest_cannot_be_read() {
        let folder = tempfile::tempdir().expect("a folder can be made");
        let path = folder.path().join("Cargo.toml");
        for text in ["[lib", "lib = 1", "[lib]\nharness = 0"] {
            fs::write(&path, text).expect("the folder is there");
            assert!(Manifest::read(&path).is_none(), "{text}");
        }
        for text in ["", "\u{feff}[lib]\r\nharness = true\r\n"] {
            fs::write(&path, text).expect("the folder is there");
            assert!(Manifest::read(&path).is_some(), "{text}");
        }
        assert!(Manifest::read(Path::new("/no/such/file")).is_none());
    }
}
