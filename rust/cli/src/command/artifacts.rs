//! Finds the test programs in the messages of the cargo that builds them, with the names that nextest gives to their
//! suites.

use super::manifest::Manifest;
use super::programs::TestProgram;
use super::usual_harness::has_usual_harness;
use crate::cargo_message::{Artifact, TargetId};
use deodarsieve_run::SuiteNames;
use std::collections::HashMap;
use std::path::{Path, PathBuf};

/// The test programs that a cargo has built.
#[derive(Debug, Default)]
pub struct Artifacts {
    programs: Vec<TestProgram>,

    /// The manifests that were read, by their paths. One is `None` if it cannot be read.
    manifests: HashMap<PathBuf, Option<Manifest>>,
}

impl Artifacts {
    /// Adds a target, if it is a test program.
    pub fn add(&mut self, artifact: &Artifact) {
        let Some(mut program) = test_program(artifact) else {
            return;
        };
        if let Some(path) = &artifact.manifest_path {
            let manifest = self
                .manifests
                .entry(PathBuf::from(path))
                .or_insert_with_key(|path| Manifest::read(path));
            program.harness = match manifest {
                Some(manifest) => !manifest.has_own_harness(&program.kind, &program.target),
                None => has_usual_harness(Path::new(&program.path)),
            };
        }
        self.programs.push(program);
    }

    /// Returns the test programs.
    pub fn into_programs(self) -> Vec<TestProgram> {
        self.programs
    }
}

/// Returns the names of the suites of test programs, by the paths that the headings of a cargo have that works in
/// `folder`.
pub fn suite_names(programs: &[TestProgram], folder: &Path) -> SuiteNames {
    let mut names = SuiteNames::new();
    for TestProgram { path, name, .. } in programs {
        if let Some(short) = path_in(folder, path) {
            names.insert(short, name.clone());
        }
        // The headings of `cargo test -v` have the whole path.
        names.insert(path.clone(), name.clone());
    }
    names
}

/// Returns the path of a program relative to a folder, or `None` if it is not in the folder. Cargo's headings have such
/// paths.
fn path_in(folder: &Path, path: &str) -> Option<String> {
    let path = Path::new(path).strip_prefix(folder).ok()?;
    path.to_str().map(String::from)
}

/// Returns a test program, with the usual harness, or `None` if the target is none.
fn test_program(artifact: &Artifact) -> Option<TestProgram> {
    let path = artifact
        .executable
        .as_ref()
        .filter(|_| artifact.is_test())?;
    let target = artifact.target();
    Some(TestProgram {
        path: path.clone(),
        package: target.package().to_string(),
        name: suite_name(&target),
        target: target.name,
        kind: target.kind,
        harness: true,
    })
}

/// Returns nextest's name of the suites of a target.
fn suite_name(target: &TargetId) -> String {
    let package = target.package();
    match target.kind.as_str() {
        _ if target.is_library() => package.to_string(),
        "test" => format!("{package}::{}", target.name),
        kind => format!("{package}::{kind}/{}", target.name),
    }
}

#[cfg(test)]
mod tests {
    use super::*;
    use crate::cargo_message::CargoMessage;
    use serde_json::{Value, json};

    /// Returns a message of cargo about a target of the package `money`.
    fn message(kinds: &[&str], target: &str, is_test: bool) -> Value {
        json!({
            "reason": "compiler-artifact", "package_id": "path+file:///a/money#0.1.0",
            "target": {"kind": kinds, "name": target}, "profile": {"test": is_test}, "executable": "/a/target/it-0",
        })
    }

    /// Returns the target of a message.
    fn artifact(message: &Value) -> Artifact {
        match CargoMessage::read(message.to_string().as_bytes()) {
            Some(CargoMessage::CompilerArtifact(artifact)) => artifact,
            other => panic!("{other:?}"),
        }
    }

    #[test]
    fn suites_have_the_names_that_nextest_gives_them() {
        let cases: [(&[&str], _); 9] = [
            (&["lib"], "money"),
            (&["rlib", "cdylib"], "money"),
            (&["cdylib"], "money"),
            (&["dylib", "staticlib"], "money"),
            (&["proc-macro"], "money"),
            (&["test"], "money::it"),
            (&["bin"], "money::bin/it"),
            (&["example"], "money::example/it"),
            (&["bench"], "money::bench/it"),
        ];
        for (kinds, name) in cases {
            let wanted = TestProgram {
                path: "/a/target/it-0".into(),
                package: "money".into(),
                target: "it".into(),
                kind: kinds[0].into(),
                name: name.into(),
                harness: true,
            };
            let found = test_program(&artifact(&message(kinds, "it", true)));
            assert_eq!(found, Some(wanted));
        }
    }

    #[test]
    fn another_target_is_no_test_program() {
        let mut library = message(&["lib"], "money", true);
        library["executable"] = json!(null);
        for other in [message(&["bin"], "it", false), library] {
            assert_eq!(test_program(&artifact(&other)), None, "{other}");
        }
    }

    #[test]
    fn a_program_has_the_harness_that_the_manifest_of_its_package_says() {
        let folder = tempfile::tempdir().expect("a folder can be made");
        let manifest = folder.path().join("Cargo.toml");
        let text = "[[test]]\nname = \"own\"\nharness = false\n";
        std::fs::write(&manifest, text).expect("the folder is there");
        let mut artifacts = Artifacts::default();
        for target in ["own", "usual"] {
            let mut message = message(&["test"], target, true);
            message["manifest_path"] = json!(manifest);
            artifacts.add(&artifact(&message));
        }
        artifacts.add(&artifact(&message(&["test"], "nowhere", true)));
        let programs = artifacts.into_programs().into_iter();
        let found: Vec<_> = programs.map(|it| (it.target, it.harness)).collect();
        let wanted = [("own", false), ("usual", true), ("nowhere", true)];
        assert_eq!(
            found,
            wanted.map(|(name, harness)| (name.to_string(), harness))
        );
    }

    #[test]
    fn a_path_is_relative_to_the_folder_of_cargo() {
        let folder = Path::new("/a/b");
        let cases = [
            ("/a/b/target/c", Some("target/c")),
            ("/a/b/../target/c", Some("../target/c")),
            ("/a/bc/target", None),
            ("/target", None),
        ];
        for (path, wanted) in cases {
            assert_eq!(path_in(folder, path).as_deref(), wanted, "{path}");
        }
    }
}
