//! Asks cargo for the workspace of a command: the folder to which cargo builds, and the packages with documentation tests.

use super::cargo::{CargoCommand, values_of};
use super::prepared::folder_of;
use super::settings::{answer_of, config_arguments};
use serde::Deserialize;
use std::collections::BTreeSet;
use std::ffi::OsString;
use std::path::PathBuf;

/// The options of cargo without a value that decide which workspace is read, and how.
const FLAGS: [&str; 3] = ["--locked", "--offline", "--frozen"];

/// The arguments with which cargo describes a workspace and reads nothing of other packages.
const DESCRIBES: [&str; 4] = ["metadata", "--no-deps", "--format-version", "1"];

/// What cargo is asked about the workspace of a command.
#[derive(Clone, Debug, PartialEq, Eq)]
pub struct WorkspaceQuestion {
    /// Cargo, with its arguments before the subcommand.
    before: Vec<OsString>,

    /// The arguments after that.
    arguments: Vec<String>,

    /// The folder to which cargo builds, if the user has named it.
    target: Option<PathBuf>,
}

/// The workspace of a command.
#[derive(Debug, PartialEq, Eq)]
pub struct Workspace {
    /// The folder to which cargo builds.
    pub target: PathBuf,

    /// The names of the packages whose documentation tests cargo runs.
    pub documented: BTreeSet<String>,
}

/// What cargo says of a workspace.
#[derive(Deserialize)]
struct Metadata {
    target_directory: PathBuf,
    packages: Vec<Package>,
}

/// A package of a workspace.
#[derive(Deserialize)]
struct Package {
    name: String,
    targets: Vec<Target>,
}

/// A target of a package.
#[derive(Deserialize)]
struct Target {
    /// True if it has documentation tests that cargo runs.
    #[serde(default)]
    doctest: bool,
}

impl WorkspaceQuestion {
    /// Returns the question about the workspace of a command.
    pub fn of(cargo: &CargoCommand) -> WorkspaceQuestion {
        let mut arguments = config_arguments(cargo.own);
        arguments.extend(DESCRIBES);
        if let Some(manifest) = values_of(cargo.own, "--manifest-path").last() {
            arguments.extend(["--manifest-path", manifest]);
        }
        let flags = cargo.own.iter().filter_map(|word| word.to_str());
        arguments.extend(flags.filter(|word| FLAGS.contains(word)));
        let target = values_of(cargo.own, "--target-dir")
            .last()
            .map(PathBuf::from);
        let folder = folder_of(cargo).ok();
        WorkspaceQuestion {
            before: cargo.before.to_vec(),
            arguments: arguments.into_iter().map(String::from).collect(),
            target: target.map(|target| folder.unwrap_or_default().join(target)),
        }
    }

    /// Asks the same cargo, and returns what it says. Returns `None` if it fails.
    pub fn ask(&self) -> Option<Workspace> {
        let arguments: Vec<_> = self.arguments.iter().map(String::as_str).collect();
        let output = answer_of(&self.before, &arguments)?;
        let metadata: Metadata = serde_json::from_slice(&output.stdout).ok()?;
        let packages = metadata.packages.into_iter();
        let documented = packages.filter(|package| package.targets.iter().any(|it| it.doctest));
        Some(Workspace {
            documented: documented.map(|package| package.name).collect(),
            target: self.target.clone().unwrap_or(metadata.target_directory),
        })
    }
}

#[cfg(test)]
mod tests {
    use super::*;
    use std::env;

    /// Returns what cargo is asked about the workspace of a command.
    fn question(command: &str) -> WorkspaceQuestion {
        let words: Vec<_> = command.split_whitespace().map(OsString::from).collect();
        WorkspaceQuestion::of(&CargoCommand::of(&words).expect("the command runs tests"))
    }

    #[test]
    fn cargo_is_asked_with_the_arguments_that_name_the_workspace() {
        let found = question(
            "cargo +x --config a=1 test -q --manifest-path m --config b=1 --locked --lib --target-dir=t -- --offline",
        );
        assert_eq!(found.before, ["cargo", "+x", "--config", "a=1"]);
        assert_eq!(
            found.arguments.join(" "),
            "--config b=1 metadata --no-deps --format-version 1 --manifest-path m --locked"
        );
        let folder = env::current_dir().expect("there is a folder");
        assert_eq!(found.target, Some(folder.join("t")));
        assert_eq!(question("cargo test -- --target-dir t").target, None);
    }

    #[test]
    fn cargo_says_where_it_builds_and_which_packages_are_documented() {
        let manifest = concat!(
            "--manifest-path=",
            env!("CARGO_MANIFEST_DIR"),
            "/Cargo.toml"
        );
        let target = env::temp_dir().join("t");
        let command = format!("cargo test {manifest} --target-dir {}", target.display());
        let found = question(&command).ask().expect("cargo knows it");
        assert_eq!(found.target, target);
        assert!(found.documented.contains("deodarsieve-cli"), "{found:?}");
        assert_eq!(
            question("cargo test --manifest-path /no/such/file").ask(),
            None
        );
    }
}
