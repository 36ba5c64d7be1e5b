//! What `test-report -- cargo test` learns from cargo's settings and from variables before it runs cargo: whether it can
//! take the place of test programs and of rustdoc.
#![cfg(unix)]

use crate::common::{Folder, command};
use std::fs;
use std::process::Command;

/// The variables that these tests set, or that would change what they see.
const VARIABLES: [&str; 7] = [
    "CARGO_BUILD_RUSTDOC",
    "CARGO_BUILD_TARGET",
    "CARGO_TARGET_DIR",
    "CARGO_TARGET_WASM32_WASIP1_RUNNER",
    "CARGO_TERM_COLOR",
    "RUSTC_BOOTSTRAP",
    "RUSTDOC",
];

/// A cargo that has the settings in the variable `SETTINGS`, for a Linux. Instead of running tests it says what it got.
const CARGO: &str = r#"#!/bin/sh
case " $* " in
*' config get '*) printf '%s\n' "$SETTINGS"; exit ;;
*' -vV '*) echo 'host: x86_64-unknown-linux-gnu'; exit ;;
*' rustc '*) echo "$*" >"$0.asked"; echo unix; exit ;;
*' --no-run '*) exit ;;
esac
echo "bootstrap=$RUSTC_BOOTSTRAP arguments=$*" >&2
"#;

/// A setting that names a runner for a target that is not this machine.
const WASM_RUNNER: &str = r#"{"target":{"wasm32-wasip1":{"runner":"r"}}}"#;

/// Returns what the cargo in a folder got, if it has these settings, this variable is set, and these words follow
/// `cargo test`.
fn seen(folder: &Folder, settings: &str, variable: Option<&str>, words: &[&str]) -> String {
    let cargo = folder.file("cargo");
    let mut command = command("test-report", &["--", &cargo, "test"]);
    for name in VARIABLES {
        command.env_remove(name);
    }
    command
        .args(words)
        .env("SETTINGS", settings)
        .envs(variable.map(|name| (name, "wasm32-wasip1")));
    let output = command.output().expect("the program runs");
    String::from_utf8_lossy(&output.stderr).into_owned()
}

#[test]
fn a_runner_or_a_rustdoc_of_the_user_is_left_in_its_place() {
    let folder = Folder::new("own-programs");
    folder.script("cargo", CARGO);
    let wasm = Some("CARGO_BUILD_TARGET");
    let with_target =
        r#"{"build":{"target":"wasm32-wasip1"},"target":{"wasm32-wasip1":{"runner":"r"}}}"#;
    let runner = Some("CARGO_TARGET_WASM32_WASIP1_RUNNER");
    let cases: [(&str, Option<&str>, &[&str]); 9] = [
        (r#"{"build":{"rustdoc":"a"}}"#, None, &[]),
        ("{}", Some("RUSTDOC"), &[]),
        ("{}", Some("CARGO_BUILD_RUSTDOC"), &[]),
        (WASM_RUNNER, wasm, &[]),
        (WASM_RUNNER, None, &["--target", "wasm32-wasip1"]),
        ("{}", runner, &["--target", "wasm32-wasip1"]),
        (with_target, None, &[]),
        (
            r#"{"target":{"x86_64-unknown-linux-gnu":{"runner":"r"}}}"#,
            None,
            &[],
        ),
        (r#"{"target":{"cfg(unix)":{"runner":"r"}}}"#, None, &[]),
    ];
    for (settings, variable, words) in cases {
        let seen = seen(&folder, settings, variable, words);
        let what = format!("{settings} {variable:?} {words:?}: {seen}");
        assert!(
            seen.contains("RUSTC_BOOTSTRAP is set for the whole of cargo"),
            "{what}"
        );
        assert!(seen.contains("bootstrap=test-report "), "{what}");
        assert!(!seen.contains("runner="), "{what}");
    }
}

#[test]
fn other_settings_cost_nothing() {
    let folder = Folder::new("other-settings");
    folder.script("cargo", CARGO);
    let cases: [(&str, Option<&str>, &[&str]); 5] = [
        ("{}", None, &[]),
        (WASM_RUNNER, None, &[]),
        ("{}", Some("CARGO_BUILD_TARGET"), &[]),
        ("{}", Some("CARGO_TARGET_WASM32_WASIP1_RUNNER"), &[]),
        (r#"{"target":{"cfg(windows)":{"runner":"r"}}}"#, None, &[]),
    ];
    for (settings, variable, words) in cases {
        let seen = seen(&folder, settings, variable, words);
        let what = format!("{settings} {variable:?} {words:?}: {seen}");
        assert!(seen.starts_with("bootstrap= "), "{what}");
        assert!(seen.contains("runner="), "{what}");
    }
}

#[test]
fn cargo_asks_the_rustc_of_the_same_settings_and_of_the_same_package() {
    let folder = Folder::new("asked");
    folder.script("cargo", CARGO);
    let settings = r#"{"target":{"cfg(windows)":{"runner":"r"}}}"#;
    let words = ["--manifest-path=a/Cargo.toml", "--config", "a=1"];
    seen(&folder, settings, None, &words);
    let asked = fs::read_to_string(folder.file("cargo.asked"));
    let wanted = "--config a=1 -Z unstable-options rustc --manifest-path a/Cargo.toml --print cfg \
                  --target x86_64-unknown-linux-gnu\n";
    assert_eq!(asked.expect("cargo was asked"), wanted);
}

#[test]
fn the_subcommand_runs_the_cargo_that_started_it() {
    let folder = Folder::new("own-cargo");
    let cargo = folder.script("cargo", CARGO);
    let output = command("cargo-test-report", &["test-report", "-p", "money"])
        .env("CARGO", &cargo)
        .env("RUSTC_BOOTSTRAP", "1")
        .output()
        .expect("the program runs");
    let seen = String::from_utf8_lossy(&output.stderr);
    let wanted = "bootstrap=1 arguments=test --no-fail-fast -p money -- ";
    assert!(seen.starts_with(wanted), "{seen}");
}

/// A rustc that is the one on the path.
const RUSTC: &str = "#!/bin/sh\nexec rustc \"$@\"\n";

/// A rustc that must not be started. It creates a file, which shows that it was.
const WRONG: &str = "#!/bin/sh\n: >wrong\nexit 1\n";

/// Settings with a rustc in the folder above that of the file, and a runner for a condition.
const SETTINGS: &str =
    "[build]\nrustc = \"bin/rustc\"\n[target.'cfg(windows)']\nrunner = \"none\"\n";

/// Writes a package in a folder, and settings in the folder above it with another rustc than the package has.
fn write_package(folder: &Folder) {
    for inner in [".cargo", "bin", "money/bin", "money/src"] {
        fs::create_dir_all(folder.0.join(inner)).expect("it is new");
    }
    folder.script("bin/rustc", RUSTC);
    folder.script("money/bin/rustc", WRONG);
    let manifest =
        "[package]\nname = \"money\"\nversion = \"0.1.0\"\nedition = \"2024\"\n\n[workspace]\n";
    for (name, text) in [
        (".cargo/config.toml", SETTINGS),
        ("money/Cargo.toml", manifest),
        ("money/src/lib.rs", "#[test]\nfn adds() {}\n"),
    ] {
        fs::write(folder.0.join(name), text).expect("the folder is there");
    }
}

/// Runs a command, which must succeed, in the package of a folder. Returns what it wrote to standard error, and what
/// cargo keeps of what rustc says.
fn run_in_package(folder: &Folder, target: &str, command: &mut Command) -> (String, String) {
    let target = folder.0.join(target);
    // Before the first build cargo keeps nothing if there is no such folder.
    fs::create_dir(&target).expect("it is new");
    for name in VARIABLES.iter().chain(&["RUSTC"]) {
        command.env_remove(name);
    }
    command
        .env("CARGO_NET_OFFLINE", "true")
        .env("CARGO_TARGET_DIR", &target)
        .current_dir(folder.0.join("money"));
    let output = command.output().expect("the program runs");
    let messages = String::from_utf8_lossy(&output.stderr).into_owned();
    assert_eq!(output.status.code(), Some(0), "{messages}");
    let kept = fs::read_to_string(target.join(".rustc_info.json"));
    (messages, kept.expect("cargo keeps it"))
}

#[test]
fn the_rustc_of_the_settings_is_the_one_that_cargo_starts() {
    let folder = Folder::new("rustc");
    write_package(&folder);
    let words = ["--", env!("CARGO"), "test", "--lib"];
    let (messages, kept) = run_in_package(&folder, "reported", &mut command("test-report", &words));
    assert!(!folder.0.join("money/wrong").exists());
    assert!(!messages.contains("RUSTC_BOOTSTRAP"), "{messages}");
    // Only with unstable options does rustc say this of a target.
    let unstable = "target_thread_local";
    let mut cargo_test = Command::new(env!("CARGO"));
    let (_, by_cargo) = run_in_package(&folder, "plain", cargo_test.args(["test", "--lib"]));
    assert_eq!(kept.contains(unstable), by_cargo.contains(unstable));
}
