//! Builds of small packages that fail or warn, with a real cargo.
#![cfg(unix)]

use crate::common::{self, Folder, as_user, command};
use std::path::Path;
use std::process::{Command, Output};

/// The manifest of a package that is a workspace.
const MANIFEST: &str = "\
[package]
name = \"tracker\"
version = \"0.1.0\"
edition = \"2024\"

[workspace]
";

/// A library with an error, and a unit test with another one.
const BROKEN: &str = "\
pub fn cents(amount: u64) -> u64 {
    amount * rate()
}

#[test]
fn counts() {
    assert_eq!(cents(1), missing());
}
";

/// A library with a warning, and a unit test that passes and has another one.
const WARNS: &str = "\
pub fn cents(amount: u64) -> u64 {
    let unused = 1;
    amount * 100
}

#[test]
fn counts() {
    let other = 2;
    assert_eq!(cents(1), 100);
}
";

/// A build script that fails.
const SCRIPT: &str = "\
fn main() {
    println!(\"cargo::warning=careful\");
    eprintln!(\"no compiler\");
    std::process::exit(3);
}
";

/// Returns a folder with these files.
fn folder_with(test: &str, files: &[(&str, &str)]) -> Folder {
    let folder = Folder::new(test);
    folder.write(files);
    folder
}

/// Runs a command in a folder.
fn run_in(folder: &Path, command: &mut Command) -> Output {
    as_user(command, folder).output().expect("the program runs")
}

/// Runs `test-report` with options and a `cargo test` with arguments, in a folder.
fn report(folder: &Folder, options: &[&str], arguments: &[&str]) -> Output {
    let words = [options, &["--", env!("CARGO"), "test"], arguments].concat();
    run_in(&folder.0, &mut command("test-report", &words))
}

/// Returns the standard output and the standard error of a run that fails.
fn failed(output: &Output) -> (String, String) {
    assert_eq!(output.status.code(), Some(1));
    let text = |bytes: &[u8]| String::from_utf8(bytes.to_vec()).expect("it is text");
    (text(&output.stdout), text(&output.stderr))
}

/// Asserts how often texts are in a text.
fn assert_counts(text: &str, counts: &[(&str, usize)]) {
    for (part, count) in counts {
        assert_eq!(text.matches(part).count(), *count, "{part:?} in\n{text}");
    }
}

#[test]
fn an_error_of_a_library_and_its_unit_tests_is_shown_once() {
    let files = [("Cargo.toml", MANIFEST), ("src/lib.rs", BROKEN)];
    let folder = folder_with("broken", &files);
    let (text, messages) = failed(&report(&folder, &[], &["-j", "2"]));
    let line = "could not compile tracker (lib test): 2 errors\n";
    assert_eq!(text, format!("{line}outcome failed\n"));
    let shown = "error[E0425]: cannot find function `rate` in this scope\n --> src/lib.rs:2:14\n";
    let counts = [
        (shown, 1),
        ("error[E0425]: cannot find function `missing` in", 1),
        ("error: could not compile `tracker` (lib test) due to 2 ", 1),
        ("\"reason\"", 0),
        ("\u{1b}", 0),
    ];
    assert_counts(&messages, &counts);
    let (text, messages) = failed(&report(&folder, &["--others", "never"], &["-j", "2"]));
    let errors = "    src/lib.rs:2:14: error[E0425]: cannot find function `rate` in this scope\n    \
                  src/lib.rs:7:26: error[E0425]: cannot find function `missing` in this scope\n";
    assert_eq!(text, [line, errors, "outcome failed\n"].concat());
    assert_eq!(messages, "");
    let (names, _) = failed(&report(&folder, &["--format", "names"], &["-j", "2"]));
    assert_eq!(names, "");
}

#[test]
fn each_target_that_does_not_compile_is_reported() {
    let manifest = [MANIFEST, "\n[lib]\ntest = false\n"].concat();
    let test = "#[test]\nfn pays() {\n    tracker::none();\n}\n";
    let files = [
        ("Cargo.toml", manifest.as_str()),
        ("src/lib.rs", "/// Pays.\npub fn pays() {}\n"),
        ("tests/one.rs", test),
        ("tests/two.rs", test),
    ];
    let folder = folder_with("targets", &files);
    let (text, _) = failed(&report(&folder, &["--others", "never"], &["-j", "2"]));
    let of = |name: &str| {
        format!(
            "could not compile tracker (test \"{name}\"): 1 error\n    \
             tests/{name}.rs:3:14: error[E0425]: cannot find function `none` in crate `tracker`\n"
        )
    };
    assert_counts(&text, &[(&of("one"), 1), (&of("two"), 1)]);
    assert_eq!(text.lines().count(), 5, "{text}");
}

#[test]
fn an_error_of_a_dependency_is_its_own() {
    let manifest = |name: &str, rest: &str| {
        let manifest = MANIFEST.replace("tracker", name);
        manifest.replace("\n[workspace]\n", rest)
    };
    let app = manifest("app", "\n[dependencies]\nmoney = { path = \"../money\" }\n");
    let money = manifest("money", "");
    let files = [
        (
            "Cargo.toml",
            "[workspace]\nmembers = [\"app\", \"money\"]\nresolver = \"3\"\n",
        ),
        ("app/Cargo.toml", &app),
        ("app/src/lib.rs", "pub use money::cents;\n"),
        ("money/Cargo.toml", &money),
        (
            "money/src/lib.rs",
            "pub fn cents() -> u64 {\n    \"none\"\n}\n",
        ),
    ];
    let folder = folder_with("workspace", &files);
    let (text, _) = failed(&report(&folder, &["--others", "never"], &["-p", "app"]));
    let wanted = "\
could not compile money (lib): 1 error
    money/src/lib.rs:2:5: error[E0308]: mismatched types
outcome failed
";
    assert_eq!(text, wanted);
    let (text, _) = failed(&report(&folder, &["--format", "github"], &["-p", "app"]));
    let front = "::error file=money/src/lib.rs,line=2,col=5,title=could not compile money (lib)::error[E0308]: ";
    assert!(text.starts_with(front), "{text}");
}

/// What is shown of the build and the run of the package that warns, and how often. The number of warnings comes from
/// the second cargo alone.
const WARNINGS: [(&str, usize); 7] = [
    ("   Compiling tracker v0.1.0", 1),
    (
        "warning: unused variable: `unused`\n --> src/lib.rs:2:9\n",
        1,
    ),
    (
        "warning: unused variable: `other`\n --> src/lib.rs:8:9\n",
        1,
    ),
    ("warning: `tracker` (lib) generated 1 warning", 1),
    ("unused manifest key: package.unknown\n", 1),
    ("    Finished `test` profile", 1),
    ("     Running unittests src/lib.rs", 1),
];

/// Returns the files of the package that warns.
fn package_that_warns(manifest: &str) -> [(&str, &str); 2] {
    [("Cargo.toml", manifest), ("src/lib.rs", WARNS)]
}

/// Returns a manifest that cargo warns about.
fn odd_manifest() -> String {
    MANIFEST.replace("edition", "unknown = 1\nedition")
}

#[test]
fn a_warning_is_shown_once_by_both_cargos_and_nothing_is_compiled_anew() {
    let manifest = odd_manifest();
    let folder = folder_with("warns", &package_that_warns(&manifest));
    let output = report(&folder, &["--format", "names"], &[]);
    assert_eq!(output.status.code(), Some(0));
    assert_counts(&String::from_utf8_lossy(&output.stderr), &WARNINGS);
    let output = report(&folder, &["--format", "names"], &[]);
    let again =
        WARNINGS.map(|(part, count)| (part, if part.contains("Compiling") { 0 } else { count }));
    assert_counts(&String::from_utf8_lossy(&output.stderr), &again);
}

/// Asserts what is reported of a build that fails without an error of the compiler, and that cargo's words are passed
/// on.
fn assert_cargo_says(folder: &Folder, arguments: &[&str], first: &str, rest: &str) {
    let (text, messages) = failed(&report(folder, &[], arguments));
    assert!(text.starts_with(&format!("cargo: {first}")), "{text}");
    assert!(
        text.contains(rest) && text.ends_with("\noutcome failed\n"),
        "{text}"
    );
    assert!(
        !text.contains("Summary") && !text.contains("ERROR"),
        "{text}"
    );
    assert_counts(&messages, &[(first, 1)]);
    let (xml, _) = failed(&report(
        folder,
        &["--format", "junit", "--others", "never"],
        arguments,
    ));
    assert_counts(
        &xml,
        &[("<error message=\"cargo: error: ", 1), ("<error", 1)],
    );
}

#[test]
fn cargos_own_error_is_the_reason() {
    let nothing = Folder::new("nothing");
    let first = "error: could not find `Cargo.toml` in `";
    assert_cargo_says(&nothing, &[], first, "");
    let files = [("Cargo.toml", MANIFEST), ("src/lib.rs", "")];
    let folder = folder_with("own", &files);
    let first = "error: cannot create the lock file ";
    assert_cargo_says(
        &folder,
        &["--locked"],
        first,
        "    help: to generate the lock file ",
    );
    let first = "error: package ID specification `nothing` did not match any packages\n";
    assert_cargo_says(&folder, &["-p", "nothing"], first, "");
    let first = "error: unexpected argument '--nothing' found\n";
    assert_cargo_says(&folder, &["--nothing"], first, "    Usage: cargo test ");
}

#[test]
fn what_a_build_script_says_is_the_reason() {
    let files = [
        ("Cargo.toml", MANIFEST),
        ("src/lib.rs", ""),
        ("build.rs", SCRIPT),
    ];
    let folder = folder_with("script", &files);
    let first = "error: failed to run custom build command for `tracker v0.1.0 (";
    assert_cargo_says(&folder, &[], first, "      --- stderr\n      no compiler\n");
}

/// Runs `test-report -- cargo test` in a folder, with a terminal as all its streams, and returns what it writes.
#[cfg(target_os = "linux")]
fn on_terminal(folder: &Folder, arguments: &str) -> (String, Option<i32>) {
    let program = common::path_of("test-report");
    let words = format!("'{program}' -- '{}' test {arguments}", env!("CARGO"));
    let mut script = Command::new("script");
    script.args(["--quiet", "--return", "--command", &words, "/dev/null"]);
    let output = run_in(
        &folder.0,
        script.env("TERM", "xterm").env_remove("GITHUB_ACTIONS"),
    );
    let text = String::from_utf8_lossy(&output.stdout).replace("\r\n", "\n");
    (text, output.status.code())
}

/// Returns a text without the colours and the escapes in what cargo and the program write.
#[cfg(target_os = "linux")]
fn plain(text: &str) -> String {
    deodarsieve_cli::report::build::without_colors(text)
}

#[test]
#[cfg(target_os = "linux")]
fn on_a_terminal_errors_have_colours_and_the_report_does_not_repeat_them() {
    let files = [("Cargo.toml", MANIFEST), ("src/lib.rs", BROKEN)];
    let folder = folder_with("terminal", &files);
    let (text, status) = on_terminal(&folder, "-j 2");
    assert_eq!(status, Some(1));
    let coloured = "\r\u{1b}[K\u{1b}[1m\u{1b}[91merror[E0425]\u{1b}[0m\u{1b}[1m: cannot find function `rate` in";
    assert_counts(&text, &[(coloured, 1)]);
    let compiling = "\u{1b}[1m\u{1b}[92m   Compiling\u{1b}[0m tracker v0.1.0";
    assert_counts(&text, &[(compiling, 1)]);
    let end = "could not compile tracker (lib test): 2 errors\n";
    assert!(text.ends_with(end), "{text}");
    assert_counts(
        &plain(&text),
        &[("cannot find function `rate`", 1), ("Summary", 0)],
    );
}

#[test]
#[cfg(target_os = "linux")]
fn on_a_terminal_a_warning_is_shown_once() {
    let manifest = odd_manifest();
    let folder = folder_with("terminal-warns", &package_that_warns(&manifest));
    let (text, status) = on_terminal(&folder, "");
    assert_eq!(status, Some(0));
    assert_counts(&plain(&text).replace('\r', ""), &WARNINGS);
}

#[test]
#[cfg(target_os = "linux")]
fn on_a_terminal_cargos_own_error_is_above_the_report() {
    let folder = Folder::new("terminal-nothing");
    let (text, status) = on_terminal(&folder, "");
    assert_eq!(status, Some(1));
    let text = plain(&text);
    assert!(
        text.starts_with("error: could not find `Cargo.toml` in `"),
        "{text}"
    );
    assert!(text.ends_with("\ncargo ended with status 101\n"), "{text}");
}

#[test]
#[cfg(target_os = "linux")]
fn on_a_terminal_nothing_is_shown_of_a_build_if_it_is_not_wanted() {
    let files = [("Cargo.toml", MANIFEST), ("src/lib.rs", BROKEN)];
    let folder = folder_with("terminal-never", &files);
    let program = common::path_of("test-report");
    let words = format!(
        "'{program}' --others never -- '{}' test -j 2",
        env!("CARGO")
    );
    let mut script = Command::new("script");
    script.args(["--quiet", "--return", "--command", &words, "/dev/null"]);
    let output = run_in(&folder.0, script.env_remove("GITHUB_ACTIONS"));
    let text = String::from_utf8_lossy(&output.stdout).replace("\r\n", "\n");
    assert!(
        text.starts_with("could not compile tracker (lib test): 2 errors\n    src/lib.rs:2:14: "),
        "{text}"
    );
}
