//! `--failed`: the list of the tests that failed last, and a run of them alone.
#![cfg(unix)]

use crate::common::{Folder, as_user, command, run};
use serde_json::{Value, json};
use std::collections::BTreeSet;
use std::fs;
use std::process::Output;

/// The manifest of a package of a workspace.
const MEMBER: &str = "[package]\nname = \"NAME\"\nversion = \"0.1.0\"\nedition = \"2024\"\n";

/// A workspace of three packages. Some of their tests fail until the file `mended` is there.
const WORKSPACE: [(&str, &str); 8] = [
    (
        "Cargo.toml",
        "[workspace]\nmembers = [\"a\", \"b\", \"c\"]\nresolver = \"3\"\n",
    ),
    (
        "a/src/lib.rs",
        r#"/// ```
/// assert!(a::is_mended());
/// ```
pub fn adds() {}

/// ```
/// assert_eq!(1, 1);
/// ```
pub fn subtracts() {}

pub fn is_mended() -> bool {
    std::path::Path::new(concat!(env!("CARGO_MANIFEST_DIR"), "/../mended")).exists()
}

#[test]
fn same() {
    assert!(is_mended());
}

#[test]
fn passes() {}

#[test]
#[ignore]
fn is_ignored() {}
"#,
    ),
    ("a/tests/it.rs", "#[test]\nfn same() {}\n"),
    ("b/src/lib.rs", "#[test]\nfn same() {}\n"),
    (
        "b/tests/crash.rs",
        r#"#[test]
fn a_passes() {}

#[test]
fn b_aborts() {
    let mended = concat!(env!("CARGO_MANIFEST_DIR"), "/../mended");
    if !std::path::Path::new(mended).exists() {
        std::process::abort();
    }
}

#[test]
fn c_does_not_run() {}

#[test]
fn d_does_not_run() {}
"#,
    ),
    ("c/src/lib.rs", "#[test]\nfn passes() {}\n"),
    (
        "c/tests/own.rs",
        "fn main() {\n    assert!(std::path::Path::new(concat!(env!(\"CARGO_MANIFEST_DIR\"), \"/../mended\")).exists());\n}\n",
    ),
    ("c/tests/fine.rs", "fn main() {}\n"),
];

/// Writes the workspace.
fn write_workspace(folder: &Folder) {
    folder.write(&WORKSPACE);
    for name in ["a", "b", "c"] {
        let own = if name == "c" {
            "[[test]]\nname = \"own\"\nharness = false\n[[test]]\nname = \"fine\"\nharness = false\n"
        } else {
            ""
        };
        let manifest = MEMBER.replace("NAME", name) + own;
        folder.write(&[(format!("{name}/Cargo.toml").as_str(), manifest.as_str())]);
    }
}

/// Runs `test-report` in a folder with these options, for a `cargo test` with these arguments.
fn report(folder: &Folder, options: &[&str], arguments: &[&str]) -> Output {
    report_of(folder, options, &[&["test"], arguments].concat())
}

/// Runs `test-report` in a folder with these options, for a cargo with these arguments.
fn report_of(folder: &Folder, options: &[&str], arguments: &[&str]) -> Output {
    let words = [options, &["--", env!("CARGO")], arguments].concat();
    let mut command = command("test-report", &words);
    as_user(&mut command, &folder.0)
        .output()
        .expect("the program runs")
}

/// Returns what is below a folder's target folder, in the folder of `test-report`.
fn kept(folder: &Folder, name: &str) -> String {
    let path = folder.file(&format!("target/test-report/{name}"));
    fs::read_to_string(path).expect("it is there")
}

/// Returns the programs of the list of failed tests of which some are left.
fn list(folder: &Folder) -> Value {
    list_in(folder, "failed")
}

/// Returns the same of a list with a name.
fn list_in(folder: &Folder, name: &str) -> Value {
    let mut list: Value = serde_json::from_str(&kept(folder, name)).expect("it is JSON");
    let programs = list["programs"].as_object_mut().expect("it is an object");
    programs.retain(|_, program| program["only"] != json!([]));
    list["programs"].take()
}

/// Returns the programs that started in the last run, and its tests: `PROGRAM TEST`.
fn started(folder: &Folder) -> BTreeSet<String> {
    let (mut program, mut started) = (String::new(), BTreeSet::new());
    for line in kept(folder, "last.jsonl").lines() {
        let Ok(event) = serde_json::from_str::<Value>(line) else {
            continue;
        };
        let name = event["name"].as_str().unwrap_or_default();
        match (event["type"].as_str(), event["event"].as_str()) {
            (Some("program"), Some("started")) => {
                program = name.to_string();
                started.insert(program.clone());
            }
            (Some("test"), Some("started")) => {
                started.insert(format!("{program} {name}"));
            }
            _ => {}
        }
    }
    started
}

/// Returns the messages of `test-report` on standard error.
fn messages(output: &Output) -> Vec<String> {
    let text = String::from_utf8_lossy(&output.stderr);
    let own = text
        .lines()
        .filter_map(|line| line.strip_prefix("test-report: "));
    own.map(String::from).collect()
}

/// Returns names as a set.
fn set<const N: usize>(names: [&str; N]) -> BTreeSet<String> {
    names.map(String::from).into()
}

#[test]
fn only_what_failed_last_runs_until_it_is_mended() {
    let folder = Folder::new("failed");
    write_workspace(&folder);
    let one_at_a_time = ["--", "--test-threads=1"];
    let output = report(&folder, &[], &one_at_a_time);
    assert_eq!(output.status.code(), Some(1));
    assert_eq!(messages(&output), [""; 0]);
    let wanted = json!({
        "a": {"tests": 3, "only": ["same"]},
        "a (doc tests)": {"tests": 2, "only": ["a/src/lib.rs - adds (line 1)"]},
        "b::crash": {"tests": 4, "except": ["a_passes"], "failed": ["b_aborts"]},
        "c::own": {"tests": null, "except": []},
    });
    assert_eq!(list(&folder), wanted);
    let first = [
        "a",
        "a same",
        "a (doc tests)",
        "a (doc tests) a/src/lib.rs - adds (line 1)",
        "b::crash",
        "b::crash b_aborts",
        "c::own",
    ];
    let output = report(&folder, &["--failed"], &one_at_a_time);
    assert_eq!(output.status.code(), Some(1));
    assert_eq!(
        messages(&output),
        ["5 of 12 tests, and 1 program: those that failed last"]
    );
    assert_eq!(started(&folder), set(first));
    assert_eq!(list(&folder), wanted);
    // Of other programs all tests run.
    let output = report(&folder, &["--failed"], &["-p", "b", "--lib"]);
    let message = "nothing of these programs failed last, so all tests run";
    assert_eq!(messages(&output), [message]);
    assert_eq!(started(&folder), set(["b", "b same"]));
    assert_eq!(list(&folder), wanted);

    fs::write(folder.file("mended"), "").expect("the folder is there");
    let output = report(&folder, &["--failed"], &one_at_a_time);
    let text = String::from_utf8_lossy(&output.stdout);
    assert_eq!(output.status.code(), Some(0), "{text}");
    assert!(!text.contains("FAIL"), "{text}");
    let rest = ["b::crash c_does_not_run", "b::crash d_does_not_run"];
    assert_eq!(started(&folder), &set(first) | &set(rest));
    assert_eq!(list(&folder), json!({}));

    let output = report(&folder, &["--failed"], &one_at_a_time);
    assert_eq!(messages(&output), ["nothing failed last, so all tests run"]);
    assert_eq!(output.status.code(), Some(0));
    let all = started(&folder);
    for name in [
        "a passes",
        "a::it same",
        "b same",
        "b::crash a_passes",
        "c::fine",
        "c passes",
    ] {
        assert!(all.contains(name), "{name}: {all:?}");
    }
    // A report of the kept run is that of the run.
    let file = folder.file("target/test-report/last.jsonl");
    let again = run("test-report", &[file.as_str()], b"");
    let text = |output: &Output| String::from_utf8_lossy(&output.stdout).into_owned();
    assert_eq!(text(&again), text(&output));
}

/// A package whose tests change.
const CHANGING: [(&str, &str); 2] = [
    (
        "Cargo.toml",
        "[package]\nname = \"money\"\nversion = \"0.1.0\"\nedition = \"2024\"\n\n[workspace]\n\n[lib]\ndoctest = false\n",
    ),
    (
        "src/lib.rs",
        "#[test]\nfn old() {\n    panic!();\n}\n\n#[test]\nfn stays() {\n    panic!();\n}\n\n#[test]\n#[ignore]\nfn \
         rests() {\n    panic!();\n}\n\n#[test]\nfn passes() {}\n",
    ),
];

#[test]
fn a_test_that_is_gone_leaves_the_list_and_one_that_was_not_selected_stays() {
    let folder = Folder::new("changing");
    folder.write(&CHANGING);
    let output = report(&folder, &[], &["--", "--include-ignored"]);
    assert_eq!(output.status.code(), Some(1));
    let all = json!({"money": {"tests": 4, "only": ["old", "rests", "stays"]}});
    assert_eq!(list(&folder), all);
    // An ignored test that failed runs again.
    report(&folder, &["--failed"], &[]);
    assert_eq!(
        started(&folder),
        set(["money", "money old", "money rests", "money stays"])
    );
    // Others than these do not run.
    let output = report(&folder, &["--failed"], &["passes"]);
    assert_eq!(output.status.code(), Some(1));
    assert_eq!(started(&folder), set([]));
    let output = report(&folder, &["--failed"], &["--", "old", "--exact"]);
    let message = "3 of 4 tests failed last; those of them that your arguments select run";
    assert_eq!(messages(&output), [message]);
    assert_eq!(started(&folder), set(["money", "money old"]));
    assert_eq!(list(&folder), all);

    // A build that fails changes nothing.
    let source = CHANGING[1].1;
    folder.write(&[("src/lib.rs", "#[test]\nfn old() { 1 }\n")]);
    let output = report(&folder, &["--failed"], &[]);
    assert!(String::from_utf8_lossy(&output.stdout).contains("could not compile"));
    assert_eq!(list(&folder), all);

    let renamed = source.replace("old", "new").replace("#[ignore]\n", "");
    folder.write(&[("src/lib.rs", renamed.as_str())]);
    let output = report(&folder, &["--failed"], &[]);
    assert_eq!(
        messages(&output),
        [
            "3 of 4 tests: those that failed last",
            "old of money is no longer there"
        ]
    );
    assert_eq!(
        started(&folder),
        set(["money", "money rests", "money stays"])
    );
    assert_eq!(
        list(&folder),
        json!({"money": {"tests": 4, "only": ["rests", "stays"]}})
    );

    let mended = renamed.replace("panic!();", "").replace("stays", "other");
    folder.write(&[("src/lib.rs", mended.as_str())]);
    let output = report(&folder, &[], &[]);
    assert_eq!(messages(&output), ["stays of money is no longer there"]);
    assert_eq!(list(&folder), json!({}));
}

#[test]
fn a_program_with_nothing_left_is_not_started() {
    let folder = Folder::new("nothing-left");
    folder.write(&CHANGING);
    report(&folder, &[], &[]);
    folder.write(&[("src/lib.rs", "#[test]\nfn passes() {}\n")]);
    let output = report(&folder, &["--failed"], &[]);
    let gone = [
        "old of money is no longer there",
        "stays of money is no longer there",
    ];
    assert_eq!(messages(&output)[1..], gone);
    assert_eq!(started(&folder), set([]));
    assert_eq!(list(&folder), json!({}));
    // The line about these tests says nothing to a reader of the kept run.
    let file = folder.file("target/test-report/last.jsonl");
    let again = run("test-report", &[file.as_str()], b"");
    assert_eq!((again.stdout, again.status), (output.stdout, output.status));
    assert_eq!(again.stderr, b"");
}

#[test]
fn a_documentation_test_runs_again_after_its_line_has_moved() {
    let folder = Folder::new("moved");
    let source = "/// ```\n/// assert!(std::path::Path::new(\"../mended\").exists());\n/// ```\n///\n/// ```\n/// assert_eq!(1, \
                  1);\n/// ```\npub fn adds() {}\n\n/// ```\n/// assert_eq!(1, 1);\n/// ```\npub fn subtracts() {}\n";
    let manifest = MEMBER.replace("NAME", "docs") + "[lib]\ntest = false\n";
    folder.write(&[
        (
            "Cargo.toml",
            "[workspace]\nmembers = [\"docs\", \"other\"]\nresolver = \"3\"\n",
        ),
        ("docs/Cargo.toml", &manifest),
        ("docs/src/lib.rs", source),
        ("other/Cargo.toml", &MEMBER.replace("NAME", "other")),
        (
            "other/src/lib.rs",
            "#[test]\nfn fails() {\n    assert!(std::path::Path::new(\"../mended\").exists());\n}\n",
        ),
    ]);
    report(&folder, &[], &[]);
    let left = |line: usize| {
        json!({
            "docs (doc tests)": {"tests": 3, "only": [format!("docs/src/lib.rs - adds (line {line})")]},
            "other": {"tests": 1, "only": ["fails"]},
        })
    };
    assert_eq!(list(&folder), left(1));
    let wanted = set([
        "docs (doc tests)",
        "docs (doc tests) docs/src/lib.rs - adds (line 3)",
        "docs (doc tests) docs/src/lib.rs - adds (line 7)",
        "other",
        "other fails",
    ]);
    let moved = format!("//! Numbers.\n\n{source}");
    folder.write(&[("docs/src/lib.rs", moved.as_str())]);
    let output = report(&folder, &["--failed"], &[]);
    assert_eq!(output.status.code(), Some(1));
    assert_eq!(messages(&output).len(), 1, "{:?}", messages(&output));
    assert_eq!(started(&folder), wanted);
    assert_eq!(list(&folder), left(3));
    fs::write(folder.file("mended"), "").expect("the folder is there");
    let output = report(&folder, &["--failed"], &[]);
    assert_eq!(output.status.code(), Some(0));
    assert_eq!(list(&folder), json!({}));
}

#[test]
fn an_ignored_test_that_failed_stays_until_it_passes() {
    let folder = Folder::new("ignored");
    let source = r#"fn is_mended() -> bool {
    std::path::Path::new("mended").exists()
}

#[test]
#[ignore]
fn a_fails() {
    assert!(is_mended());
}

#[test]
#[ignore]
fn b_aborts() {
    if !is_mended() {
        std::process::abort();
    }
}

#[test]
#[ignore]
fn c_is_later() {}

#[test]
fn passes() {}
"#;
    folder.write(&[CHANGING[0], ("src/lib.rs", source)]);
    let alone = ["--", "--test-threads=1"];
    report(&folder, &[], &[&alone[..], &["--ignored"]].concat());
    let left = json!({"money": {"tests": 3, "except": [], "failed": ["a_fails", "b_aborts"]}});
    assert_eq!(list(&folder), left);
    let output = report(&folder, &["--failed"], &alone);
    assert_eq!(output.status.code(), Some(1));
    assert_eq!(
        started(&folder),
        set(["money", "money a_fails", "money b_aborts"])
    );
    fs::write(folder.file("mended"), "").expect("the folder is there");
    let output = report(&folder, &["--failed"], &alone);
    assert_eq!(output.status.code(), Some(0));
    assert!(started(&folder).contains("money c_is_later"));
    assert_eq!(list(&folder), json!({}));

    fs::remove_file(folder.file("mended")).expect("it is there");
    report(&folder, &[], &["--", "--ignored", "a_fails"]);
    let left = json!({"money": {"tests": 4, "only": ["a_fails"]}});
    assert_eq!(list(&folder), left);
    let output = report(&folder, &[], &[]);
    assert_eq!(output.status.code(), Some(0));
    assert_eq!(list(&folder), left);
    let output = report(&folder, &["--failed"], &[]);
    assert_eq!(output.status.code(), Some(1));
    assert_eq!(started(&folder), set(["money", "money a_fails"]));
}

#[test]
fn benchmarks_have_a_list_of_their_own() {
    let folder = Folder::new("benchmarks");
    let manifest = format!(
        "{}\n[[bench]]\nname = \"own\"\nharness = false\n",
        CHANGING[0].1
    );
    let own = "fn main() {\n    assert!(std::path::Path::new(\"mended\").exists());\n}\n";
    folder.write(&[
        ("Cargo.toml", manifest.as_str()),
        CHANGING[1],
        ("benches/own.rs", own),
    ]);
    report(&folder, &[], &["--lib"]);
    let tests = json!({"money": {"tests": 4, "only": ["old", "stays"]}});
    assert_eq!(list(&folder), tests);
    let output = report_of(&folder, &["--failed"], &["bench"]);
    assert_eq!(
        messages(&output)[0],
        "nothing failed last, so all tests run"
    );
    let all = set([
        "money",
        "money old",
        "money passes",
        "money rests",
        "money stays",
        "money::bench/own",
    ]);
    assert_eq!(started(&folder), all);
    let benchmarks = json!({"money::bench/own": {"tests": null, "except": []}});
    assert_eq!(list_in(&folder, "failed-benchmarks"), benchmarks);
    let output = report_of(&folder, &["--failed"], &["bench"]);
    assert_eq!(messages(&output)[0], "1 program: those that failed last");
    assert_eq!(started(&folder), set(["money::bench/own"]));
    assert_eq!(list(&folder), tests);
}

#[test]
fn a_list_that_cannot_be_read_is_replaced_with_a_message() {
    let folder = Folder::new("unreadable");
    folder.write(&[CHANGING[0], ("src/lib.rs", "#[test]\nfn passes() {}\n")]);
    let front = "the list of the failed tests cannot be read, so ";
    for (options, end) in [
        (&["--failed"][..], "all tests run, and a new one is written"),
        (&[], "a new one is written"),
    ] {
        folder.write(&[("target/test-report/failed", "{")]);
        let output = report(&folder, options, &[]);
        assert_eq!(messages(&output), [format!("{front}{end}")]);
        assert_eq!(output.status.code(), Some(0));
        assert_eq!(list(&folder), json!({}));
    }
}

#[test]
fn only_a_command_with_stand_ins_is_run_again() {
    let command = "single tests of this command cannot be run again. That needs a `cargo test` or `cargo bench`, no \
                   RUSTC_BOOTSTRAP, and no setting that names a runner or a rustdoc";
    let files = "there is no command whose tests can be run again";
    let format = "cargo does not say which programs it has built if it has a `--message-format`";
    let cases: [(&[&str], &str); 5] = [
        (&[], files),
        (&["Cargo.toml"], files),
        (&["--", "sh", "-c", "true"], command),
        (&["--", "cargo", "nextest", "run"], command),
        (
            &["--", "cargo", "test", "--message-format", "short"],
            format,
        ),
    ];
    for (words, why) in cases {
        for option in [&["--failed"][..], &["--retries", "2"]] {
            // Tests run again without the names of their programs.
            if why == format && option[0] == "--retries" {
                continue;
            }
            let output = run("test-report", &[option, words].concat(), b"");
            let message = format!("test-report: {}: {why}\n", option[0]);
            assert_eq!(String::from_utf8_lossy(&output.stderr), message);
            assert_eq!(output.status.code(), Some(2));
        }
    }
    let output = run("test-report", &["--retries", "0"], b"");
    assert_ne!(output.status.code(), Some(2));
}
