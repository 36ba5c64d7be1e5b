//! The program `test-report` on runs: it writes what the library does, wherever the pieces end that it reads, and its exit
//! status follows from the outcome.

use crate::common::{Folder, path_of, run};
use crate::properties::facts::{Facts, outcome};
use crate::properties::generated::run_of;
use crate::properties::written::Written;
use deodarsieve_cli::report::options::Options;
use std::fs;
use std::process::{Command, Output};

/// The most bytes that the program reads at once.
const PIECE: usize = 65_536;

/// A suite of two tests. One fails, and the other is not run.
const SMALL_RUN: &str = r#"{"type":"suite","event":"started","test_count":2}
{"type":"test","event":"started","name":"a"}
{"type":"test","event":"failed","name":"a","message":"why"}
{"type":"suite","event":"failed"}
bye"#;

/// Returns what is written to standard output, as text.
fn text_of(output: &Output) -> String {
    String::from_utf8(output.stdout.clone()).expect("the report is UTF-8")
}

/// Returns the exit status for an outcome.
fn status_of(outcome: &str) -> i32 {
    i32::from(outcome != "success")
}

#[test]
fn the_program_writes_what_the_library_does() {
    let mut outcomes = Vec::new();
    for seed in 1_000..1_060 {
        let files = run_of(seed);
        let [file] = files.as_slice() else {
            continue;
        };
        let facts = Facts::of(&files);
        let (written, _) = Written::of(&files, Options::DEFAULT);
        let outcome = outcome(&facts.end);
        for (form, wanted) in [
            ("text", &written.text),
            ("github", &written.github),
            ("names", &written.names),
            ("junit", &written.junit),
            ("html", &written.html),
            ("markdown", &written.markdown),
            ("json", &written.json),
        ] {
            let output = run("test-report", &["--format", form, "--color", "never"], file);
            assert_eq!(&text_of(&output), wanted, "{form} of the seed {seed}");
            assert_eq!(output.stderr, facts.others, "{form} of the seed {seed}");
            assert_eq!(output.status.code(), Some(status_of(outcome)), "{seed}");
        }
        outcomes.push(outcome);
    }
    for outcome in ["success", "failed"] {
        assert!(
            outcomes.contains(&outcome),
            "no run has the outcome {outcome}"
        );
    }
}

#[test]
fn a_piece_can_end_at_each_byte_of_a_run() {
    let folder = Folder::new("pieces");
    let path = folder.file("run.jsonl");
    let alone = run("test-report", &["--others", "never"], SMALL_RUN.as_bytes());
    for before in 0..=SMALL_RUN.len() {
        // The first piece ends with this number of bytes of the run.
        let print = "x".repeat(PIECE - before - 1);
        fs::write(&path, format!("{print}\n{SMALL_RUN}")).expect("the file is written");
        let output = run("test-report", &["--others", "always", &path], b"");
        assert_eq!(text_of(&output), text_of(&alone), "{before} bytes");
        let others = format!("{print}\nbye\n");
        assert!(output.stderr == others.as_bytes(), "{before} bytes");
    }
}

#[cfg(unix)]
#[test]
fn a_command_has_the_report_of_its_lines_and_of_its_end() {
    let folder = Folder::new("lines");
    let path = folder.file("run.jsonl");
    fs::write(&path, SMALL_RUN).expect("the file is written");
    let alone = text_of(&run("test-report", &[&path], b""));
    let command = |script: &str| {
        Command::new(path_of("test-report"))
            .env_remove("GITHUB_ACTIONS")
            .args(["--", "sh", "-c", script, &path])
            .output()
            .expect("the program runs")
    };
    let output = command("cat \"$0\"; exit 101");
    // Of a command the text has its time by the clock as well.
    let (before, timed) = text_of(&output).split_once(" in ").map_or_else(
        || panic!("there is no time"),
        |(before, timed)| (before.to_string(), timed.to_string()),
    );
    let (time, after) = timed.split_once(" s\n").expect("the time has a unit");
    assert!(time.parse::<f64>().is_ok_and(|time| time < 10.0), "{time}");
    assert_eq!(format!("{before}\n{after}"), alone);
    assert_eq!(output.stderr, b"bye\n");
    let ended = command("exit 4");
    let line = "the command ended with status 4, and no line says why\n";
    assert!(text_of(&ended).contains(line), "{}", text_of(&ended));
    assert_eq!(ended.status.code(), Some(1));
}
