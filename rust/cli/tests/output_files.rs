//! The files of `--junit`, `--html`, `--markdown`, `--json` and `--names`: how they are tried before anything runs, which permissions
//! they get, and that no temporary file stays.
#![cfg(unix)]

use crate::common::{self, Folder, Running, command, path_of, run, start, wait_for};
use std::fs::{self, Permissions};
use std::io::{self, Write};
use std::os::unix::fs::{PermissionsExt, symlink};
use std::path::Path;
use std::process::{Child, Command, Output, Stdio};
use std::thread;
use std::time::Duration;

/// A run in which a test passes.
const RUN: &str = r#"{ "type": "suite", "event": "started", "test_count": 1 }
{ "type": "test", "event": "started", "name": "adds" }
{ "type": "test", "name": "adds", "event": "ok" }
{ "type": "suite", "event": "ok", "passed": 1, "failed": 0 }
"#;

/// All options that name a file.
const OPTIONS: [&str; 5] = ["--junit", "--html", "--markdown", "--json", "--names"];

/// Those whose file is replaced.
const REPLACED: [&str; 4] = ["--junit", "--html", "--json", "--names"];

/// Returns the names of what is in a folder and below, in their order.
fn names_in(folder: &Path) -> Vec<String> {
    let mut names = Vec::new();
    for entry in fs::read_dir(folder).expect("it is a folder") {
        let entry = entry.expect("it can be read");
        names.push(entry.file_name().into_string().expect("it is UTF-8"));
        if entry.path().is_dir() {
            names.extend(names_in(&entry.path()));
        }
    }
    names.sort();
    names
}

/// Returns the permissions of a file.
fn mode_of(path: &str) -> u32 {
    let found = fs::metadata(path).expect("the file is there");
    found.permissions().mode() & 0o7777
}

/// Asserts that a run ended with status 0 and without a message.
fn assert_passed(output: &Output, what: &str) {
    assert_eq!(String::from_utf8_lossy(&output.stderr), "", "{what}");
    assert_eq!(output.status.code(), Some(0), "{what}");
}

/// Asserts that the program wrote no report, and says that it cannot write a file.
fn assert_unwritten(output: &Output, path: &str) {
    let message = String::from_utf8_lossy(&output.stderr);
    let start = format!("test-report: {path} cannot be written: ");
    assert!(message.starts_with(&start), "{message}");
    assert_eq!(String::from_utf8_lossy(&output.stdout), "", "{path}");
    assert_eq!(output.status.code(), Some(3), "{path}");
}

#[test]
fn a_folder_that_is_not_there_is_made() {
    for option in OPTIONS {
        let folder = Folder::new("made");
        let output = run(
            "test-report",
            &[option, &folder.file("a/b/c")],
            RUN.as_bytes(),
        );
        assert_passed(&output, option);
        assert_eq!(names_in(&folder.0), ["a", "b", "c"], "{option}");
    }
}

#[test]
fn a_folder_that_the_command_removes_is_made_again() {
    for option in OPTIONS {
        let folder = Folder::new("removed");
        let (target, saved) = (folder.file("target"), folder.file("run"));
        fs::write(&saved, RUN).expect("the folder is there");
        let script = format!("rm -r '{target}'; cat '{saved}'");
        let file = folder.file("target/report");
        let arguments = [option, &file, "--", "sh", "-c", &script];
        assert_passed(&run("test-report", &arguments, b""), option);
        let names = names_in(&folder.0);
        assert_eq!(names, ["report", "run", "target"], "{option}");
    }
}

#[test]
fn a_file_that_cannot_be_written_ends_the_program_while_its_input_is_open() {
    let folder = Folder::new("open");
    let path = folder.file("file/a");
    fs::write(folder.file("file"), "a file").expect("the folder is there");
    let mut child = command("test-report", &["--markdown", &path])
        .spawn()
        .expect("the program starts");
    let stdin = child.stdin.take();
    let output = common::soon("the end of the program", || child.wait_with_output());
    assert_unwritten(&output.expect("the program ends"), &path);
    drop(stdin);
}

#[test]
fn nothing_is_beside_a_file_while_the_tests_run() {
    let folder = Folder::new("beside");
    let listed = folder.file("listed");
    let files = OPTIONS.map(|option| (option, folder.file(&option[2..])));
    let mut command = command("test-report", &[] as &[&str]);
    for (option, file) in &files {
        command.args([option, file.as_str()]);
    }
    let script = r#"all=$(ls -A "$1") && printf %s "$all" >"$2""#;
    command
        .args(["--", "sh", "-c", script, "sh"])
        .args([&folder.file(""), &listed]);
    let output = command.output().expect("the program runs");
    assert_eq!(output.status.code(), Some(1));
    assert_eq!(fs::read_to_string(&listed).expect("it is there"), "");
    let expected = ["html", "json", "junit", "listed", "markdown", "names"];
    assert_eq!(names_in(&folder.0), expected);
}

#[test]
fn a_new_file_has_the_permissions_of_other_new_files() {
    for umask in ["022", "077", "002"] {
        let folder = Folder::new(&format!("new{umask}"));
        let script = r#"umask "$1"; : >"$2"; exec "$0" --junit "$3""#;
        let (other, file) = (folder.file("other"), folder.file("a"));
        let status = Command::new("sh")
            .args(["-c", script, path_of("test-report"), umask, &other, &file])
            .stdin(Stdio::null())
            .stdout(Stdio::null())
            .status();
        assert_eq!(status.expect("a shell runs").code(), Some(1));
        assert_eq!(mode_of(&file), mode_of(&other), "{umask}");
    }
}

#[test]
fn a_file_that_is_replaced_keeps_its_permissions() {
    let folder = Folder::new("mode");
    let file = folder.file("a");
    for (mode, kept) in [
        (0o600, 0o600),
        (0o640, 0o640),
        (0o444, 0o444),
        (0o4755, 0o755),
    ] {
        for option in REPLACED {
            // A file that nobody may write cannot be opened for writing, and can be replaced.
            let _ = fs::remove_file(&file);
            fs::write(&file, "old").expect("the folder is there");
            fs::set_permissions(&file, Permissions::from_mode(mode)).expect("it is a file");
            assert_passed(
                &run("test-report", &[option, &file], RUN.as_bytes()),
                option,
            );
            assert_eq!(mode_of(&file), kept, "{option} {mode:o}");
            let text = fs::read_to_string(&file).expect("the file is there");
            assert_ne!(text, "old");
        }
    }
}

#[test]
fn a_file_named_by_a_link_keeps_its_permissions() {
    let folder = Folder::new("linked");
    let (file, link) = (folder.file("a"), folder.file("link"));
    fs::write(&file, "old").expect("the folder is there");
    fs::set_permissions(&file, Permissions::from_mode(0o600)).expect("it is a file");
    symlink("a", &link).expect("the link is new");
    assert_passed(&run("test-report", &["--html", &link], RUN.as_bytes()), "");
    assert_eq!(mode_of(&file), 0o600);
    assert_eq!(names_in(&folder.0), ["a", "link"]);
}

#[test]
fn a_link_that_is_put_in_the_place_of_a_file_is_replaced_and_not_followed() {
    let folder = Folder::new("planted");
    let (other, file) = (folder.file("other"), folder.file("a"));
    fs::write(&other, "of somebody else").expect("the folder is there");
    for option in REPLACED {
        let _ = fs::remove_file(&file);
        let arguments = [option, &file, "--", "ln", "-s", "other", &file];
        let output = run("test-report", &arguments, b"");
        assert_eq!(output.status.code(), Some(1), "{option}");
        let text = fs::read_to_string(&other).expect("the file is there");
        assert_eq!(text, "of somebody else", "{option}");
        assert!(fs::symlink_metadata(&file).expect("it is there").is_file());
    }
}

/// Runs a script of the shell in which a folder follows no links. Returns `None` if this system cannot do that.
fn run_where_no_link_is_followed(script: &str, folder: &Folder) -> Option<Output> {
    let mount = r#"mount -t tmpfs -o nosymfollow none "$1" || exit 99"#;
    let script = format!("{mount}\n{script}");
    let output = Command::new("unshare")
        .args(["-rm", "sh", "-c", &script, path_of("test-report")])
        .args([&folder.file("mounted"), &folder.file("other")])
        .stdin(Stdio::null())
        .output()
        .ok()?;
    let is_mounted = output.status.code() != Some(99) && !output.stderr.starts_with(b"unshare");
    is_mounted.then_some(output)
}

#[test]
fn a_link_that_the_system_does_not_follow_is_refused() {
    let folder = Folder::new("refused");
    fs::create_dir(folder.file("mounted")).expect("it is new");
    for (option, is_there) in OPTIONS.iter().flat_map(|it| [(it, true), (it, false)]) {
        let other = folder.file("other");
        let _ = fs::remove_file(&other);
        if is_there {
            fs::write(&other, "of somebody else").expect("the folder is there");
        }
        let script = format!("ln -s \"$2\" \"$1/link\"\nexec \"$0\" {option} \"$1/link\"");
        let Some(output) = run_where_no_link_is_followed(&script, &folder) else {
            return;
        };
        assert_unwritten(&output, &folder.file("mounted/link"));
        let text = fs::read_to_string(&other).ok();
        let expected = is_there.then_some("of somebody else");
        assert_eq!(text.as_deref(), expected, "{option}");
    }
}

#[test]
fn a_write_that_fails_leaves_nothing_behind() {
    let folder = Folder::new("space");
    // No test failed, so the file of names needs no byte.
    for option in REPLACED.iter().filter(|it| **it != "--names") {
        // A file may have no byte, as on a full device.
        let script = "trap '' XFSZ; ulimit -f 0; exec \"$0\" \"$@\"";
        let path = folder.file("a");
        let output = Command::new("sh")
            .args(["-c", script, path_of("test-report"), option, &path])
            .stdin(Stdio::null())
            .output()
            .expect("a shell runs");
        let message = String::from_utf8_lossy(&output.stderr);
        let start = format!("test-report: {path} cannot be written: ");
        assert!(message.starts_with(&start), "{message}");
        assert_eq!(output.status.code(), Some(3), "{option}");
        assert!(names_in(&folder.0).is_empty(), "{option}");
    }
}

#[test]
fn a_second_signal_leaves_nothing_behind() {
    let folder = Folder::new("signals");
    let files = OPTIONS.map(|option| (option, folder.file(&option[2..])));
    let mut command = command("test-report", &[] as &[&str]);
    for (option, file) in &files {
        command.args([option, file.as_str()]);
    }
    // The command sends the signals, the second one when the first is over.
    let script = "kill -s INT $PPID; sleep 0.5; kill -s INT $PPID; sleep 1";
    let output = command.args(["--", "sh", "-c", script]).output();
    let output = output.expect("the program runs");
    assert_eq!(output.status.code(), None, "a signal ended it");
    assert!(names_in(&folder.0).is_empty());
}

/// Returns true if a temporary folder is in a folder. It may be removed at any time.
fn has_temporary(folder: &Path) -> bool {
    let entries = fs::read_dir(folder).expect("it is a folder");
    entries
        .flatten()
        .any(|entry| entry.path().extension().is_some_and(|end| end == "new"))
}

/// Sends Ctrl-C to a program.
fn interrupt(child: &Child) {
    let script = format!("kill -s INT {}", child.id());
    let status = Command::new("sh").args(["-c", &script]).status();
    assert!(status.expect("a shell runs").success());
}

#[test]
fn a_second_signal_while_a_file_is_written_leaves_nothing_behind() {
    // On a busy machine the file can be written before the signal is sent.
    assert!((0..10).any(|_| is_interrupted_while_it_writes()));
}

/// Returns true if a second signal came while a file was written. Asserts that nothing is left of the file.
fn is_interrupted_while_it_writes() -> bool {
    let folder = Folder::new("writing");
    let Running {
        mut child,
        mut stdin,
        stdout,
        stderr,
    } = start(&["--junit", &folder.file("a")]);
    // It takes a while to write the output of this test. A program that is not optimized takes as long for a tenth of it.
    let lines = if cfg!(debug_assertions) {
        400_000
    } else {
        4_000_000
    };
    let output = "line\\n".repeat(lines);
    let failed = format!(
        "{}{{ \"type\": \"test\", \"name\": \"adds\", \"event\": \"failed\", \"stdout\": \"{output}\" }}\n",
        RUN.lines().take(2).collect::<Vec<_>>().join("\n") + "\n"
    );
    stdin
        .write_all(failed.as_bytes())
        .expect("the program reads");
    let stdout = wait_for(stdout, "FAIL suite 1 adds\n");
    interrupt(&child);
    thread::sleep(Duration::from_millis(500));
    drop(stdin);
    let is_writing = loop {
        if has_temporary(&folder.0) {
            break true;
        }
        if child.try_wait().expect("it is a child").is_some() {
            break false;
        }
    };
    if is_writing {
        interrupt(&child);
    }
    let rest = thread::spawn(move || io::read_to_string(stdout));
    child.wait().expect("the program ends");
    assert!(rest.join().expect("the thread ends").is_ok());
    drop(stderr);
    assert!(!has_temporary(&folder.0));
    is_writing
}

#[test]
fn the_file_of_names_has_what_the_form_of_names_writes() {
    let folder = Folder::new("names");
    let file = folder.file("names");
    let lines = r#"{"type":"suite","event":"started","test_count":3}
{"type":"test","event":"started","name":"b::second"}
{"type":"test","event":"failed","name":"b::second"}
{"type":"test","event":"started","name":"passes"}
{"type":"test","event":"ok","name":"passes"}
{"type":"test","event":"started","name":"a\u001b[2J"}
{"type":"test","event":"failed","name":"a\u001b[2J"}
{"type":"suite","event":"failed","passed":1,"failed":2}
"#;
    for form in ["text", "names", "json"] {
        let arguments = ["--format", form, "--names", &file];
        let output = run("test-report", &arguments, lines.as_bytes());
        assert_eq!(output.status.code(), Some(1));
        let names = fs::read_to_string(&file).expect("it is written");
        assert_eq!(names, "b::second\na\\u{1b}[2J\n", "{form}");
    }
    let output = run("test-report", &["--names", &file], RUN.as_bytes());
    assert_passed(&output, "a run without a failure");
    assert_eq!(fs::read(&file).expect("it is written"), b"");
}
