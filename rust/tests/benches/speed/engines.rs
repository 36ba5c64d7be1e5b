//! The engines of the programs: of `run-digest`, which extracts and counts, and of `test-report`.

use crate::Row;
use crate::inputs::{self, LOG, Output, pass_over, share};
use crate::timing::Work;
use bstr::ByteSlice;
use deodarsieve_cli::program_io::std_device::{StdSink, StdSource};
use deodarsieve_cli::report::{Files, Format};
use deodarsieve_cli::run_digest_engine::count::count;
use deodarsieve_cli::run_digest_engine::extract::extract;
use deodarsieve_tests::reports::{OPTIONS, end_of_text, group_text, new_report, write_report};
use serde_json::Value;
use std::hint::black_box;
use std::rc::Rc;

/// The number of blocks of a log that a failed test writes.
const BLOCKS: usize = 80;

/// Returns the extraction from an output.
fn extracted(output: &Output, size: usize) -> Work {
    let bytes: Rc<[u8]> = output.bytes(size).into();
    let read = Rc::clone(&bytes);
    let panic = output.part_in(&bytes);
    let expected = panic.map_or(b"none\n".to_vec(), |(start, end)| {
        let heading = format!("panic-message {start} {}\n", end - start);
        [heading.as_bytes(), &bytes[start..end], b"\n"].concat()
    });
    Work {
        call: Box::new(move || {
            let mut written = Vec::new();
            let mut source = StdSource::new(black_box(&bytes[..]));
            let found = extract(&mut source, &mut StdSink::new(&mut written));
            assert_eq!(found, Ok(panic.is_some()));
            assert!(written == expected);
        }),
        archived: None,
        pass: Box::new(move || pass_over(&read)),
    }
}

/// Returns the count of a run with at most the number of lines that is allowed.
fn counted(size: usize) -> Work {
    let pairs = share(size, 4_999).min(4_999);
    let lines = format!(
        "run 0 0 -\n{}",
        "test pass\ntest fail,fail slow\n".repeat(pairs)
    );
    let tests = pairs * 2;
    let expected = format!(
        "tests {tests} passed {pairs} failed {pairs} flaky 0\nscripts 0 failed 0\n\
         summary failed test 0 0\n"
    );
    let read = lines.clone();
    Work {
        call: Box::new(move || {
            let mut written = Vec::new();
            let mut source = StdSource::new(black_box(lines.as_bytes()));
            let is_success = count(&mut source, &mut StdSink::new(&mut written));
            assert_eq!(is_success, Ok(false));
            assert!(written == expected.as_bytes());
        }),
        archived: None,
        pass: Box::new(move || pass_over(read.as_bytes())),
    }
}

/// Returns the name of a test.
fn name(number: usize) -> String {
    format!("module::tests::case_{number}")
}

/// Returns the two lines of a test that ends with `event` and has the members `more`.
fn test_lines(name: &str, event: &str, more: &str) -> String {
    format!(
        "{{ \"type\": \"test\", \"event\": \"started\", \"name\": \"{name}\" }}\n\
         {{ \"type\": \"test\", \"name\": \"{name}\", \"event\": \"{event}\"{more} }}\n"
    )
}

/// Returns the lines of a suite of `count` tests, with the lines of each test.
fn suite_lines(event: &str, count: usize, test: impl Fn(usize) -> String) -> String {
    format!(
        "{{ \"type\": \"suite\", \"event\": \"started\", \"test_count\": {count} }}\n{}\
         {{ \"type\": \"suite\", \"event\": \"{event}\" }}\n",
        (0..count).map(test).collect::<String>()
    )
}

/// Returns the lines of a run of `count` tests, all of which end with `event` and have the members
/// `more`.
fn lines(event: &str, count: usize, more: impl Fn(usize) -> String) -> String {
    suite_lines(event, count, |number| {
        test_lines(&name(number), event, &more(number))
    })
}

/// Returns the report of a run with these lines.
fn reported(lines: String, expected: String) -> Work {
    reported_with(Files::default(), lines, expected)
}

/// Returns the report of a run with these lines, with the texts of files.
fn reported_with(files: Files, lines: String, expected: String) -> Work {
    let lines: Rc<str> = lines.into();
    let read = Rc::clone(&lines);
    Work {
        call: Box::new(move || {
            let mut written = Vec::with_capacity(expected.len());
            let report = new_report(OPTIONS, Format::Text, files);
            let end = write_report(report, black_box(lines.as_bytes()), &mut written);
            black_box(end.expect("the report ends").files);
            assert!(written == expected.as_bytes());
        }),
        archived: None,
        pass: Box::new(move || {
            let is_value = |line| serde_json::from_slice::<Value>(line).is_ok();
            assert!(read.as_bytes().lines().all(is_value));
        }),
    }
}

/// Returns the report of a run whose tests pass.
fn reported_passed(size: usize) -> Work {
    let count = share(size, 1_000_000);
    let summary = format!(
        "{count} tests run: {count} passed (0 flaky), 0 failed (0 timed out, 0 crashed), 0 skipped, 0 not run"
    );
    let expected = end_of_text("", &format!("{count} passed"), &summary, "success");
    reported(lines("ok", count, |_| String::new()), expected)
}

/// Returns the lines under a failed test whose output has a log before this explanation: what is left of the limit has the
/// last lines of the log.
fn lines_below(log: &str, explanation: &str) -> String {
    let lines: Vec<&str> = log.lines().collect();
    let mut room = OPTIONS.limit - explanation.len();
    let fits = |line: &&&str| {
        let left = room.checked_sub(line.len() + 1);
        room = left.unwrap_or(0);
        left.is_some()
    };
    let hidden = lines.len() - lines.iter().rev().take_while(fits).count();
    let shown = lines[hidden..].iter().copied().chain(explanation.lines());
    let shown: String = shown.map(|line| format!("    {line}\n")).collect();
    format!("{shown}    ({hidden} more lines of output)\n")
}

/// What the failed tests of a run have in common.
const CAUSE: &str = "src/pool.rs:41:9: no room left";

/// Returns the name of a test and that of its suite.
fn title(number: usize) -> String {
    format!("suite 1 {}", name(number))
}

/// Returns the report of a run whose tests write a log and panic.
fn reported_failed(size: usize) -> Work {
    let count = share(size, 2_000);
    let log = String::from_utf8_lossy(LOG).repeat(BLOCKS);
    let in_json = log.replace('\n', "\\n");
    let head = |number| format!("thread '{}' panicked at src/pool.rs:41:9:", name(number));
    let more = |number| {
        format!(
            ", \"stdout\": \"{in_json}{}\\nno room left\\n\"",
            head(number)
        )
    };
    let failure = |number| {
        let explanation = format!("{}\nno room left", head(number));
        let below = lines_below(&log, &explanation);
        format!("FAIL suite 1 {}\n{below}", name(number))
    };
    let summary = format!(
        "{count} tests run: 0 passed (0 flaky), {count} failed (0 timed out, 0 crashed), 0 skipped, 0 not run"
    );
    let list = group_text(CAUSE, (0..count).map(title).collect());
    let end = end_of_text(&list, &format!("{count} failed"), &summary, "failed");
    let expected = (0..count).map(failure).collect::<String>() + &end;
    reported(lines("failed", count, more), expected)
}

/// The files that a run in CI writes.
const JUNIT_AND_HTML: Files = Files {
    junit: true,
    html: true,
    markdown: false,
    json: false,
    names: false,
};

/// Returns the report of a run of which every hundredth test panics, with the texts of files.
fn reported_mixed(size: usize, files: Files) -> Work {
    const HEAD: &str = "panicked at src/pool.rs:41:9:";
    let count = share(size, 300_000);
    let failed: Vec<usize> = (0..count).step_by(100).collect();
    let test = |number| {
        let name = name(number);
        let stdout = format!(", \"stdout\": \"thread 'main' {HEAD}\\nno room left\\n\"");
        match number % 100 {
            0 => test_lines(&name, "failed", &stdout),
            _ => test_lines(&name, "ok", ", \"exec_time\": 0.25"),
        }
    };
    let failure = |number: &usize| {
        let name = name(*number);
        format!("FAIL suite 1 {name}\n    thread 'main' {HEAD}\n    no room left\n")
    };
    let (lost, passed) = (failed.len(), count - failed.len());
    let summary = format!(
        "[{:>4}.{:03}s] {count} tests run: {passed} passed (0 flaky), \
         {lost} failed (0 timed out, 0 crashed), 0 skipped, 0 not run",
        passed / 4,
        passed % 4 * 250,
    );
    let list = group_text(CAUSE, failed.iter().copied().map(title).collect());
    let numbers = format!("{lost} failed, {passed} passed");
    let end = end_of_text(&list, &numbers, &summary, "failed");
    let expected = failed.iter().map(failure).collect::<String>() + &end;
    reported_with(files, suite_lines("failed", count, test), expected)
}

/// Returns the rows of the engines.
pub fn rows() -> Vec<Row> {
    vec![
        Row::new("engine-panic", |size| {
            extracted(&inputs::PANIC_NEAR_END, size)
        }),
        Row::new("engine-nothing", |size| {
            extracted(&inputs::NOTHING_FOUND, size)
        }),
        Row::new("engine-count", counted),
        Row::new("report-passed", reported_passed),
        Row::new("report-failed", reported_failed),
        Row::new("report-mixed", |size| {
            reported_mixed(size, Files::default())
        })
        .with_most_passes(1.3),
        Row::new("report-files", |size| reported_mixed(size, JUNIT_AND_HTML)).with_most_passes(2.0),
    ]
}
