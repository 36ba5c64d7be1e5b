//! Which tests the levels show, when the tests end and in the list at the end.

use crate::reports::{OPTIONS, reported};
use deodarsieve::{CancelReason, FinalStatusLevel, StatusLevel, TestOutputDisplay};
use deodarsieve_cli::report::options::Options;
use deodarsieve_cli::report::{Files, Format};
use deodarsieve_run::{CommandEnd, SuiteNames};
use deodarsieve_tests::reports::{end_of_text, new_report};
use std::io;

/// A test that passed, a flaky one, a skipped one and a failed one, each later one slower.
const RUN: &str = r#"{"type":"suite","event":"started","test_count":4}
{"type":"test","event":"started","name":"failed"}
{"type":"test","event":"failed","name":"failed","message":"why","exec_time":0.004}
{"type":"test","event":"started","name":"skipped"}
{"type":"test","event":"ignored","name":"skipped"}
{"type":"test","event":"started","name":"passed"}
{"type":"test","event":"ok","name":"passed","exec_time":0.001}
{"type":"test","event":"started","name":"flaky"}
{"type":"test","event":"ok","name":"flaky#3","exec_time":0.002}
{"type":"suite","event":"failed"}
"#;

const FAILED: &str = "FAIL [   0.004s] suite 1 failed\n    why\n";
const SKIPPED: &str = "SKIP suite 1 skipped\n";
const PASSED: &str = "PASS [   0.001s] suite 1 passed\n";
const FLAKY: &str = "FLAKY 3/3 [   0.002s] suite 1 flaky\n";

const LISTED: &str = "        FAIL suite 1 failed: why\n";

/// Asserts the lines of the report of the run before its end, and the list.
fn assert_parts(options: Options, lines: &str, list: &str) {
    let end = end_of_text(
        list,
        "1 failed, 2 passed (1 flaky), 1 skipped",
        "[   0.007s] 3 tests run: 2 passed (1 flaky), 1 failed (0 timed out, 0 crashed), 1 skipped, 0 not run",
        "failed",
    );
    let wanted = ([lines, &end].concat(), false);
    assert_eq!(
        reported(options, Format::Text, &[RUN]),
        wanted,
        "{options:?}"
    );
}

#[test]
fn status_levels_choose_lines() {
    let passing = [FAILED, SKIPPED, PASSED, FLAKY].concat();
    for (status_level, wanted) in [
        (StatusLevel::None, FAILED.to_owned()),
        (StatusLevel::Fail, FAILED.to_owned()),
        (StatusLevel::Retry, [FAILED, FLAKY].concat()),
        (StatusLevel::Leak, [FAILED, FLAKY].concat()),
        (StatusLevel::Pass, [FAILED, PASSED, FLAKY].concat()),
        (StatusLevel::Skip, passing.clone()),
        (StatusLevel::All, passing),
    ] {
        let options = Options {
            status_level,
            ..OPTIONS
        };
        assert_parts(options, &wanted, &format!("   {FLAKY}{LISTED}"));
    }
}

#[test]
fn final_status_levels_choose_and_order_the_list() {
    let failed = LISTED;
    let flaky = &format!("   {FLAKY}");
    let skipped = &format!("        {SKIPPED}");
    let passed = &format!("        {PASSED}");
    let all = [passed, skipped, flaky, failed].concat();
    for (final_status_level, wanted) in [
        (FinalStatusLevel::None, String::new()),
        (FinalStatusLevel::Fail, failed.to_owned()),
        (FinalStatusLevel::Flaky, [flaky, failed].concat()),
        (FinalStatusLevel::Slow, [flaky, failed].concat()),
        (FinalStatusLevel::Skip, [skipped, flaky, failed].concat()),
        (FinalStatusLevel::Pass, all.clone()),
        (FinalStatusLevel::All, all),
    ] {
        let options = Options {
            final_status_level,
            ..OPTIONS
        };
        assert_parts(options, FAILED, &wanted);
    }
}

#[test]
fn slowest_tests_are_listed_first() {
    let slowest = ["failed", "flaky", "passed"].map(|name| {
        let time = match name {
            "failed" => 4,
            "flaky" => 2,
            _ => 1,
        };
        format!("     SLOWEST [   0.00{time}s] suite 1 {name}\n")
    });
    for count in 0..5 {
        let options = Options {
            final_status_level: FinalStatusLevel::Fail,
            slowest: count,
            ..OPTIONS
        };
        let listed = slowest[..count.min(3)].concat();
        assert_parts(options, FAILED, &[&listed, LISTED].concat());
    }
}

#[test]
fn reasons_are_shown_at_once_in_the_list_or_never() {
    let line = "FAIL [   0.004s] suite 1 failed\n";
    let why = "    why\n";
    let listed_why = "             why\n";
    for (failure_output, now, end) in [
        (TestOutputDisplay::Immediate, [line, why], [LISTED, ""]),
        (
            TestOutputDisplay::ImmediateFinal,
            [line, why],
            [LISTED, listed_why],
        ),
        (TestOutputDisplay::Final, [line, ""], [LISTED, listed_why]),
        (TestOutputDisplay::Never, [line, ""], [LISTED, ""]),
    ] {
        let options = Options {
            failure_output,
            final_status_level: FinalStatusLevel::Fail,
            ..OPTIONS
        };
        assert_parts(options, &now.concat(), &end.concat());
    }
}

#[test]
fn a_reason_in_the_list_lists_its_test() {
    let options = Options {
        status_level: StatusLevel::None,
        final_status_level: FinalStatusLevel::None,
        failure_output: TestOutputDisplay::Final,
        ..OPTIONS
    };
    assert_parts(options, "", &format!("{LISTED}             why\n"));
}

/// Tests that are slow by a line or by their time, one that is just not slow, and a slow line of no running test.
const SLOW_RUN: &str = r#"{"type":"suite","event":"started","test_count":6}
{"type":"test","event":"started","name":"told"}
{"type":"test","event":"timeout","name":"told"}
{"type":"test","event":"ok","name":"told","exec_time":1}
{"type":"test","event":"started","name":"long"}
{"type":"test","event":"ok","name":"long","exec_time":60}
{"type":"test","event":"started","name":"short"}
{"type":"test","event":"ok","name":"short","exec_time":59.999999}
{"type":"test","event":"started","name":"flaky"}
{"type":"test","event":"timeout","name":"flaky#2"}
{"type":"test","event":"ok","name":"flaky#2","exec_time":0.5}
{"type":"test","event":"started","name":"failed"}
{"type":"test","event":"timeout","name":"failed"}
{"type":"test","event":"failed","name":"failed","message":"why"}
{"type":"test","event":"timeout","name":"nobody"}
{"type":"test","event":"started","name":"skipped"}
{"type":"test","event":"ignored","name":"skipped","exec_time":70}
{"type":"suite","event":"failed"}
"#;

#[test]
fn slow_tests_have_a_level_and_a_number() {
    let options = Options {
        status_level: StatusLevel::Pass,
        ..OPTIONS
    };
    let lines = "PASS [   1.000s] suite 1 told\n\
        PASS [  60.000s] suite 1 long\n\
        PASS [  59.999s] suite 1 short\n\
        FLAKY 2/2 [   0.500s] suite 1 flaky\n\
        FAIL suite 1 failed\n    why\n";
    let end = end_of_text(
        "        SLOW [   1.000s] suite 1 told\n        \
        SLOW [  60.000s] suite 1 long\n   \
        FLAKY 2/2 [   0.500s] suite 1 flaky\n        \
        FAIL suite 1 failed: why\n",
        "1 failed, 4 passed (1 flaky, 3 slow), 1 skipped",
        "[ 121.499s] 5 tests run: 4 passed (1 flaky, 3 slow), 1 failed (0 timed out, 0 crashed), 1 skipped, 0 not run",
        "failed",
    );
    assert_eq!(
        reported(options, Format::Text, &[SLOW_RUN]).0,
        [lines, &end].concat()
    );
    let numbers = "4 passed (1 flaky, 3 slow), 1 failed";
    for text in [
        reported(OPTIONS, Format::Html, &[SLOW_RUN]).0,
        reported(OPTIONS, Format::Markdown, &[SLOW_RUN]).0,
    ] {
        assert!(text.contains(numbers), "{text}");
    }
    let json = reported(OPTIONS, Format::Json, &[SLOW_RUN]).0;
    assert!(json.contains("\"slow\":3"), "{json}");
}

/// Options that show all tests when they end and in the list, with what they wrote in both places.
const ALL_TWICE: Options = Options {
    status_level: StatusLevel::All,
    final_status_level: FinalStatusLevel::All,
    failure_output: TestOutputDisplay::ImmediateFinal,
    success_output: TestOutputDisplay::ImmediateFinal,
    slowest: 1,
    ..OPTIONS
};

/// Returns the report of a run of which this becomes known: a test fails, one passes, one is skipped, and one is flaky.
/// The run is cancelled after its second test started.
fn cancelled(reason: CancelReason) -> String {
    let lines = r#"{"type":"suite","event":"started","test_count":5}
{"type":"test","event":"started","name":"early"}
{"type":"test","event":"failed","name":"early","message":"why"}
{"type":"test","event":"started","name":"failed"}
{"type":"test","event":"failed","name":"failed","message":"why","exec_time":0.004}
{"type":"test","event":"started","name":"passed"}
{"type":"test","event":"ok","name":"passed","stdout":"said\n"}
{"type":"test","event":"ignored","name":"skipped"}
{"type":"test","event":"started","name":"flaky"}
{"type":"test","event":"ok","name":"flaky#2"}
{"type":"suite","event":"failed"}"#;
    let mut report = new_report(ALL_TWICE, Format::Text, Files::default());
    let mut written = Vec::new();
    for (number, line) in lines.lines().enumerate() {
        if number == 4 {
            report.cancel(reason);
        }
        report
            .on_line(line.as_bytes(), &mut written, &mut io::sink())
            .expect("the numbers fit");
    }
    report.finish(None, &mut written).expect("the report ends");
    String::from_utf8(written).expect("the report is UTF-8")
}

/// Asserts the lines of the cancelled run before its end, and the list.
fn assert_cancelled(reason: CancelReason, lines: &str, list: &str) {
    let end = end_of_text(
        list,
        "2 failed, 2 passed (1 flaky), 1 skipped",
        "[   0.004s] 4 tests run: 2 passed (1 flaky), 2 failed (0 timed out, 0 crashed), 1 skipped, 0 not run",
        "failed",
    );
    assert_eq!(cancelled(reason), [lines, &end].concat());
}

#[test]
fn after_an_interrupt_tests_have_only_their_lines() {
    assert_cancelled(
        CancelReason::Interrupt,
        "FAIL suite 1 early\n    why\n\
         FAIL [   0.004s] suite 1 failed\n\
         PASS suite 1 passed\n\
         SKIP suite 1 skipped\n\
         FLAKY 2/2 suite 1 flaky\n",
        "     SLOWEST [   0.004s] suite 1 failed\n        \
         FAIL suite 1 early: why\n             why\n",
    );
}

#[test]
fn after_a_signal_what_was_shown_is_not_shown_again() {
    assert_cancelled(
        CancelReason::Signal,
        "FAIL suite 1 early\n    why\n\
         FAIL [   0.004s] suite 1 failed\n    why\n\
         PASS suite 1 passed\n    said\n\
         SKIP suite 1 skipped\n\
         FLAKY 2/2 suite 1 flaky\n",
        "     SLOWEST [   0.004s] suite 1 failed\n        \
         PASS suite 1 passed\n        \
         SKIP suite 1 skipped\n   \
         FLAKY 2/2 suite 1 flaky\n        \
         FAIL suite 1 early: why\n             why\n        \
         FAIL suite 1 failed: why\n",
    );
}

#[test]
fn a_command_is_not_cancelled_when_it_starts() {
    let mut report = new_report(ALL_TWICE, Format::Text, Files::default());
    let mut written = Vec::new();
    report.start_command(SuiteNames::new());
    for line in RUN.lines() {
        report
            .on_line(line.as_bytes(), &mut written, &mut io::sink())
            .expect("the numbers fit");
    }
    let end = CommandEnd::Status { code: 101 };
    report
        .finish(Some(end), &mut written)
        .expect("the report ends");
    let text = String::from_utf8(written).expect("the report is UTF-8");
    assert_eq!(text, reported(ALL_TWICE, Format::Text, &[RUN]).0);
    assert_eq!(text.matches(" why\n").count(), 3, "{text}");
}
