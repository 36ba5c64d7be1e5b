//! Whole reports of small runs. The expected texts were written by hand from the definition of the report.

mod cargo;
mod counting;
mod damage;
mod documents;
mod failures;
mod forms;
mod hostile;
mod levels;
mod limits;
mod lists;
mod long_lines;
mod screens;
mod shown;
mod small_run;
mod why;

use deodarsieve::RunOutcome;
use deodarsieve_cli::report::options::Options;
use deodarsieve_cli::report::{Files, Format};
use deodarsieve_tests::reports::{OPTIONS, end_of_text, new_report, read_files};

/// Annotations of GitHub.
const GITHUB: Format = Format::Github {
    annotations: OPTIONS,
};

/// Returns the report of files in a form, and whether the run succeeded.
fn reported(options: Options, format: Format, files: &[&str]) -> (String, bool) {
    let mut report = new_report(options, format, Files::default());
    let mut written = Vec::new();
    read_files(&mut report, files, &mut written).expect("the numbers fit");
    let end = report.finish(None, &mut written).expect("the report ends");
    let text = String::from_utf8(written).expect("the report is UTF-8");
    (text, end.run.outcome == RunOutcome::Success)
}

/// A run, and the parts of its report.
struct Case {
    /// The name of the case.
    name: &'static str,

    /// The lines of the run.
    lines: &'static str,

    /// The text before the list and the numbers.
    notes: &'static str,

    /// The list.
    list: &'static str,

    /// The numbers that are not 0.
    numbers: &'static str,

    /// The text of the summary for scripts.
    summary: &'static str,

    /// The outcome.
    outcome: &'static str,
}

/// Asserts the report of each case.
fn assert_reports(cases: &[Case]) {
    assert_reports_with(OPTIONS, cases);
}

/// Asserts the report of each case with these options.
fn assert_reports_with(options: Options, cases: &[Case]) {
    for case in cases {
        let (text, success) = reported(options, Format::Text, &[case.lines]);
        let end = end_of_text(case.list, case.numbers, case.summary, case.outcome);
        assert_eq!(text, [case.notes, &end].concat(), "{}", case.name);
        assert_eq!(success, case.outcome == "success", "{}", case.name);
    }
}
