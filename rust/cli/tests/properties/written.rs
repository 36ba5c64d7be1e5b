//! What reports of a run write, in all forms.

use crate::properties::SLOW;
use crate::properties::facts::lines_of;
use deodarsieve::{FinalStatusLevel, StatusLevel, TestOutputDisplay};
use deodarsieve_cli::report::comparison::EarlierRun;
use deodarsieve_cli::report::options::{Options, OutputDisplay};
use deodarsieve_cli::report::{Document, Ended, FailedNames, Files, Format, Json, Report};
use std::collections::VecDeque;

/// Options that say how much is shown of why a test failed.
pub const AMOUNTS: [Options; 4] = [
    Options::DEFAULT,
    Options {
        limit: 50,
        ..Options::DEFAULT
    },
    Options {
        output: OutputDisplay::Short,
        ..Options::DEFAULT
    },
    Options {
        output: OutputDisplay::Whole,
        limit: usize::MAX,
        ..Options::DEFAULT
    },
];

/// The number of slowest tests in the list of the text that has all tests.
pub const SLOWEST: usize = 3;

/// Returns options with which the text has a line for each test, and colours.
fn with_all_tests(options: Options) -> Options {
    Options {
        color: true,
        status_level: StatusLevel::All,
        final_status_level: FinalStatusLevel::All,
        success_output: TestOutputDisplay::Immediate,
        slowest: SLOWEST,
        ..options
    }
}

/// A run in all forms.
pub struct Written {
    pub text: String,

    /// The text with a line for each test, and with colours.
    pub all: String,

    /// The text of `--raw`.
    pub raw: String,
    pub annotated: String,
    pub github: String,
    pub names: String,
    pub junit: String,
    pub html: String,
    pub markdown: String,
    pub json: String,

    /// The lines that are passed on.
    pub others: Vec<u8>,
}

/// Returns what a report of a run writes, and its end. The lines that are passed on are added to `others`.
fn reported(
    run: &[Vec<u8>],
    options: Options,
    format: Format,
    files: Files,
    others: &mut Vec<u8>,
) -> (String, Ended) {
    let report = Report::new(options, format, files, SLOW, VecDeque::new());
    finished(report, run, others)
}

/// Returns the end of a report of a run that is compared with an earlier one, with all documents except JUnit's.
pub fn compared(run: &[Vec<u8>], options: Options, earlier: EarlierRun) -> Ended {
    let files = Files {
        junit: false,
        html: true,
        markdown: true,
        json: true,
        names: false,
    };
    let mut report = Report::new(options, Format::Text, files, SLOW, VecDeque::new());
    report.compare_with(earlier);
    finished(report, run, &mut Vec::new()).1
}

/// Returns what a report writes of a run, and its end. The lines that are passed on are added to `others`.
fn finished(mut report: Report, run: &[Vec<u8>], others: &mut Vec<u8>) -> (String, Ended) {
    let mut output = Vec::new();
    for (place, file) in run.iter().enumerate() {
        if place > 0 {
            report.end_file(&mut output).expect("the numbers fit");
        }
        for line in lines_of(file) {
            report
                .on_line(line, &mut output, others)
                .expect("the numbers fit");
        }
    }
    let end = report.finish(None, &mut output).expect("the report ends");
    let text = String::from_utf8(output).expect("the report is UTF-8");
    (text, end)
}

impl Written {
    /// Returns the reports of a run, and the end of one of them.
    pub fn of(run: &[Vec<u8>], options: Options) -> (Written, Ended) {
        let files = Files {
            junit: true,
            html: true,
            markdown: true,
            json: true,
            names: true,
        };
        let annotations = options;
        let in_form = |options, format| {
            let (text, _) = reported(run, options, format, Files::default(), &mut Vec::new());
            text
        };
        let mut others = Vec::new();
        let (text, end) = reported(run, options, Format::Text, files, &mut others);
        let raw = Options {
            raw: true,
            ..options
        };
        let document = |document: &Option<Document>| {
            let document = document.as_ref().expect("the file is wanted");
            document.as_str().to_string()
        };
        let names = in_form(options, Format::Names);
        let names_file = end.files.names.as_ref().map(FailedNames::as_str);
        assert_eq!(names_file, Some(names.as_str()));
        let written = Written {
            text,
            all: in_form(with_all_tests(options), Format::Text),
            raw: in_form(raw, Format::Text),
            annotated: in_form(options, Format::Annotated { annotations }),
            github: in_form(options, Format::Github { annotations }),
            names,
            junit: document(&end.files.junit),
            html: document(&end.files.html),
            markdown: document(&end.files.markdown),
            others,
            json: end.files.json.as_ref().map_or("", Json::as_str).to_string(),
        };
        (written, end)
    }
}
