//! The options of a report.

use crate::report::screen::Screen;
use deodarsieve::{FinalStatusLevel, StatusLevel, TestOutputDisplay};

/// How much of a failed test's output is shown.
#[derive(Clone, Copy, Debug, PartialEq, Eq)]
pub enum OutputDisplay {
    /// All of the output if it has at most as many bytes as the limit, or else as `Short`, with as many of the lines
    /// before an explanation as the limit holds. Long values of a failed assertion are a diff, and backtraces are short.
    Auto,

    /// The explanation in the output or, if there is none and no message, ten lines of it. Values and backtraces are as
    /// with `Auto`.
    Short,

    /// All of the output as it was, with long lines whole.
    Whole,
}

/// The options of a report.
#[derive(Clone, Copy, Debug, PartialEq, Eq)]
pub struct Options {
    /// The greatest number of bytes that are shown of why a test failed, and of its short reason. They are counted
    /// in UTF-8, before escapes and without colours. A long reason has at least its first and its last line. With
    /// `usize::MAX` there is no limit.
    pub limit: usize,

    /// How much of a failed test's output is shown.
    pub output: OutputDisplay,

    /// True if the form for people keeps control characters, and what a CI system takes for a command, in why a test
    /// failed. Names are escaped all the same.
    pub raw: bool,

    /// True if the form for people has colours: of the words for results, and those of outputs.
    pub color: bool,

    /// What shows the form for people.
    pub screen: Screen,

    /// The form for people writes a line for each test of this level or a more important one when the test ends. It also
    /// writes the line of each test whose reason or output it shows then.
    pub status_level: StatusLevel,

    /// The list at the end of the form for people has the tests of this level and of each more important one, and each
    /// test whose reason or output it shows there.
    pub final_status_level: FinalStatusLevel,

    /// When the form for people shows why tests failed.
    pub failure_output: TestOutputDisplay,

    /// When the form for people shows the output of tests that passed. Few runs have it.
    pub success_output: TestOutputDisplay,

    /// The greatest number of bytes that are shown of the output of a test that passed. They are counted in UTF-8,
    /// before escapes. With `usize::MAX` all are shown.
    pub passed_limit: usize,

    /// The number of slowest tests in the list at the end of the form for people.
    pub slowest: usize,

    /// True if a run in which no test ran is to pass. JUnit's XML then has no error for it.
    pub no_tests_pass: bool,
}

/// The default of `limit`.
pub const LIMIT: usize = 4_096;

impl Options {
    /// The options of a report in a file, for which none are given.
    pub const DEFAULT: Options = Options {
        limit: LIMIT,
        output: OutputDisplay::Auto,
        raw: false,
        color: false,
        screen: Screen::LOG,
        status_level: StatusLevel::Fail,
        final_status_level: FinalStatusLevel::Slow,
        failure_output: TestOutputDisplay::Immediate,
        success_output: TestOutputDisplay::Never,
        passed_limit: usize::MAX,
        slowest: 0,
        no_tests_pass: false,
    };

    /// Returns these options for a text in a file.
    pub(crate) fn for_file(self) -> Options {
        Options {
            screen: Screen::LOG,
            ..self.without_raw()
        }
    }

    /// Returns these options for a text in which nothing of a test is as it was.
    pub(crate) fn without_raw(self) -> Options {
        Options { raw: false, ..self }
    }
}
