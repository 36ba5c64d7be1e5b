//! What is shown of a finished test, for every level of the reporter and every level of the test.
//!
//! A case is `DISPLAY REASON RESULT LINES OUTPUTS`. LINES has a letter for each status level of the
//! reporter and, within it, for each status level of the test: `y` if its line is written, `n` if
//! it is not. OUTPUTS has a letter for each final level of the reporter and, within it, for each
//! final level of the test: `a` to `c` if output is not displayed at once, `d` to `f` if it is. The
//! three letters are for a test that is not stored, is stored, and is stored with its output. All
//! levels are in order, the least first. Every pair of a letter in LINES and a letter in OUTPUTS is
//! compared.

use crate::common::{FINAL_LEVELS, STATUS_LEVELS};
use crate::upstream_replay::words::named_reason;
use deodarsieve::{
    AbortDescription, CancelReason, ExecutionResultDescription, FailureDescription,
    OutputOnTestFinished, OutputStoreFinal, StatusLevels, TestOutputDisplay,
};

/// Returns the display that a word names.
pub fn named_display(word: &str) -> Option<TestOutputDisplay> {
    match word {
        "Immediate" => Some(TestOutputDisplay::Immediate),
        "ImmediateFinal" => Some(TestOutputDisplay::ImmediateFinal),
        "Final" => Some(TestOutputDisplay::Final),
        "Never" => Some(TestOutputDisplay::Never),
        _ => None,
    }
}

/// Returns the result that a word names.
fn named_result(word: &str) -> Option<ExecutionResultDescription> {
    let failure = match word {
        "pass" => return Some(ExecutionResultDescription::Pass),
        "exit-1" => FailureDescription::ExitCode { code: 1 },
        "signal-15" => FailureDescription::Abort {
            abort: AbortDescription::UnixSignal {
                signal: 15,
                name: None,
            },
        },
        _ => return None,
    };
    Some(ExecutionResultDescription::Fail {
        failure,
        leaked: false,
    })
}

/// Returns whether a line is written, by its letter.
fn line_of(letter: u8) -> Option<bool> {
    match letter {
        b'y' => Some(true),
        b'n' => Some(false),
        _ => None,
    }
}

/// Returns whether output is displayed at once, and what is stored, by their letter.
fn output_of(letter: u8) -> Option<(bool, OutputStoreFinal)> {
    let store_final = match letter {
        b'a' | b'd' => OutputStoreFinal::No,
        b'b' | b'e' => OutputStoreFinal::Yes {
            display_output: false,
        },
        b'c' | b'f' => OutputStoreFinal::Yes {
            display_output: true,
        },
        _ => return None,
    };
    Some((letter >= b'd', store_final))
}

/// Returns what upstream shows, by both letters.
fn wanted(line: u8, output: u8) -> Option<OutputOnTestFinished> {
    let (show_immediate, store_final) = output_of(output)?;
    Some(OutputOnTestFinished {
        write_status_line: line_of(line)?,
        show_immediate,
        store_final,
    })
}

/// The parts of a case except the levels.
struct Question {
    display: TestOutputDisplay,
    reason: Option<CancelReason>,
    result: ExecutionResultDescription,
}

impl Question {
    /// Returns what the crates show at a place of LINES and a place of OUTPUTS.
    fn shown_at(&self, line: usize, output: usize) -> OutputOnTestFinished {
        let levels = StatusLevels {
            status_level: STATUS_LEVELS[line / 8],
            final_status_level: FINAL_LEVELS[output / 8],
        };
        levels.compute_output_on_test_finished(
            self.display,
            self.reason,
            STATUS_LEVELS[line % 8],
            FINAL_LEVELS[output % 8],
            &self.result,
        )
    }

    /// Returns true if the crates agree at a place of LINES, with this letter, and each of OUTPUTS.
    fn agrees_at(&self, line: usize, letter: u8, outputs: &[u8]) -> bool {
        outputs.iter().enumerate().all(|(output, output_letter)| {
            wanted(letter, *output_letter) == Some(self.shown_at(line, output))
        })
    }
}

/// Returns true if the crates have the result of a case, or `None` if the text is not a case.
pub fn agrees(case: &str) -> Option<bool> {
    let words: Vec<&str> = case.split(' ').collect();
    let [display, reason, result, lines, outputs] = words.as_slice() else {
        return None;
    };
    if lines.len() != 64 || outputs.len() != 64 {
        return None;
    }
    let question = Question {
        display: named_display(display)?,
        reason: named_reason(reason)?,
        result: named_result(result)?,
    };
    let mut lines = lines.bytes().enumerate();
    Some(lines.all(|(line, letter)| question.agrees_at(line, letter, outputs.as_bytes())))
}
