//! What cargo writes to standard error, line by line: the words that the stand-in adds are left out, and the last error
//! is kept.

use super::last_words::LastWords;
use super::stand_in::AS_RUNNER;
use crate::report::build::without_colors;
use bstr::ByteSlice;
use std::borrow::Cow;
use std::mem;

/// What cargo writes at the front of a line before the command that failed.
pub const FAILED: &str = "  process didn't exit successfully: `";

/// The beginning of a line with which cargo reports an error.
const ERROR: &str = "error:";

/// The most bytes of an error that are kept.
const LIMIT: usize = 65_536;

/// The messages of a cargo.
#[derive(Debug)]
pub struct CargoMessages {
    /// The front of a line in which the stand-in is left out.
    front: Vec<u8>,

    /// The last error and the lines after it, or nothing if there was none.
    error: String,
    last_words: LastWords,
}

impl CargoMessages {
    /// Returns the messages of a cargo that starts the program at this path in place of test programs. There are none yet.
    pub fn new(stand_in: &str) -> CargoMessages {
        CargoMessages {
            front: format!("{FAILED}{stand_in} {AS_RUNNER} ").into_bytes(),
            error: String::new(),
            last_words: LastWords::default(),
        }
    }

    /// Takes the next line, which has no line feed. Passes on the lines that can be written now, as cargo would write them
    /// without the stand-in: if a test program fails, cargo writes the command that it started.
    pub fn take(&mut self, line: &[u8], pass_on: impl FnMut(&[u8])) {
        let line = match line.strip_prefix(self.front.as_slice()) {
            Some(rest) => Cow::from([FAILED.as_bytes(), rest].concat()),
            None => Cow::from(line),
        };
        self.note_error(&line);
        self.last_words.take(&line, pass_on);
    }

    /// Returns the lines that were not passed on, at the end. If the report says why tests failed, those in which cargo says
    /// that they did are left out.
    pub fn take_last_words(&mut self, is_reported: bool) -> Vec<Vec<u8>> {
        self.last_words.finish(is_reported)
    }

    /// Returns the last error and the lines after it, without colours, if there was an error.
    pub fn take_error(&mut self) -> Option<String> {
        let error = mem::take(&mut self.error);
        let error = error.trim_end();
        (!error.is_empty()).then(|| error.to_string())
    }

    /// Keeps a line if it is an error or follows one.
    fn note_error(&mut self, line: &[u8]) {
        let is_error = begins_error(line);
        if is_error {
            self.error.clear();
        }
        let follows = !self.error.is_empty() && self.error.len() < LIMIT;
        if is_error || follows {
            self.error
                .push_str(without_colors(&line.to_str_lossy()).trim_end());
            self.error.push('\n');
        }
    }
}

/// Returns true for a line with which cargo reports an error. Before the word there may be a colour.
fn begins_error(line: &[u8]) -> bool {
    let is_near = line.starts_with(b"e") || line.starts_with(b"\x1b");
    is_near && without_colors(&line.to_str_lossy()).starts_with(ERROR)
}

#[cfg(test)]
mod tests {
    use super::*;

    const PATH: &str = "/my bin/it's/test-report";

    /// Returns what is shown of a text, and the error in it.
    fn taken(text: &str) -> (String, Option<String>) {
        let mut messages = CargoMessages::new(PATH);
        let mut shown = Vec::new();
        for line in text.lines() {
            let keep = |line: &[u8]| shown.push(line.to_str_lossy().into_owned());
            messages.take(line.as_bytes(), keep);
        }
        (shown.join("\n"), messages.take_error())
    }

    #[test]
    fn the_stand_in_is_left_out_of_a_command_that_failed() {
        let line =
            |command: &str| format!("  process didn't exit successfully: `{command}` (signal: 6)");
        let (shown, error) = taken(&line(&format!("{PATH} --as-runner /t/a-1 -q")));
        assert_eq!((shown, error), (line("/t/a-1 -q"), None));
        for other in [
            format!("     Running `{PATH} --as-runner /t/a-1`"),
            format!(
                "a test prints {}",
                line(&format!("{PATH} --as-runner /t/a-1"))
            ),
            line("/other/test-report --as-runner /t/a-1"),
            line(&format!("{PATH} --as-rustdoc")),
        ] {
            assert_eq!(taken(&other).0, other);
        }
    }

    #[test]
    fn the_last_error_is_kept_with_what_follows_and_without_colours() {
        let text = "\
error: test failed, to rerun pass `--lib`
     Running a
\x1b[1m\x1b[91merror\x1b[0m: 1 target failed:  \r
    `--lib`

Caused by:
  \x1b[33mno money\x1b[0m

";
        let wanted = "error: 1 target failed:\n    `--lib`\n\nCaused by:\n  no money";
        assert_eq!(taken(text).1.as_deref(), Some(wanted));
        assert_eq!(taken("error: a").1.as_deref(), Some("error: a"));
    }

    #[test]
    fn other_lines_begin_no_error() {
        for text in [
            "",
            "warning: error: a",
            " error: a",
            "error a",
            "errors: a",
            "error[E0001]: a",
        ] {
            assert_eq!(taken(text).1, None, "{text}");
        }
    }

    #[test]
    fn an_error_that_goes_on_and_on_is_cut() {
        let text = "error: a\n".to_string() + &"b\n".repeat(LIMIT);
        let error = taken(&text).1.expect("there is an error");
        assert!(
            (LIMIT - 2..LIMIT + 2).contains(&error.len()),
            "{}",
            error.len()
        );
    }
}
