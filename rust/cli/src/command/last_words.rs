//! Cargo's words about test programs that failed, which wait until it is known whether the report says why.
//!
//! Cargo writes a line about each program that failed, and a list of them at its end:
//!
//! ```text
//! error: test failed, to rerun pass `--lib`
//!
//! Caused by:
//!   process didn't exit successfully: `/target/debug/deps/money-0` (signal: 6, SIGABRT: process abort signal)
//! error: 1 target failed:
//!     `--lib`
//! ```

use super::cargo_messages::FAILED;
use crate::report::build::without_colors;
use bstr::ByteSlice;
use std::mem;

/// The beginnings of the line about a program that failed.
const PROGRAM_FAILED: [&str; 3] = [
    "error: test failed, to rerun pass ",
    "error: doctest failed, to rerun pass ",
    "error: bench failed, to rerun pass ",
];

/// The line before the reason of an error.
const CAUSED_BY: &str = "Caused by:";

/// What is before each target in cargo's list.
const LISTED: &str = "    `";

/// Cargo's words about test programs that failed.
#[derive(Debug, Default)]
pub struct LastWords {
    held: Vec<Held>,

    /// The lines that may belong to the last of them. A later line says whether they do.
    perhaps: Vec<Vec<u8>>,

    /// What follows if it belongs to the last of them.
    next: Next,
}

/// Lines of cargo that wait.
#[derive(Debug)]
struct Held {
    lines: Vec<Vec<u8>>,
    about: About,
}

/// What lines of cargo are about.
#[derive(Debug)]
enum About {
    /// A program failed, of the target that these arguments of cargo select.
    Program(String),

    /// The targets whose programs failed.
    List(Vec<String>),
}

/// A line that belongs to the one before it.
#[derive(Clone, Copy, Debug, Default, PartialEq, Eq)]
enum Next {
    #[default]
    Nothing,

    /// The empty line before the reason.
    Empty,

    /// The line before the reason.
    CausedBy,

    /// The reason.
    Reason,

    /// A target of the list.
    Target,
}

impl LastWords {
    /// Takes the next line of standard error, without its line feed. Passes it on, after those that it shows to be no words
    /// of cargo, unless it waits. If a program has another reason for its failure than how it ended, the report does not have
    /// it, so the line that begins it is passed on, too.
    pub fn take(&mut self, line: &[u8], mut pass_on: impl FnMut(&[u8])) {
        if self.continues(line) {
            return;
        }
        if mem::take(&mut self.next) == Next::Reason {
            let head = self.held.pop().into_iter().flat_map(|held| held.lines);
            head.for_each(|line| pass_on(&line));
        }
        for other in mem::take(&mut self.perhaps) {
            pass_on(&other);
        }
        match begun_by(line) {
            None => pass_on(line),
            Some(about) => {
                self.next = match about {
                    About::Program(_) => Next::Empty,
                    About::List(_) => Next::Target,
                };
                let lines = vec![line.to_vec()];
                self.held.push(Held { lines, about });
            }
        }
    }

    /// Returns the lines that wait, at the end of standard error. If the report says why tests failed, these are not what
    /// cargo says of the targets in its last list: a test that starts a cargo may have written the same words.
    pub fn finish(&mut self, is_reported: bool) -> Vec<Vec<u8>> {
        let held = mem::take(&mut self.held);
        let last_list = held
            .iter()
            .rposition(|it| matches!(it.about, About::List(_)));
        let mut listed = match last_list.map(|at| &held[at].about) {
            Some(About::List(targets)) => Some(targets.clone()),
            Some(About::Program(_)) | None => None,
        };
        let mut left = Vec::new();
        for (at, held) in held.into_iter().enumerate() {
            let is_cargo = match &held.about {
                About::List(_) => last_list == Some(at),
                About::Program(target) => takes(listed.as_mut(), target),
            };
            if !(is_reported && is_cargo) {
                left.extend(held.lines);
            }
        }
        left.extend(mem::take(&mut self.perhaps));
        left
    }

    /// Takes a line that belongs to the words before it. Returns false for another line.
    fn continues(&mut self, line: &[u8]) -> bool {
        let Some(last) = self.held.last_mut() else {
            return false;
        };
        let plain = plain(line);
        match self.next {
            Next::Empty if plain.is_empty() => self.next = Next::CausedBy,
            Next::CausedBy if plain == CAUSED_BY => self.next = Next::Reason,
            Next::Reason if line.starts_with(FAILED.as_bytes()) => {
                last.lines.append(&mut self.perhaps);
                last.lines.push(line.to_vec());
                self.next = Next::Nothing;
                return true;
            }
            Next::Target => {
                let target = plain
                    .strip_prefix(LISTED)
                    .and_then(|it| it.strip_suffix('`'));
                let (Some(target), About::List(targets)) = (target, &mut last.about) else {
                    return false;
                };
                targets.push(target.to_string());
                last.lines.push(line.to_vec());
                return true;
            }
            Next::Nothing | Next::Empty | Next::CausedBy | Next::Reason => return false,
        }
        self.perhaps.push(line.to_vec());
        true
    }
}

/// Returns what a line of cargo is about if it is the first one about programs that failed.
fn begun_by(line: &[u8]) -> Option<About> {
    let plain = plain(line);
    if let Some(target) = PROGRAM_FAILED
        .iter()
        .find_map(|front| plain.strip_prefix(front))
    {
        return Some(About::Program(target.trim_matches('`').to_string()));
    }
    let list = plain.strip_prefix("error: ")?;
    let list = list
        .strip_suffix(" targets failed:")
        .or_else(|| list.strip_suffix(" target failed:"))?;
    let is_number = list.bytes().all(|byte| byte.is_ascii_digit());
    is_number.then(|| About::List(Vec::new()))
}

/// Takes a target out of a list. Returns true if it was there, or if there is no list.
fn takes(list: Option<&mut Vec<String>>, target: &str) -> bool {
    let Some(list) = list else {
        return true;
    };
    match list.iter().position(|it| it == target) {
        Some(at) => {
            list.swap_remove(at);
            true
        }
        None => false,
    }
}

/// Returns a line without colours and without the white space at its end.
fn plain(line: &[u8]) -> String {
    let is_near = line.is_empty() || matches!(line[0], b'e' | b'\x1b' | b'C' | b' ' | b'\r');
    if is_near {
        without_colors(&line.to_str_lossy()).trim_end().to_string()
    } else {
        ".".to_string()
    }
}

#[cfg(test)]
mod tests {
    use super::*;

    /// What cargo writes after a failure, a crash and a failed documentation test.
    const CARGO: &str = "\
\u{1b}[1m\u{1b}[91merror\u{1b}[0m: test failed, to rerun pass `-p money --lib`
a test
error: test failed, to rerun pass `--test crash`

Caused by:
  process didn't exit successfully: `/t/crash-0 -q` (signal: 6, SIGABRT: process abort signal)
note: test exited abnormally

error: doctest failed, to rerun pass `--doc`
error: 3 targets failed:
    `-p money --lib`
    `--test crash`
    `--doc`
";

    /// Returns what of a text is passed on at once, and what at its end.
    fn passed_on(text: &str, is_reported: bool) -> (String, String) {
        let (mut words, mut at_once) = (LastWords::default(), Vec::new());
        for line in text.lines() {
            words.take(line.as_bytes(), |line| at_once.push(line.to_vec()));
        }
        let text = |lines: Vec<Vec<u8>>| -> String {
            let lines = lines.iter().map(|line| line.to_str_lossy() + "\n");
            lines.collect()
        };
        (text(at_once), text(words.finish(is_reported)))
    }

    #[test]
    fn what_the_report_says_is_not_said_again() {
        let others = "a test\nnote: test exited abnormally\n\n";
        assert_eq!(passed_on(CARGO, true), (others.into(), String::new()));
        let lines = CARGO.lines().filter(|line| !others.contains(line));
        let held: String = lines.map(|line| line.to_string() + "\n").collect();
        let (at_once, at_end) = passed_on(CARGO, false);
        assert_eq!(at_once, others);
        // The empty line is one of cargo.
        assert_eq!(at_end.replace("\n\n", "\n"), held);
        assert!(
            at_end.contains("crash`\n\nCaused by:\n  process"),
            "{at_end}"
        );
    }

    #[test]
    fn lines_of_tests_stay_whatever_they_look_like() {
        for other in [
            "error: no money\n",
            "\nCaused by:\n  process didn't exit successfully: `a`\n",
            "    `--lib`\n",
            "error: 2 targets failed: a\n",
            "error: some targets failed:\n",
            " error: test failed, to rerun pass `--lib`\n",
            "error[E0001]: test failed, to rerun pass `--lib`\n",
            "test failed, to rerun pass `--lib`\n",
        ] {
            assert_eq!(passed_on(other, true), (other.into(), String::new()));
        }
        for rest in [
            "\n",
            "\na\n",
            "\nCaused by:\n",
            "\n\nCaused by:\n",
            "Caused by:\n  process didn't exit successfully: `a`\n",
        ] {
            let text = format!("error: test failed, to rerun pass `--lib`\n{rest}");
            let (at_once, at_end) = passed_on(&text, true);
            assert_eq!(at_once + &at_end, rest);
        }
        let other = "error: test failed, to rerun pass `--lib`\n\nCaused by:\n  could not execute process `a`\n";
        assert_eq!(passed_on(other, true), (other.into(), String::new()));
        let list = "error: 1 target failed:\n    `--lib`\n    --lib\n    `--lib`\n";
        let (at_once, _) = passed_on(list, true);
        assert_eq!(at_once, "    --lib\n    `--lib`\n");
    }

    #[test]
    fn the_words_of_a_cargo_that_a_test_starts_stay() {
        let inner = "error: test failed, to rerun pass `--bin inner`\nerror: 1 target failed:\n    `--bin inner`\n";
        let (at_once, at_end) = passed_on(&(inner.to_string() + CARGO), true);
        assert_eq!(at_once, "a test\nnote: test exited abnormally\n\n");
        assert_eq!(at_end, inner);
        // Without a list nothing says which one of them is that of the command.
        let cut = "error: test failed, to rerun pass `--lib`\n";
        assert_eq!(passed_on(cut, true), (String::new(), String::new()));
    }
}
