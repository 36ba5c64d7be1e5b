//! A build of the tests that failed: what the compiler said in it, and what cargo did.

use crate::cargo_message::{Artifact, CargoMessage, CompilerMessage, Diagnostic, TargetId};
use crate::report::escape::{line, name};
use crate::report::words::counted;
use deodarsieve_run::CommandEnd;
use std::collections::hash_map::Entry;
use std::collections::{HashMap, HashSet};

/// What the compiler says in a build, in the order in which it does.
#[derive(Debug, Default)]
pub struct CompilerMessages {
    lines: Vec<KeptLine>,
    errors: Vec<CompilerError>,

    /// Where in `errors` each one is.
    places: HashMap<(TargetId, Diagnostic), usize>,

    /// The targets that are built: as they are, and as test programs.
    built: HashSet<(TargetId, bool)>,

    /// The texts for a terminal that were returned.
    written: HashSet<String>,
}

/// A line of cargo about a target.
#[derive(Debug)]
struct KeptLine {
    line: String,

    /// The target that is built, or `None` for a message of the compiler.
    built: Option<TargetId>,
}

/// An error of the compiler. If it comes twice for one target, it is one.
#[derive(Debug)]
pub(crate) struct CompilerError {
    target: TargetId,
    diagnostic: Diagnostic,

    /// How often it came.
    times: usize,
}

/// A target with errors.
pub(crate) struct FailedTarget<'a> {
    /// Its name, such as `tracker (lib test)`. It is escaped.
    pub(crate) name: String,

    /// Its errors, in the order in which they came.
    pub(crate) errors: Vec<&'a CompilerError>,
}

/// A build of the tests that failed.
#[derive(Debug)]
pub struct FailedBuild {
    /// What the compiler said.
    pub messages: CompilerMessages,

    /// How cargo ended, if that is not known by what the compiler said.
    pub end: Option<CommandEnd>,
}

impl CompilerMessages {
    /// Takes a line that cargo wrote while it built, from a run that was saved. Returns true if it is one. Other lines change
    /// nothing.
    pub fn on_line(&mut self, line: &[u8]) -> bool {
        match CargoMessage::read(line) {
            Some(CargoMessage::CompilerMessage(message)) => {
                self.on_message(line, message);
            }
            Some(CargoMessage::CompilerArtifact(artifact)) => self.on_artifact(line, &artifact),
            Some(CargoMessage::BuildScriptExecuted | CargoMessage::BuildFinished) => {}
            None => return false,
        }
        true
    }

    /// Takes a message of the compiler and its line. Returns its text for a terminal, or an empty text if this was
    /// returned before: cargo writes each text once.
    pub fn on_message(&mut self, line: &[u8], message: CompilerMessage) -> String {
        self.keep(line, None);
        let target = message.target();
        let diagnostic = message.message;
        let text = diagnostic.rendered().to_string();
        if diagnostic.is_error() {
            self.add(target, diagnostic);
        }
        if self.written.insert(text.clone()) {
            text
        } else {
            String::new()
        }
    }

    /// Takes the line about a target that is built.
    pub fn on_artifact(&mut self, line: &[u8], artifact: &Artifact) {
        let target = artifact.target();
        self.built.insert((target.clone(), artifact.is_test()));
        self.keep(line, Some(target));
    }

    /// Returns the lines from which [`CompilerMessages::on_line`] learns the same, as cargo wrote them and in their order:
    /// the messages of the compiler, and what cargo said about the targets that have errors.
    pub fn lines(&self) -> impl Iterator<Item = &str> {
        let failed: HashSet<_> = self.errors.iter().map(|error| &error.target).collect();
        let has_errors = move |kept: &&KeptLine| {
            let target = kept.built.as_ref();
            target.is_none_or(|target| failed.contains(target))
        };
        let kept = self.lines.iter().filter(has_errors);
        kept.map(|kept| kept.line.as_str())
    }

    /// Returns true if there are errors.
    pub fn have_errors(&self) -> bool {
        !self.errors.is_empty()
    }

    /// Keeps a line. It is JSON, so it is UTF-8.
    fn keep(&mut self, line: &[u8], built: Option<TargetId>) {
        let line = String::from_utf8_lossy(line).into_owned();
        self.lines.push(KeptLine { line, built });
    }

    /// Adds an error, or counts it if it is there.
    fn add(&mut self, target: TargetId, diagnostic: Diagnostic) {
        match self.places.entry((target.clone(), diagnostic.clone())) {
            Entry::Occupied(place) => self.errors[*place.get()].times += 1,
            Entry::Vacant(place) => {
                place.insert(self.errors.len());
                self.errors.push(CompilerError {
                    target,
                    diagnostic,
                    times: 1,
                });
            }
        }
    }

    /// Returns the targets with errors, in the order of their first ones.
    pub(crate) fn failed_targets(&self) -> Vec<FailedTarget<'_>> {
        let mut targets: Vec<(&TargetId, Vec<&CompilerError>)> = Vec::new();
        let mut places = HashMap::new();
        for error in &self.errors {
            let place = *places.entry(&error.target).or_insert(targets.len());
            if place == targets.len() {
                targets.push((&error.target, Vec::new()));
            }
            targets[place].1.push(error);
        }
        targets
            .into_iter()
            .map(|(target, errors)| self.failed(target, errors))
            .collect()
    }

    /// Returns a target with its errors.
    fn failed<'a>(&self, target: &TargetId, errors: Vec<&'a CompilerError>) -> FailedTarget<'a> {
        let test = if self.is_test(target, &errors) {
            " test"
        } else {
            ""
        };
        FailedTarget {
            name: name(&format!(
                "{} ({}{test})",
                target.package(),
                target.description()
            )),
            errors,
        }
    }

    /// Returns true if a target has its errors as a test program, as far as the messages say: they do not name the
    /// profile. An error that came twice came for both. A program is compiled for itself only if a test of the package
    /// needs it.
    fn is_test(&self, target: &TargetId, errors: &[&CompilerError]) -> bool {
        let is_built = |is_test| self.built.contains(&(target.clone(), is_test));
        match target.kind.as_str() {
            "test" | "bench" | "custom-build" => false,
            _ if errors.iter().any(|error| error.times > 1) || is_built(false) => true,
            kind => kind == "bin" && !is_built(true),
        }
    }
}

impl CompilerError {
    /// Returns what the compiler says.
    pub(crate) fn diagnostic(&self) -> &Diagnostic {
        &self.diagnostic
    }

    /// Returns the error as one line: its place, its code and its message. Without a place it begins with the name of
    /// the target `target`.
    pub(crate) fn line(&self, target: &str) -> String {
        let code = self.diagnostic.code().map(|code| format!("[{code}]"));
        let front = match self.diagnostic.place() {
            Some(place) => line(&format!("{}:{}:{}", place.file, place.line, place.column)),
            None => target.to_string(),
        };
        let message = line(&self.diagnostic.message);
        format!(
            "{front}: error{}: {message}",
            line(&code.unwrap_or_default())
        )
    }

    /// Returns the whole text without colours and without the white space at its end, unless it is empty. It is not
    /// escaped.
    pub(crate) fn text(&self) -> Option<String> {
        let plain = without_colors(self.diagnostic.rendered());
        let text = plain.trim_end();
        (!text.is_empty()).then(|| text.to_string())
    }
}

impl FailedTarget<'_> {
    /// Returns the line of the target in the text.
    pub(crate) fn line(&self) -> String {
        let errors = counted(self.errors.len(), "error");
        format!("could not compile {}: {errors}", self.name)
    }
}

/// Returns the last error in what cargo wrote to standard error: its line, and the lines up to the next warning. It has
/// no colours. Returns `None` if there is none.
pub fn last_error(words: &[u8]) -> Option<String> {
    let words = without_colors(&String::from_utf8_lossy(words));
    let lines: Vec<&str> = words.lines().collect();
    let at = lines.iter().rposition(|line| line.starts_with("error:"))?;
    let error = lines[at..]
        .iter()
        .take_while(|line| !line.starts_with("warning:"));
    let error: Vec<&str> = error.copied().collect();
    Some(error.join("\n").trim_end().to_string())
}

/// Returns a text without the escapes of a terminal: `ESC [`, parameters and a letter.
pub fn without_colors(text: &str) -> String {
    let mut parts = text.split("\u{1b}[");
    let mut plain = parts.next().unwrap_or_default().to_string();
    for part in parts {
        let rest = part.trim_start_matches(|c: char| c.is_ascii_digit() || c == ';');
        plain.push_str(
            rest.strip_prefix(|c: char| c.is_ascii_alphabetic())
                .unwrap_or(rest),
        );
    }
    plain
}

#[cfg(test)]
mod tests {
    use super::*;

    #[test]
    fn the_last_error_has_the_lines_up_to_the_next_warning() {
        let cases = [
            ("", None),
            ("warning: a\n  error: b\n", None),
            ("   Compiling a\nerror: b\n", Some("error: b")),
            (
                "error: a\nwarning: b\nerror: c\n\nCaused by:\n  d\n\n",
                Some("error: c\n\nCaused by:\n  d"),
            ),
            ("error: a\nhelp: b\nwarning: c\n", Some("error: a\nhelp: b")),
            ("\u{1b}[1m\u{1b}[91merror\u{1b}[0m: a\r\n", Some("error: a")),
        ];
        for (words, wanted) in cases {
            assert_eq!(last_error(words.as_bytes()).as_deref(), wanted, "{words:?}");
        }
    }

    #[test]
    fn escapes_of_a_terminal_are_left_out() {
        let cases = [
            ("a", "a"),
            ("\u{1b}[1m\u{1b}[38;5;9merror\u{1b}[0m: a", "error: a"),
            ("\u{1b}[Ka\u{1b}[", "a"),
            ("a [1m", "a [1m"),
        ];
        for (text, plain) in cases {
            assert_eq!(without_colors(text), plain);
        }
    }
}
