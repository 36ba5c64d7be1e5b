// Made by tools/erase from crates/report_text/src/text.rt. Do not edit.
//! A text that is safe to show.

use crate::report_text::command::{Kind, Property, push_command_line, push_line_end};
use crate::report_text::line::{Line, line_start};
use crate::report_text::sequence::{Style, push_link_mark, style_text};
use crate::report_text::shown::{Rules, push_shown};

/// A text that is safe to show.
#[derive(Clone)]
pub struct ReportText {
    text: String,
    line: Line,
    for_terminal: bool,
}

impl ReportText {
    /// Returns an empty text for a log that a CI system may read.
    pub fn new() -> ReportText {
        ReportText {
            text: String::new(),
            line: line_start(),
            for_terminal: false,
        }
    }

    /// Returns an empty text for a terminal that is no CI system: `::` and `##[` are written as they are.
    pub fn for_terminal() -> ReportText {
        ReportText {
            text: String::new(),
            line: line_start(),
            for_terminal: true,
        }
    }

    /// Returns the text.
    pub fn as_str(&self) -> &str {
        self.text.as_str()
    }

    /// Returns true if the text is empty.
    pub fn is_empty(&self) -> bool {
        self.text.is_empty()
    }

    /// Appends a text of any origin by these rules. Returns true if it had sequences that set styles.
    fn push_by(&mut self, one_line: bool, keeps_colours: bool, text: &str) -> bool {
        let rules = Rules {
            for_terminal: self.for_terminal,
            one_line,
            keeps_colours,
        };
        let (line, has_style) = push_shown(&mut self.text, rules, self.line, text);
        self.line = line;
        has_style
    }

    /// Appends a text of any origin.
    pub fn push(&mut self, text: &str) {
        self.push_by(false, false, text);
    }

    /// Appends a text of any origin, whose line feeds and tabs are escapes, too.
    pub fn push_line(&mut self, text: &str) {
        self.push_by(true, false, text);
    }

    /// Appends the sequence that sets a style.
    pub fn push_style(&mut self, style: Style) {
        self.text.push_str(style_text(style));
    }

    /// Appends a text of any origin with its own sequences that set styles, and resets the style if there were any.
    pub fn push_coloured(&mut self, text: &str) {
        if self.push_by(false, true, text) {
            self.push_style(Style::Reset);
        }
    }

    /// Appends a link whose label is a text of any origin. The target is percent-encoded.
    pub fn push_link(&mut self, target: &str, label: &str) {
        let rules = Rules {
            for_terminal: self.for_terminal,
            one_line: true,
            keeps_colours: false,
        };
        push_link_mark(&mut self.text, target);
        let (line, _) = push_shown(&mut self.text, rules, self.line, label);
        push_link_mark(&mut self.text, "");
        self.line = line;
    }

    /// Appends the line of a command of GitHub's runner. Ends a line that has begun first.
    pub fn push_command(&mut self, kind: Kind, properties: &[Property], message: &str) {
        push_line_end(&mut self.text, self.line.front);
        push_command_line(&mut self.text, kind, properties, message);
        self.line = line_start();
    }

    /// Returns what was written and leaves an empty text. Ends a line that has begun first.
    pub fn take(&mut self) -> String {
        push_line_end(&mut self.text, self.line.front);
        self.line = line_start();
        std::mem::take(&mut self.text)
    }

    /// Returns all that was written.
    pub fn finish(self) -> String {
        self.text
    }
}
