//! What standard output takes: no text goes there except through one of these types.

use crate::report::colours::{lines_with_colours, without_colours};
use crate::report::escape;
use crate::report::options::Options;
use crate::report::style::RESET;
use crate::report_templates::{FAILED, JUNIT, MARKDOWN, PAGE};
use crate::report_text::{Kind, Property, ReportText, Style};
use crate::template::shown::is_escaped;
use crate::template::{Part, Value, parse_template, render};
use serde::Serialize;
use std::borrow::Cow;
use std::io::{self, Write};

/// A text for a terminal or a log, in whole lines.
pub(crate) struct Text {
    content: Content,

    /// True if it has colours: those of the report, and those in texts of tests.
    has_colours: bool,
}

/// What a text has.
enum Content {
    /// It has no control character except line feeds, tabs, colours and links, and no command except those of this program.
    Safe(ReportText),

    /// The outputs of tests in it are as they were, with control characters. Only `--raw` makes one.
    Raw(String),
}

impl Text {
    /// Returns an empty text. Of the options it uses only `raw`, `color` and `screen`.
    pub(crate) fn new(options: Options) -> Text {
        let content = if options.raw {
            Content::Raw(String::new())
        } else if options.screen.is_for_people {
            Content::Safe(ReportText::for_terminal())
        } else {
            Content::Safe(ReportText::new())
        };
        Text {
            content,
            has_colours: options.color,
        }
    }

    /// Returns true if nothing was appended.
    pub(crate) fn is_empty(&self) -> bool {
        match &self.content {
            Content::Safe(text) => text.is_empty(),
            Content::Raw(raw) => raw.is_empty(),
        }
    }

    /// Appends what is pushed to a safe text.
    fn push_safe(&mut self, push: impl FnOnce(&mut ReportText)) {
        match &mut self.content {
            Content::Safe(text) => push(text),
            Content::Raw(raw) => {
                // In a line that has begun, nothing is the front of a command.
                let is_begun = raw
                    .rsplit('\n')
                    .next()
                    .is_some_and(|line| !line.trim().is_empty());
                let begun = if is_begun { "x" } else { "" };
                let mut text = ReportText::new();
                text.push(begun);
                push(&mut text);
                raw.push_str(&text.finish()[begun.len()..]);
            }
        }
    }

    /// Appends a text of the report.
    pub(crate) fn push(&mut self, text: &str) {
        self.push_safe(|safe| safe.push(text));
    }

    /// Appends a text of the report as one line, without the line feed at its end.
    pub(crate) fn push_line(&mut self, text: &str) {
        self.push_safe(|safe| safe.push_line(text));
    }

    /// Appends a word, in a style if this text has colours.
    pub(crate) fn push_styled(&mut self, word: &str, style: Style) {
        let has_colours = self.has_colours;
        self.push_safe(|safe| {
            if has_colours {
                safe.push_style(style);
            }
            safe.push(word);
            if has_colours {
                safe.push_style(Style::Reset);
            }
        });
    }

    /// Appends a link with this label.
    pub(crate) fn push_link(&mut self, target: &str, label: &str) {
        self.push_safe(|safe| safe.push_link(target, label));
    }

    /// Appends an annotation of GitHub.
    pub(crate) fn push_command(&mut self, kind: Kind, properties: &[Property], message: &str) {
        self.push_safe(|safe| safe.push_command(kind, properties, message));
    }

    /// Appends a text of a test in a line, as it is if this text is raw.
    pub(crate) fn push_input(&mut self, input: &str) {
        match &mut self.content {
            Content::Safe(safe) => safe.push(input),
            Content::Raw(raw) => raw.push_str(input),
        }
    }

    /// Appends the lines of a text of a test, each after `margin` spaces: as they are if this text is raw, and otherwise
    /// with their colours if it has some.
    pub(crate) fn push_indented(&mut self, input: &str, margin: usize) {
        if matches!(self.content, Content::Raw(_)) {
            self.push_indented_names(input, margin);
        } else if self.has_colours {
            let lines = lines_with_colours(input);
            self.push_lines(lines, margin, |safe, line| {
                // The safe text ends the styles of a text itself.
                safe.push_coloured(line.strip_suffix(RESET).unwrap_or(line));
            });
        } else {
            self.push_indented_names(&without_colours(input), margin);
        }
    }

    /// Appends the same lines of a text that may have names of tests. In names a colour is an escape.
    pub(crate) fn push_indented_names(&mut self, input: &str, margin: usize) {
        let lines = input.split('\n').map(Cow::from);
        self.push_lines(lines, margin, ReportText::push);
    }

    /// Appends lines, each after `margin` spaces, and pushes them in this way unless this text is raw.
    fn push_lines<'a>(
        &mut self,
        lines: impl Iterator<Item = Cow<'a, str>>,
        margin: usize,
        push: fn(&mut ReportText, &str),
    ) {
        let spaces = " ".repeat(margin);
        for line in lines {
            match &mut self.content {
                Content::Safe(safe) => {
                    safe.push(&spaces);
                    push(safe, &line);
                    safe.push("\n");
                }
                Content::Raw(raw) => raw.extend([spaces.as_str(), &line, "\n"]),
            }
        }
    }

    /// Writes the text, and empties it.
    ///
    /// Fails if a write does.
    pub(crate) fn write_to(&mut self, writer: &mut impl Write) -> io::Result<()> {
        let text = match &mut self.content {
            Content::Safe(text) => text.take(),
            Content::Raw(raw) => std::mem::take(raw),
        };
        writer.write_all(text.as_bytes())
    }
}

/// A template of `report_templates`. No value is markup in what it renders, which is proved.
#[derive(Clone, Copy)]
pub(crate) enum Template {
    Page,
    Junit,
    Summary,

    /// What the summary has of one failed test, or of a group of them.
    FailedTest,
}

impl Template {
    /// Returns the line before the document, the template, and what follows the document.
    fn texts(self) -> (&'static str, &'static str, &'static str) {
        match self {
            Template::Page => ("<!DOCTYPE html>\n", PAGE, "\n"),
            Template::Junit => ("<?xml version=\"1.0\" encoding=\"UTF-8\"?>\n", JUNIT, "\n"),
            Template::Summary => ("", MARKDOWN, ""),
            Template::FailedTest => ("", FAILED, ""),
        }
    }

    /// Returns the parts of the template. That each of these texts is a template is proved.
    pub(crate) fn parts(self) -> Vec<Part> {
        let (_, template, _) = self.texts();
        match parse_template(template) {
            Some(parts) => parts,
            None => unreachable!("this is no template: {template}"),
        }
    }

    /// Returns the parts that the template has for each item of a list. The list is the last of these, and each is in the
    /// parts of the one before it.
    pub(crate) fn item_parts(self, lists: &[&str]) -> Vec<Part> {
        let parts = self.parts();
        lists
            .iter()
            .fold(parts, |parts, list| parts_for(parts, list))
    }
}

/// Returns what these parts have for each item of a list.
fn parts_for(parts: Vec<Part>, list: &str) -> Vec<Part> {
    let found = parts.into_iter().find_map(|part| match part {
        Part::Each { name, parts } => (name == list).then_some(parts),
        Part::Text(_) | Part::Hole { .. } | Part::Otherwise { .. } => None,
    });
    match found {
        Some(parts) => parts,
        None => unreachable!("the template has no list {list}"),
    }
}

/// A document that a template rendered.
pub struct Document {
    text: String,
}

impl Document {
    /// Returns what a template renders of values.
    pub(crate) fn rendered(template: Template, values: &[Value]) -> Document {
        let (head, _, tail) = template.texts();
        let mut text = head.to_string();
        render(&mut text, &template.parts(), values);
        text.push_str(tail);
        Document { text }
    }

    /// Returns the document.
    pub fn as_str(&self) -> &str {
        &self.text
    }
}

/// A line of JSON, in which no text controls a terminal or begins a command of a CI system.
pub struct Json {
    line: String,
}

impl Json {
    /// Returns a value as JSON. These are escapes such as `\u0023`: a `#` that would begin a command, control
    /// characters, and characters that change the direction of writing.
    pub(crate) fn of(value: &impl Serialize) -> Json {
        let json = match serde_json::to_string(value) {
            Ok(json) => json,
            Err(error) => unreachable!("a report has only texts, numbers and lists: {error}"),
        };
        let mut line = String::with_capacity(json.len() + 1);
        let mut rest = json.as_str();
        while let Some((at, c)) = rest
            .char_indices()
            .find(|&(_, c)| c == '#' || is_escaped(c))
        {
            line.push_str(&rest[..at]);
            rest = &rest[at + c.len_utf8()..];
            if is_escaped(c) || escape::completes_command(rest) {
                line.push_str(&format!("\\u{:04x}", u32::from(c)));
            } else {
                line.push(c);
            }
        }
        line.push_str(rest);
        line.push('\n');
        Json { line }
    }

    /// Returns the line.
    pub fn as_str(&self) -> &str {
        &self.line
    }
}

/// The names of failed tests, one a line.
pub struct FailedNames(Text);

impl FailedNames {
    /// Returns the names in a text.
    pub(crate) fn of(names: Text) -> FailedNames {
        FailedNames(names)
    }

    /// Returns the lines.
    pub fn as_str(&self) -> &str {
        match &self.0.content {
            Content::Safe(text) => text.as_str(),
            Content::Raw(raw) => raw,
        }
    }
}
