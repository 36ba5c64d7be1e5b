//! How texts of the input are shown: control characters and characters that change the direction of writing become
//! escapes such as `\u{1b}`. In documents so does what a CI system takes for a command, because they may be written to
//! its log. In a text for people the type of the text does that.

use crate::report::colours::without_colours;
use crate::report::lines::without_returns;
use crate::template::shown::{is_escaped, push_escape};
use std::borrow::Cow;

/// The most bytes of the name of a suite, a test or a file that are shown.
const NAME_LIMIT: usize = 1_024;

/// What follows a text that is cut.
const CUT: &str = "..";

/// Which characters become escapes.
#[derive(Clone, Copy, PartialEq, Eq)]
enum Escaped {
    /// All control characters, and those that change the direction of writing.
    InLine,

    /// The same except tabs and line feeds, and what a CI system takes for a command.
    InDocument,
}

/// Returns the name of a suite, a test or a file as it is shown: at most its first 1,024 bytes, cut at a character, and
/// `..` if it is longer.
pub(crate) fn name(name: &str) -> String {
    line(&shortened(name, NAME_LIMIT))
}

/// Returns the same in a document.
pub(crate) fn name_in_document(shown: &str) -> String {
    text(&name(shown))
}

/// Returns at most the first `limit` bytes of a text, cut at a character, and `..` if it is longer.
pub(crate) fn shortened(text: &str, limit: usize) -> Cow<'_, str> {
    let shown = front(text, limit);
    if shown.len() < text.len() {
        Cow::from(format!("{shown}{CUT}"))
    } else {
        Cow::from(text)
    }
}

/// Returns a text as one line. All control characters are escapes.
pub(crate) fn line(line: &str) -> String {
    escaped(line, Escaped::InLine)
}

/// Returns a text of one or several lines in a document. Its control characters except tabs and line feeds are escapes,
/// and so is what a CI system takes for a command.
pub(crate) fn text(text: &str) -> String {
    escaped(text, Escaped::InDocument)
}

/// Returns a text of the input in a document, whole, without colours and without the carriage returns that are right
/// before a line feed.
pub(crate) fn whole_text(whole: &str) -> String {
    text(&without_returns(&without_colours(whole)))
}

/// Returns at most the first `limit` bytes of a text, cut at a character.
pub(crate) fn front(text: &str, limit: usize) -> &str {
    &text[..text.floor_char_boundary(limit)]
}

/// Returns a text with its escapes.
fn escaped(shown: &str, escaped: Escaped) -> String {
    if is_plain(shown) {
        return shown.to_string();
    }
    let mut text = String::with_capacity(shown.len());
    let mut is_front = true;
    let mut rest = shown.chars();
    while let Some(c) = rest.next() {
        let is_escape = is_escaped(c)
            || match escaped {
                Escaped::InLine => matches!(c, '\t' | '\n'),
                Escaped::InDocument => begins_command(c, rest.as_str(), is_front),
            };
        if is_escape {
            push_escape(&mut text, c);
        } else {
            text.push(c);
        }
        is_front = c == '\n' || (is_front && c.is_whitespace());
    }
    text
}

/// Returns true if a text has nothing but printable ASCII characters, no `#`, and no colon at its front. Such a
/// text has no escapes.
fn is_plain(text: &str) -> bool {
    let is_plain = |byte: u8| matches!(byte, b' '..=b'"' | b'$'..=b'~');
    // A loop that does not end early is faster.
    let are_plain = text.bytes().fold(true, |all, byte| all & is_plain(byte));
    are_plain && !text.trim_start().starts_with(':')
}

/// Returns true if a character begins a command of a CI system: a colon, if only white space is before it in its line
/// (`is_front`), or the first `#` of `##[`, `##vso[` or `##teamcity[`. `rest` is the text after the character.
fn begins_command(c: char, rest: &str, is_front: bool) -> bool {
    (is_front && c == ':') || (c == '#' && completes_command(rest))
}

/// Returns true if what follows a `#` makes it the beginning of a command of a CI system.
pub(crate) fn completes_command(rest: &str) -> bool {
    ["#[", "#vso[", "#teamcity["]
        .iter()
        .any(|mark| rest.starts_with(mark))
}

#[cfg(test)]
mod tests {
    use super::*;

    #[test]
    fn control_characters_are_escapes() {
        let input = "a\tb\nc\r\u{1b}[0m\u{9b}\u{85}\u{202e}\u{2028}é::##[x]";
        let shown = |tab, feed| {
            format!("a{tab}b{feed}c\\u{{d}}\\u{{1b}}[0m\\u{{9b}}\\u{{85}}\\u{{202e}}\u{2028}é::")
        };
        assert_eq!(line(input), shown("\\u{9}", "\\u{a}") + "##[x]");
        assert_eq!(text(input), shown("\t", "\n") + "\\u{23}#[x]");
    }

    #[test]
    fn a_document_has_no_command() {
        for (input, wanted) in [
            ("::error::a", "\\u{3a}:error::a"),
            (" \u{3000}: a\n\t::b", " \u{3000}\\u{3a} a\n\t\\u{3a}:b"),
            ("a ::b", "a ::b"),
            ("a##vso[b", "a\\u{23}#vso[b"),
            ("###[##teamcity[", "#\\u{23}#[\\u{23}#teamcity["),
            ("##a[# #[", "##a[# #["),
        ] {
            assert_eq!(text(input), wanted);
        }
    }

    #[test]
    fn a_long_name_is_cut_at_a_character() {
        let long = "€".repeat(342);
        assert_eq!(name(&long), "€".repeat(341) + "..");
        let whole = "a".repeat(1_024);
        assert_eq!(name(&whole), whole);
        assert_eq!(name_in_document(":a"), "\\u{3a}a");
    }
}
