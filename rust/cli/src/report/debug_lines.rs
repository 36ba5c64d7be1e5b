//! Values of Rust's `Debug`, broken into lines.

use std::borrow::Cow;
use std::iter;

/// The most lines of a value that is broken.
const MOST_LINES: usize = 20_000;

/// The most levels by which a line is indented, so that values that nest deeply do not take more room than others.
const MOST_LEVELS: usize = 24;

/// The escape of a line feed in a literal.
const FEED: &str = "\\n";

/// The most characters after the backslash and the first character of an escape, up to its quote: `{10ffff}'`.
const LONGEST_ESCAPE: usize = 9;

/// A part of a value.
#[derive(Clone, Copy, PartialEq, Eq)]
enum Token<'a> {
    /// A parenthesis, a bracket or a brace that opens.
    Open(char),

    /// One that closes.
    Close(char),
    Comma,

    /// A string with its quotes. The second one may be missing at the end of the value.
    Literal(&'a str),

    /// Another text.
    Text(&'a str),
}

/// Returns the lines of two values: those that they have if one has several, or those of the texts of two strings, or else
/// those in which `{:#?}` writes them: one element each. Returns `None` if a value has too many lines.
pub(crate) fn lines_of<'a>(values: [&'a str; 2]) -> Option<[Vec<Cow<'a, str>>; 2]> {
    let lines = if values.iter().any(|value| value.contains('\n')) {
        values.map(|value| value.split('\n').map(Cow::from).collect())
    } else if let [Some(left), Some(right)] = values.map(content) {
        lines_of_texts([left, right])
    } else {
        values.map(elements)
    };
    let are_few = |lines: &Vec<_>| lines.len() <= MOST_LINES;
    lines.iter().all(are_few).then_some(lines)
}

/// Returns the lines of the texts of two strings. If both end in a line feed, no line is after it.
fn lines_of_texts(texts: [&str; 2]) -> [Vec<Cow<'_, str>>; 2] {
    let both_end = texts
        .iter()
        .all(|text| lines_of_content(text).last() == Some(""));
    texts.map(|text| {
        let mut lines: Vec<_> = lines_of_content(text).map(Cow::from).collect();
        if both_end {
            lines.pop();
        }
        lines
    })
}

/// Returns what is between the quotes of a value that is one string.
fn content(value: &str) -> Option<&str> {
    let is_one = literal_len(value)? == value.len();
    is_one.then(|| &value[1..value.len() - 1])
}

/// Returns the number of bytes of the string at the front of a text, with its quotes, or `None` if there is none or its end
/// is missing.
fn literal_len(text: &str) -> Option<usize> {
    let mut bytes = text.strip_prefix('"')?.bytes().zip(2..);
    loop {
        match bytes.next()? {
            (b'\\', _) => {
                bytes.next()?;
            }
            (b'"', len) => return Some(len),
            _ => {}
        }
    }
}

/// Returns the number of bytes of the character in quotes at the front of a text, or `None` if there is none.
fn char_len(text: &str) -> Option<usize> {
    let mut chars = text.strip_prefix('\'')?.char_indices();
    if chars.next()?.1 == '\\' {
        // The escape of a quote is no end.
        chars.next()?;
        let (end, _) = chars.take(LONGEST_ESCAPE).find(|(_, c)| *c == '\'')?;
        return Some(end + 2);
    }
    let (end, c) = chars.next()?;
    (c == '\'').then_some(end + 2)
}

/// Returns the parts of a value.
fn tokens(value: &str) -> impl Iterator<Item = Token<'_>> {
    let mut rest = value;
    iter::from_fn(move || {
        let c = rest.chars().next()?;
        let (token, len) = match c {
            '{' | '[' | '(' => (Token::Open(c), 1),
            '}' | ']' | ')' => (Token::Close(c), 1),
            ',' => (Token::Comma, 1),
            '"' => {
                let len = literal_len(rest).unwrap_or(rest.len());
                (Token::Literal(&rest[..len]), len)
            }
            _ => {
                let first = char_len(rest).unwrap_or(c.len_utf8());
                let others = rest[first..].find(['{', '[', '(', '}', ']', ')', ',', '"', '\'']);
                let len = others.map_or(rest.len(), |others| first + others);
                (Token::Text(&rest[..len]), len)
            }
        };
        rest = &rest[len..];
        Some(token)
    })
}

/// Returns the lines of the text of a string, without the escapes of the line feeds.
fn lines_of_content(content: &str) -> impl Iterator<Item = &str> {
    let lines = lines_with_feeds(content);
    lines.map(|(line, has_feed)| {
        if has_feed {
            &line[..line.len() - FEED.len()]
        } else {
            line
        }
    })
}

/// Returns the lines of the text of a string, each with the escape of its line feed, and whether it has one. The last line has
/// none.
fn lines_with_feeds(content: &str) -> impl Iterator<Item = (&str, bool)> {
    let mut rest = Some(content);
    iter::from_fn(move || {
        let text = rest?;
        let mut escapes = text.match_indices('\\');
        let mut after = 0;
        // An escape has two bytes, or more without a backslash.
        let feed = escapes.find(|(start, _)| {
            let is_escape = *start >= after;
            if is_escape {
                after = start + 2;
            }
            is_escape && text[*start..].starts_with(FEED)
        });
        let Some((feed, _)) = feed else {
            rest = None;
            return Some((text, false));
        };
        let (line, others) = text.split_at(feed + FEED.len());
        rest = Some(others);
        Some((line, true))
    })
}

/// The lines of a value, while it is read.
#[derive(Default)]
struct Elements<'a> {
    lines: Vec<Cow<'a, str>>,

    /// The line that is not ended, without its indentation.
    line: String,

    /// The number of brackets around the line.
    level: usize,

    /// True if the line begins in a string.
    is_in_string: bool,
}

/// Returns a value with one element a line, as `{:#?}` writes it. A string is divided after its line feeds. After too many
/// lines the rest is left out.
fn elements<'a>(value: &str) -> Vec<Cow<'a, str>> {
    let mut elements = Elements::default();
    let mut tokens = tokens(value).peekable();
    while let Some(token) = tokens.next() {
        match token {
            Token::Open(bracket) => {
                elements.line.push(bracket);
                let is_empty = |next: &Token<'_>| matches!(next, Token::Close(_));
                match tokens.next_if(is_empty) {
                    Some(Token::Close(bracket)) => elements.line.push(bracket),
                    _ => elements.open(),
                }
            }
            Token::Close(bracket) => elements.close(bracket),
            Token::Comma => elements.comma(),
            Token::Literal(literal) => elements.literal(literal),
            Token::Text(text) => elements.text(text),
        }
        if elements.lines.len() > MOST_LINES {
            break;
        }
    }
    elements.end_line();
    elements.lines
}

impl Elements<'_> {
    /// Ends the line, if it has begun.
    fn end_line(&mut self) {
        let line = self.line.trim_end();
        if !line.is_empty() {
            let levels = self.level + usize::from(self.is_in_string);
            let indentation = 4 * levels.min(MOST_LEVELS);
            self.lines.push(format!("{:indentation$}{line}", "").into());
        }
        self.line.clear();
        self.is_in_string = false;
    }

    /// Takes that a bracket opened, which is at the end of the line.
    fn open(&mut self) {
        self.end_line();
        self.level += 1;
    }

    /// Takes a bracket that closes. The last element before it gets a comma, as the others have.
    fn close(&mut self, bracket: char) {
        if self.level > 0 {
            self.line.truncate(self.line.trim_end().len());
            if !self.line.is_empty() && self.line != ".." {
                self.line.push(',');
            }
            self.end_line();
            self.level -= 1;
        }
        self.line.push(bracket);
    }

    /// Takes a comma.
    fn comma(&mut self) {
        self.line.push(',');
        if self.level > 0 {
            self.end_line();
        }
    }

    /// Takes a string. Its lines after the first one are indented by a level more.
    fn literal(&mut self, literal: &str) {
        for (line, has_feed) in lines_with_feeds(literal) {
            self.line.push_str(line);
            if has_feed {
                self.end_line();
                self.is_in_string = true;
            }
        }
    }

    /// Takes another text. Spaces at the front of a line are left out.
    fn text(&mut self, text: &str) {
        let is_front = self.line.is_empty();
        self.line
            .push_str(if is_front { text.trim_start() } else { text });
    }
}

#[cfg(test)]
mod tests {
    use super::*;

    /// Returns the lines of a value that is compared with a number.
    fn broken(value: &str) -> String {
        match lines_of([value, "0"]) {
            Some([lines, _]) => lines.join("\n"),
            None => "too many".to_string(),
        }
    }

    #[test]
    fn each_element_has_its_line() {
        let cases = [
            ("17", "17"),
            ("[]", "[]"),
            ("[1, -2.5]", "[\n    1,\n    -2.5,\n]"),
            ("[1, 2,]", "[\n    1,\n    2,\n]"),
            (
                "Some((1, 'a'))",
                "Some(\n    (\n        1,\n        'a',\n    ),\n)",
            ),
            (
                "Config { name: \"a, {b}\", ports: [], nested: Inner { x: 1 }, .. }",
                "Config {\n    name: \"a, {b}\",\n    ports: [],\n    nested: Inner {\n        x: 1,\n    },\n    ..\n}",
            ),
            (
                "{\"a\\\"]\": ',', \"b\\\\\": '\\'', 'c': '\\u{1b}'}",
                "{\n    \"a\\\"]\": ',',\n    \"b\\\\\": '\\'',\n    'c': '\\u{1b}',\n}",
            ),
            (
                "A { life: &'a str, b: 'é' }",
                "A {\n    life: &'a str,\n    b: 'é',\n}",
            ),
            ("1, 2)", "1, 2)"),
            ("[\"open, 1]", "[\n    \"open, 1]"),
            (
                "[\"a\\nb\\\\n\\nc\", 1]",
                "[\n    \"a\\n\n        b\\\\n\\n\n        c\",\n    1,\n]",
            ),
        ];
        for (value, wanted) in cases {
            assert_eq!(broken(value), wanted, "{value}");
        }
    }

    #[test]
    fn two_strings_have_the_lines_of_their_texts() {
        let wanted = [["a \\\"b\\\"", "c\\\\n\\r", ""].to_vec(), ["é"].to_vec()];
        let wanted = wanted.map(|lines| lines.into_iter().map(Cow::from).collect());
        assert_eq!(
            lines_of(["\"a \\\"b\\\"\\nc\\\\n\\r\\n\"", "\"é\""]),
            Some(wanted)
        );
        // The text after a string makes the value another one.
        let [left, right] = lines_of(["\"a\\nb\" + 1", "\"c\""]).expect("they are few");
        assert_eq!(
            (left, right),
            (
                vec!["\"a\\n".into(), "    b\" + 1".into()],
                vec!["\"c\"".into()]
            )
        );
        assert_eq!(broken("\"a\\nb\" + 1"), "\"a\\n\n    b\" + 1");
    }

    #[test]
    fn a_text_with_several_lines_has_these() {
        let [left, right] = lines_of(["a, [b\n{c", "[1, 2]"]).expect("they are few");
        assert_eq!(left, ["a, [b", "{c"]);
        assert_eq!(right, ["[1, 2]"]);
    }

    #[test]
    fn the_cost_is_in_proportion_to_the_value() {
        for value in [
            "[".repeat(400_000),
            "'".repeat(400_000),
            "'\\".repeat(200_000),
            "\"\\n".repeat(200_000),
            "\\".repeat(400_000),
            format!("[{}]", "1, ".repeat(200_000)),
        ] {
            let most = (MOST_LINES + 2) * (4 * (MOST_LEVELS + 1) + 8);
            assert!(
                elements(&value)
                    .iter()
                    .map(|line| line.len())
                    .sum::<usize>()
                    < most + value.len()
            );
        }
        assert_eq!(broken(&"1\n".repeat(20_000)), "too many");
        assert_ne!(broken(&"1\n".repeat(19_999)), "too many");
        assert_eq!(broken(&format!("[{}]", "1, ".repeat(19_999))), "too many");
        assert_ne!(broken(&format!("[{}]", "1, ".repeat(19_998))), "too many");
    }
}
