//! Colours in outputs of tests: the sequences of a terminal that set styles, which are `ESC [`, digits and semicolons,
//! and `m`. Other escapes of a terminal are none of them.

use crate::report::style::{ESCAPE, RESET, Style};
use std::borrow::Cow;
use std::iter;

/// How lines of a report's own are coloured among those of a test.
#[derive(Clone, Copy, Debug, PartialEq, Eq)]
pub(crate) enum Paint {
    Colours,
    Nothing,
}

/// What a line of a report's own is coloured for.
#[derive(Clone, Copy)]
pub(crate) enum Mark {
    /// It is missing: red.
    Removed,

    /// It is new: green.
    Added,

    /// It is what matters: bright.
    Important,
}

/// A part of a text.
#[derive(Clone, Copy)]
enum Part<'a> {
    /// A text without sequences.
    Text(&'a str),

    /// The parameters of a sequence.
    Sequence(&'a str),
}

/// A piece of a text that has one style. Its text has no sequences.
#[derive(Clone, Debug, PartialEq, Eq)]
pub(crate) struct Span<'a> {
    pub(crate) text: Cow<'a, str>,

    /// The classes of its style, with spaces between them, such as `c1 b`. It is empty if it has no style.
    pub(crate) classes: String,
}

/// Returns the parameters of the sequence at the front of a text and what follows the sequence, or `None` if there is none.
fn sequence(text: &str) -> Option<(&str, &str)> {
    let rest = text.strip_prefix(ESCAPE)?.strip_prefix('[')?;
    let after = rest.trim_start_matches(|c: char| c.is_ascii_digit() || c == ';');
    let parameters = &rest[..rest.len() - after.len()];
    Some((parameters, after.strip_prefix('m')?))
}

/// Returns the parts of a text. No part is empty.
fn parts(text: &str) -> impl Iterator<Item = Part<'_>> {
    let mut rest = text;
    iter::from_fn(move || {
        if let Some((parameters, after)) = sequence(rest) {
            rest = after;
            return Some(Part::Sequence(parameters));
        }
        let mut escapes = rest.match_indices(ESCAPE);
        let end = escapes.find(|(start, _)| sequence(&rest[*start..]).is_some());
        let (text, after) = rest.split_at(end.map_or(rest.len(), |(start, _)| start));
        rest = after;
        (!text.is_empty()).then_some(Part::Text(text))
    })
}

/// Returns the pieces of a text without its sequences.
fn texts(text: &str) -> impl Iterator<Item = &str> {
    parts(text).filter_map(|part| match part {
        Part::Text(text) => Some(text),
        Part::Sequence(_) => None,
    })
}

/// Returns a text without its sequences.
pub(crate) fn without_colours(text: &str) -> Cow<'_, str> {
    match texts(text).next() {
        // Most texts have no sequences, and are one piece.
        Some(first) if first.len() == text.len() => text.into(),
        _ => texts(text).collect::<String>().into(),
    }
}

/// Returns how many bytes a text has without its sequences.
pub(crate) fn shown_size(text: &str) -> usize {
    texts(text).map(str::len).sum()
}

/// Returns a text without the white space at its end, and without the sequences in and after it.
pub(crate) fn trim_end(text: &str) -> &str {
    match without_colours(text).trim_end().len() {
        0 => "",
        size => &text[..place_after(text, size)],
    }
}

/// Returns where in a text its byte `offset` is, if sequences do not count as bytes: before sequences that are there.
pub(crate) fn place_before(text: &str, offset: usize) -> usize {
    place(text, offset, |size| size >= offset)
}

/// Returns the same, but after sequences that are there.
pub(crate) fn place_after(text: &str, offset: usize) -> usize {
    place(text, offset, |size| size > offset)
}

/// Returns where in a text its byte `offset` is. `reaches` is true for the number of bytes at the end of the part that has it.
fn place(text: &str, offset: usize, reaches: impl Fn(usize) -> bool) -> usize {
    let (mut size, mut place) = (0, 0);
    for part in parts(text) {
        if reaches(size) {
            break;
        }
        match part {
            Part::Text(part) if reaches(size + part.len()) => return place + (offset - size),
            Part::Text(part) => {
                size += part.len();
                place += part.len();
            }
            Part::Sequence(parameters) => place += "\u{1b}[m".len() + parameters.len(),
        }
    }
    place
}

/// Returns the pieces of a text by their styles. Neighbours have different classes.
pub(crate) fn spans(text: &str) -> impl Iterator<Item = Span<'_>> {
    let mut style = Style::default();
    let pieces = parts(text).filter_map(move |part| match part {
        Part::Text(text) => Some((text, style)),
        Part::Sequence(parameters) => {
            style.set(parameters);
            None
        }
    });
    let mut pieces = pieces.peekable();
    iter::from_fn(move || {
        let (text, style) = pieces.next()?;
        let (mut text, classes) = (Cow::from(text), style.classes());
        let is_same = |next: Style| next == style || next.classes() == classes;
        while let Some((more, _)) = pieces.next_if(|(_, next)| is_same(*next)) {
            text.to_mut().push_str(more);
        }
        Some(Span { text, classes })
    })
}

/// Returns the lines of a text, each of them with the sequences of the styles that are in force in it and no others. So no
/// line needs the lines before it, and after none of them a style is in force. A blank line has no sequences.
pub(crate) fn lines_with_colours(text: &str) -> impl Iterator<Item = Cow<'_, str>> {
    let plain = Style::default();
    let mut style = plain;
    // Many lines may have one style, whose sequence may be long.
    let mut last = (plain, String::new());
    text.split('\n').map(move |line| {
        if style == plain && !line.contains(ESCAPE) {
            return line.into();
        }
        let (mut coloured, mut written) = (String::new(), plain);
        let shows = !is_blank(line);
        for part in parts(line) {
            match part {
                Part::Sequence(parameters) => style.set(parameters),
                Part::Text(text) => {
                    if shows && style != written {
                        if style != last.0 {
                            last = (style, style.sequence());
                        }
                        coloured.push_str(written.reset());
                        coloured.push_str(&last.1);
                        written = style;
                    }
                    coloured.push_str(text);
                }
            }
        }
        // A carriage return stays right before its line feed.
        let end = coloured.strip_suffix('\r').unwrap_or(&coloured).len();
        coloured.insert_str(end, written.reset());
        coloured.into()
    })
}

/// Returns a text after which no style is in force, given one in which no line needs the lines before it.
pub(crate) fn with_reset(text: Cow<'_, str>) -> Cow<'_, str> {
    let last = text.rsplit('\n').next().unwrap_or("");
    match style_after(last).reset() {
        "" => text,
        reset => (text.into_owned() + reset).into(),
    }
}

/// Returns a text whose lines are those of `lines_with_colours`.
pub(crate) fn with_colours_in_lines(text: &str) -> Cow<'_, str> {
    if !text.contains(ESCAPE) {
        return text.into();
    }
    let mut lines = String::with_capacity(text.len());
    for (place, line) in lines_with_colours(text).enumerate() {
        if place > 0 {
            lines.push('\n');
        }
        lines.push_str(&line);
    }
    lines.into()
}

/// Returns true if a line has nothing but white space and sequences.
pub(crate) fn is_blank(line: &str) -> bool {
    texts(line).all(|text| text.trim().is_empty())
}

/// Returns the front of a line before the byte `front`, and its end from the byte `end` on, each with the sequences of the
/// styles that are in force in it. Sequences do not count as bytes. `end` must be at least `front`.
pub(crate) fn front_and_end(line: &str, front: usize, end: usize) -> (String, String) {
    let (front, end) = (place_before(line, front), place_after(line, end));
    let reset = style_after(&line[..front]).reset();
    let set = style_after(&line[..end]).sequence();
    (
        format!("{}{reset}", &line[..front]),
        format!("{set}{}", &line[end..]),
    )
}

/// Returns the style that is in force after a text.
fn style_after(text: &str) -> Style {
    let mut style = Style::default();
    for part in parts(text) {
        if let Part::Sequence(parameters) = part {
            style.set(parameters);
        }
    }
    style
}

impl Paint {
    /// Returns a line in the colour of a mark.
    pub(crate) fn line(self, mark: Mark, line: &str) -> String {
        let parameter = match mark {
            Mark::Removed => "31",
            Mark::Added => "32",
            Mark::Important => "1",
        };
        match self {
            Paint::Colours => format!("{ESCAPE}[{parameter}m{line}{RESET}"),
            Paint::Nothing => line.to_string(),
        }
    }
}

#[cfg(test)]
mod tests {
    use super::*;

    /// Returns the texts of the spans of a text, and their classes.
    fn spans_of(text: &str) -> Vec<(String, String)> {
        spans(text)
            .map(|span| (span.text.into_owned(), span.classes))
            .collect()
    }

    /// Returns the lines of a text with their colours, as one text.
    fn lines_of(text: &str) -> String {
        lines_with_colours(text).collect::<Vec<_>>().join("\n")
    }

    #[test]
    fn only_sequences_that_set_styles_are_taken_out() {
        let cases = [
            ("", ""),
            ("a\u{1b}[1;31mb\u{1b}[mc\u{1b}[0m", "abc"),
            ("\u{1b}[38;2;1;2;3mé\u{1b}[0;m", "é"),
            ("\u{1b}[Ka\u{1b}[2Jb", "\u{1b}[Ka\u{1b}[2Jb"),
            ("\u{1b}[?1mb\u{1b}[4:3mc", "\u{1b}[?1mb\u{1b}[4:3mc"),
            (
                "\u{1b}]8;;x\u{1b}\\a\u{1b}(B",
                "\u{1b}]8;;x\u{1b}\\a\u{1b}(B",
            ),
            ("\u{1b}[1\u{1b}[1m\u{1b}", "\u{1b}[1\u{1b}"),
            ("\u{1b}\u{1b}[1m[31m", "\u{1b}[31m"),
            ("[1m 1m", "[1m 1m"),
        ];
        for (text, plain) in cases {
            assert_eq!(without_colours(text), plain, "{text:?}");
            assert_eq!(shown_size(text), plain.len(), "{text:?}");
        }
        assert!(matches!(without_colours("a\u{1b}[K"), Cow::Borrowed(_)));
    }

    #[test]
    fn white_space_at_the_end_may_have_sequences() {
        let cases = [
            ("", ""),
            (" \n", ""),
            ("\u{1b}[1m\n\u{1b}[0m ", ""),
            (" \u{1b}[1ma", " \u{1b}[1ma"),
            (
                "\u{1b}[1ma\u{1b}[0m \u{1b}[2m\n\n\u{1b}[0m",
                "\u{1b}[1ma\u{1b}[0m",
            ),
            ("\u{1b}[1ma \u{1b}[0m", "\u{1b}[1ma"),
            ("a\u{1b}[K \n", "a\u{1b}[K"),
        ];
        for (text, wanted) in cases {
            assert_eq!(trim_end(text), wanted, "{text:?}");
        }
    }

    #[test]
    fn a_place_is_before_or_after_the_sequences_there() {
        let text = "ab\u{1b}[1m\u{1b}[31mcd\u{1b}[0m";
        let places =
            |place: fn(&str, usize) -> usize| [0, 1, 2, 3, 4].map(|size| place(text, size));
        assert_eq!(places(place_before), [0, 1, 2, 12, 13]);
        assert_eq!(places(place_after), [0, 1, 11, 12, 17]);
        assert_eq!(place_before("\u{1b}[1ma", 0), 0);
        assert_eq!(place_after("\u{1b}[1ma", 0), 4);
    }

    #[test]
    fn a_span_has_the_classes_of_its_style() {
        let cases = [
            ("0;31", "c1"),
            ("30", "c0"),
            ("37;40", "c7 g0"),
            ("90;47", "c8 g7"),
            ("97;100", "c15 g8"),
            ("107", "g15"),
            ("38;5;9;48;5;15", "c9 g15"),
            ("38;5;16;48;5;255;3", "i"),
            ("38;2;1;2;3;4;48;2;4;4;4", "u"),
            ("31;38;2;1;2;3", ""),
            ("1;2;3;4;7;32", "c2 b d i u"),
            ("1;2;3;4;32;22;23;24", "c2"),
            ("32;41;39", "g1"),
            ("32;41;49", "c2"),
            ("32;41;", ""),
            ("32;38;5", "c2"),
            ("32;38;7", "c2"),
            ("032;001", "c2 b"),
            ("32;300;99999999999;5", "c2"),
        ];
        for (parameters, classes) in cases {
            let text = format!("\u{1b}[{parameters}mx");
            let wanted = [("x".to_string(), classes.to_string())];
            assert_eq!(spans_of(&text), wanted, "{parameters}");
        }
    }

    #[test]
    fn neighbours_with_one_style_are_one_span() {
        let text = "a\u{1b}[0mb\u{1b}[31m\u{1b}[1mc\u{1b}[22md\n\u{1b}[31me\u{1b}[39m\u{1b}[Kf\u{1b}[7mg\u{1b}[1m";
        let wanted = [
            ("ab", ""),
            ("c", "c1 b"),
            ("d\ne", "c1"),
            ("\u{1b}[Kfg", ""),
        ];
        assert_eq!(
            spans_of(text),
            wanted.map(|(text, classes)| (text.to_string(), classes.to_string()))
        );
        assert_eq!(spans_of("\u{1b}[1m"), []);
    }

    #[test]
    fn each_line_has_its_own_colours() {
        let cases = [
            ("", ""),
            ("a\nb\n", "a\nb\n"),
            (
                "a\u{1b}[31mb\nc\u{1b}[0m\nd",
                "a\u{1b}[31mb\u{1b}[0m\n\u{1b}[31mc\u{1b}[0m\nd",
            ),
            (
                "\u{1b}[1m\u{1b}[31m\u{1b}[31ma\u{1b}[32mb\u{1b}[22mc",
                "\u{1b}[1;31ma\u{1b}[0m\u{1b}[1;32mb\u{1b}[0m\u{1b}[32mc\u{1b}[0m",
            ),
            (
                "\u{1b}[31;44m\n \u{1b}[0m\u{1b}[2;97;48;5;200m\t\nx\u{1b}[38;2;9;8;7mu",
                "\n \t\n\u{1b}[2;97;48;5;200mx\u{1b}[0m\u{1b}[2;38;2;9;8;7;48;5;200mu\u{1b}[0m",
            ),
            (
                "\u{1b}[90;100ma\nb\nc\u{1b}[m",
                "\u{1b}[90;100ma\u{1b}[0m\n\u{1b}[90;100mb\u{1b}[0m\n\u{1b}[90;100mc\u{1b}[0m",
            ),
            ("\u{1b}[103;3;4;7mx\u{1b}[m", "\u{1b}[3;4;7;103mx\u{1b}[0m"),
            ("\u{1b}[5mx\u{1b}[K", "x\u{1b}[K"),
            (
                "\u{1b}[1ma\r\nb\r\u{1b}[0m\nc\r",
                "\u{1b}[1ma\u{1b}[0m\r\n\u{1b}[1mb\u{1b}[0m\r\nc\r",
            ),
        ];
        for (text, wanted) in cases {
            assert_eq!(lines_of(text), wanted, "{text:?}");
            assert_eq!(with_colours_in_lines(text), wanted, "{text:?}");
            assert_eq!(lines_of(wanted), wanted, "{text:?}");
            assert_eq!(without_colours(wanted), without_colours(text), "{text:?}");
        }
    }

    #[test]
    fn a_style_that_is_in_force_at_the_end_is_reset() {
        let cases = [
            ("", ""),
            ("\u{1b}[1ma\nb", "\u{1b}[1ma\nb"),
            ("a\n\u{1b}[1mb", "a\n\u{1b}[1mb\u{1b}[0m"),
            ("a\n\u{1b}[1mb\u{1b}[22m", "a\n\u{1b}[1mb\u{1b}[22m"),
        ];
        for (text, wanted) in cases {
            assert_eq!(with_reset(text.into()), wanted);
        }
    }

    #[test]
    fn a_line_is_cut_between_sequences() {
        let line = "\u{1b}[31mab\u{1b}[32mcdef\u{1b}[1mgh\u{1b}[0m";
        let cases = [
            (0, 8, "", ""),
            (2, 6, "\u{1b}[31mab\u{1b}[0m", "\u{1b}[1;32mgh\u{1b}[0m"),
            (
                3,
                4,
                "\u{1b}[31mab\u{1b}[32mc\u{1b}[0m",
                "\u{1b}[32mef\u{1b}[1mgh\u{1b}[0m",
            ),
        ];
        for (front, end, before, after) in cases {
            let ends = front_and_end(line, front, end);
            assert_eq!(ends, (before.to_string(), after.to_string()));
        }
        assert_eq!(
            front_and_end("abc", 1, 2),
            ("a".to_string(), "c".to_string())
        );
    }

    #[test]
    fn the_cost_is_in_proportion_to_the_text() {
        for text in [
            "\u{1b}[31m".repeat(100_000),
            "\u{1b}[31".repeat(100_000),
            format!("\u{1b}[{}", "1;".repeat(200_000)),
            "\u{1b}[1mx\n".repeat(100_000),
        ] {
            let plain = without_colours(&text);
            assert_eq!(shown_size(&text), plain.len());
            assert_eq!(place_after(&text, plain.len()), text.len());
            let lines = with_colours_in_lines(&text);
            assert_eq!(without_colours(&lines), plain);
            assert!(lines.len() <= 3 * text.len());
            assert_eq!(
                spans(&text).map(|span| span.text.len()).sum::<usize>(),
                plain.len()
            );
        }
    }
}
