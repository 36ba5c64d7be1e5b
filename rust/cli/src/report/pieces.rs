//! Texts of tests with colours, as values of a page.

use crate::report::colours::{Span, spans};
use crate::report::escape::text;
use crate::report::values::Values;

/// Returns values with the pieces of a text of a test, in a list `piece`: `plain` is a text without colours, and an item
/// `coloured` has a `text` and the `class` of its colours. They are escaped.
pub(crate) fn with_pieces(mut values: Values, whole: &str) -> Values {
    let mut is_front = true;
    for Span {
        text: piece,
        classes,
    } in spans(whole)
    {
        let shown = escaped(&piece, is_front);
        is_front = is_front_after(&piece, is_front);
        let item = if classes.is_empty() {
            Values::of("plain", shown)
        } else {
            let coloured = Values::of("class", classes).text("text", shown);
            Values::with_room(1).item("coloured", coloured)
        };
        values = values.item("piece", item);
    }
    values
}

/// Returns a piece of a text with its escapes. `is_front` is true if only white space is before it in its line. If it is
/// not, the first colon in it begins no command.
fn escaped(piece: &str, is_front: bool) -> String {
    if is_front || !piece.trim_start().starts_with(':') {
        return text(piece);
    }
    let mut shown = text(&format!(".{piece}"));
    shown.remove(0);
    shown
}

/// Returns true if only white space is before the end of a piece in its line.
fn is_front_after(piece: &str, is_front: bool) -> bool {
    match piece.rsplit_once('\n') {
        Some((_, last)) => last.trim().is_empty(),
        None => is_front && piece.trim().is_empty(),
    }
}

#[cfg(test)]
mod tests {
    use super::{escaped, is_front_after};

    #[test]
    fn only_a_colon_at_the_front_of_a_line_is_an_escape() {
        for (piece, is_front, wanted) in [
            (": mismatched", false, ": mismatched"),
            (": mismatched", true, "\\u{3a} mismatched"),
            (
                " ::error::\n::warning::",
                false,
                " ::error::\n\\u{3a}:warning::",
            ),
            ("a\n:b", false, "a\n\\u{3a}b"),
            ("\r: b", false, "\\u{d}: b"),
            (" \n: b", false, " \n\\u{3a} b"),
            ("##[group]", false, "\\u{23}#[group]"),
        ] {
            assert_eq!(escaped(piece, is_front), wanted, "{piece:?}");
        }
    }

    #[test]
    fn the_front_of_a_line_is_after_white_space_alone() {
        for (piece, is_front, wanted) in [
            ("", true, true),
            ("", false, false),
            (" \t", true, true),
            (" \t", false, false),
            ("a", true, false),
            ("a\n ", false, true),
            ("a\nb", true, false),
        ] {
            assert_eq!(is_front_after(piece, is_front), wanted, "{piece:?}");
        }
    }
}
