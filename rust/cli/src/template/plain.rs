// Made by tools/erase from crates/template/src/plain.rt. Do not edit.
//! Texts of Markdown in which no character is markup.

use crate::template::shown::{allowed, is_escaped};

/// Appends a value outside of `<pre>`. Every character that can mean something to Markdown is a reference.
pub(crate) fn push_plain(text: &mut String, value: &str) {
    let mut before = ' ';
    for c in value.chars() {
        push_shown(text, before, c);
        before = c;
    }
}

/// Appends a character of a value.
fn push_shown(text: &mut String, before: char, c: char) {
    if is_escaped(c) {
        push_plain_escape(text, c);
    } else {
        push_plain_char(text, before, allowed(c));
    }
}

/// Appends the escape of a character, with references for its punctuation.
fn push_plain_escape(text: &mut String, c: char) {
    let code = u32::from(c);
    text.push_str(&format!("&#92;u&#123;{code:x}&#125;"));
}

/// Appends a character.
fn push_plain_char(text: &mut String, before: char, c: char) {
    if is_syntax(before, c) {
        let code = u32::from(c);
        text.push_str(&format!("&#{code};"));
    } else {
        text.push(c);
    }
}

/// Returns true for a character that can mean something to Markdown after another one: most ASCII punctuation, a tab, a
/// line feed, and a space after another one. A colon can only mean something before `/`, which is a reference there.
fn is_syntax(before: char, c: char) -> bool {
    match c {
        '\t' | '\n' => true,
        ' ' => before == ' ',
        '"' | '%' | '\'' | ',' | ':' | ';' | '?' => false,
        '/' | '_' => !before.is_ascii_alphanumeric(),
        '.' => !is_before_point(before),
        _ => c.is_ascii_punctuation(),
    }
}

/// Returns true for a character after which a point is no markup: an ASCII letter, but not `w`, because a point after
/// `www` would begin the address of a link.
fn is_before_point(c: char) -> bool {
    c.is_ascii_alphabetic() && !matches!(c, 'W' | 'w')
}
