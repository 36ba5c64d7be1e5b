// Made by tools/erase from crates/template/src/shown.rt. Do not edit.
//! How the characters of a value are shown.

/// Returns true for a character that is shown as an escape: a control character other than a tab and a line feed, or
/// one that changes the direction of writing.
pub fn is_escaped(c: char) -> bool {
    match c {
        '\t' | '\n' => false,
        '\u{61c}' | '\u{200e}' | '\u{200f}' => true,
        '\u{202a}'..='\u{202e}' | '\u{2066}'..='\u{2069}' => true,
        _ => c.is_control(),
    }
}

/// Appends the escape of a character, such as `\u{1b}`.
pub fn push_escape(text: &mut String, c: char) {
    let code = u32::from(c);
    text.push_str(&format!("\\u{{{code:x}}}"));
}

/// Returns U+FFFD for U+FFFE and U+FFFF, which XML does not allow, and any other character as it is.
pub fn allowed(c: char) -> char {
    match c {
        '\u{fffe}' | '\u{ffff}' => '\u{fffd}',
        _ => c,
    }
}
