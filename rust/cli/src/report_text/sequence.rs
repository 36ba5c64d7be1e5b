// Made by tools/erase from crates/report_text/src/sequence.rt. Do not edit.
//! Sequences of characters that set styles, and links.

/// A style of the text that follows.
#[derive(Clone, Copy)]
pub enum Style {
    Reset,
    Bold,
    Dim,
    Red,
    Green,
    Yellow,
    BoldRed,
    BoldGreen,
    BoldYellow,
}

/// Returns the sequence that sets a style.
pub(crate) fn style_text(style: Style) -> &'static str {
    match style {
        Style::Reset => "\u{1b}[0m",
        Style::Bold => "\u{1b}[1m",
        Style::Dim => "\u{1b}[2m",
        Style::Red => "\u{1b}[31m",
        Style::Green => "\u{1b}[32m",
        Style::Yellow => "\u{1b}[33m",
        Style::BoldRed => "\u{1b}[1;31m",
        Style::BoldGreen => "\u{1b}[1;32m",
        Style::BoldYellow => "\u{1b}[1;33m",
    }
}

/// Returns true for a character of the parameters of a sequence that sets styles.
fn is_parameter(c: char) -> bool {
    matches!(c, '0'..='9' | ';')
}

/// Returns the number of bytes up to the end of a sequence whose parameters come, or 0.
fn parameters_len(text: &str) -> usize {
    let mut rest = text.chars();
    let mut n: usize = 0;
    while let Some(c) = rest.next() {
        n += 1;
        if c == 'm' {
            return n;
        }
        if !is_parameter(c) {
            return 0;
        }
    }
    0
}

/// Returns the number of bytes of the rest of a sequence that sets styles, after ESC, or 0 if there is none.
pub(crate) fn style_len(text: &str) -> usize {
    let mut rest = text.chars();
    match rest.next() {
        Some(c) => {
            if c != '[' {
                return 0;
            }
            let n = parameters_len(rest.as_str());
            if n == 0 { 0 } else { n + 1 }
        }
        None => 0,
    }
}

/// Returns true for a byte that is not encoded in the target of a link.
fn is_unreserved(byte: u8) -> bool {
    matches!(byte, b'A'..=b'Z' | b'a'..=b'z' | b'0'..=b'9' | b'-'..=b'/' | b'_' | b'~' | b':')
}

/// Returns the upper case digit of a number below 16.
fn hex_digit(digit: u8) -> char {
    if digit < 10 {
        char::from(b'0' + digit)
    } else {
        char::from(b'A' - 10 + digit)
    }
}

/// Appends a byte of the target of a link, percent-encoded.
fn push_target_byte(text: &mut String, byte: u8) {
    if is_unreserved(byte) {
        text.push(char::from(byte));
    } else {
        text.push('%');
        text.push(hex_digit(byte / 16));
        text.push(hex_digit(byte % 16));
    }
}

/// Appends the target of a link, percent-encoded.
fn push_target(text: &mut String, target: &str) {
    for byte in target.as_bytes() {
        push_target_byte(text, *byte);
    }
}

/// Appends what begins a link, or with no target, what ends one.
pub(crate) fn push_link_mark(text: &mut String, target: &str) {
    text.push_str("\u{1b}]8;;");
    push_target(text, target);
    text.push_str("\u{1b}\\");
}
