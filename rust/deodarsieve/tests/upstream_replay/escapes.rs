//! Bytes that a text spells with escapes.

/// Returns the bytes that `text` spells. `\n`, `\r`, `\t`, `\0`, `\\` and `\xHH` are escapes; every
/// other character, and a `\` with no escape after it, spells its own UTF-8 bytes.
pub fn unescaped(text: &str) -> Vec<u8> {
    let mut bytes = Vec::new();
    let mut rest = text;
    while let Some(at) = rest.find('\\') {
        bytes.extend_from_slice(&rest.as_bytes()[..at]);
        let (byte, size) = escape(&rest.as_bytes()[at..]);
        bytes.push(byte);
        rest = &rest[at + size..];
    }
    bytes.extend_from_slice(rest.as_bytes());
    bytes
}

/// Returns the byte that the escape at the start of `bytes` spells, and the escape's length.
fn escape(bytes: &[u8]) -> (u8, usize) {
    match bytes {
        [_, b'n', ..] => (b'\n', 2),
        [_, b'r', ..] => (b'\r', 2),
        [_, b't', ..] => (b'\t', 2),
        [_, b'0', ..] => (0, 2),
        [_, b'\\', ..] => (b'\\', 2),
        [_, b'x', high, low, ..] => match (digit(*high), digit(*low)) {
            (Some(high), Some(low)) => (high * 16 + low, 4),
            _ => (b'\\', 1),
        },
        _ => (b'\\', 1),
    }
}

/// Returns the value of a hexadecimal digit.
fn digit(byte: u8) -> Option<u8> {
    let value = char::from(byte).to_digit(16)?;
    u8::try_from(value).ok()
}
