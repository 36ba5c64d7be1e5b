//! Bytes in hex.

/// Returns the bytes that a word spells, with `-` for none, or `None` if it spells none.
pub fn bytes_in(word: &str) -> Option<Vec<u8>> {
    match word {
        "-" => Some(Vec::new()),
        digits => hex::decode(digits).ok(),
    }
}
