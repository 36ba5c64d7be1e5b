//! The last bytes that a program wrote to a stream.

use bstr::ByteSlice;
use std::collections::VecDeque;

/// The most bytes that are kept.
const LIMIT: usize = 65_536;

/// The most bytes of a character of UTF-8 after its first one.
const CONTINUATIONS: usize = 3;

/// The last 64 KiB of what a program wrote to a stream.
#[derive(Debug, Default)]
pub struct LastOutput {
    /// The bytes, and the one before them if there is one. It says whether a line begins after it.
    bytes: VecDeque<u8>,
}

impl LastOutput {
    /// Adds what the program wrote next.
    pub fn push(&mut self, piece: &[u8]) {
        let last = &piece[piece.len().saturating_sub(LIMIT + 1)..];
        let excess = (self.bytes.len() + last.len()).saturating_sub(LIMIT + 1);
        self.bytes.drain(..excess);
        self.bytes.extend(last);
    }

    /// Returns the whole lines of the last 64 KiB, or the end of the last line if that is longer. A last line may have no
    /// line feed. Bytes that are not UTF-8 become U+FFFD.
    pub fn into_text(mut self) -> String {
        let bytes = self.bytes.make_contiguous();
        let lines = if bytes.len() > LIMIT {
            whole_lines(bytes)
        } else {
            bytes
        };
        String::from_utf8_lossy(lines).into_owned()
    }
}

/// Returns the lines that begin after the first byte, or else the end of the only line, from a character on.
fn whole_lines(bytes: &[u8]) -> &[u8] {
    match bytes.find_byte(b'\n') {
        Some(at) if at + 1 < bytes.len() => &bytes[at + 1..],
        _ => {
            let end = &bytes[1..];
            let is_continuation = |byte: &&u8| (0x80..0xc0).contains(*byte);
            let cut = end.iter().take(CONTINUATIONS).take_while(is_continuation);
            &end[cut.count()..]
        }
    }
}

#[cfg(test)]
mod tests {
    use super::*;

    /// Returns what is kept of these pieces.
    fn kept<'a>(pieces: impl IntoIterator<Item = &'a [u8]>) -> String {
        let mut output = LastOutput::default();
        for piece in pieces {
            output.push(piece);
            assert!(output.bytes.len() <= LIMIT + 1);
        }
        output.into_text()
    }

    #[test]
    fn what_is_short_is_kept_as_it_is() {
        assert_eq!(kept([]), "");
        assert_eq!(kept([&b"a\n"[..], b"", b"b\xff\nc"]), "a\nb\u{fffd}\nc");
        let whole = "a".repeat(LIMIT);
        assert_eq!(kept([whole.as_bytes()]), whole);
    }

    #[test]
    fn it_begins_with_the_first_whole_line() {
        // Each line has 8 bytes, so 64 KiB have 8,192 of them.
        let lines: Vec<_> = (0..20_000).map(|number| format!("{number:07}\n")).collect();
        let all = lines.concat();
        for size in [1, 7, 1_000, 100_000, all.len()] {
            assert_eq!(
                kept(all.as_bytes().chunks(size)),
                lines[20_000 - 8_192..].concat()
            );
        }
        let cut = all.clone() + "x";
        assert_eq!(
            kept([cut.as_bytes()]),
            lines[20_000 - 8_191..].concat() + "x"
        );
        let cut = all + "1234567\n8";
        let end = kept([cut.as_bytes()]);
        assert!(end.starts_with("0011810\n") && end.ends_with("\n1234567\n8"));
    }

    #[test]
    fn a_longer_line_is_kept_from_its_end() {
        let line = "a\n".to_string() + &"b".repeat(LIMIT) + "c\n";
        assert_eq!(kept([line.as_bytes()]), "b".repeat(LIMIT - 2) + "c\n");
        // 64 KiB begin within a character of three bytes.
        let line = "€".repeat(LIMIT);
        assert_eq!(kept([line.as_bytes()]), "€".repeat(LIMIT / 3));
        let line = [0x80; LIMIT + 10];
        assert_eq!(kept([&line[..]]), "\u{fffd}".repeat(LIMIT - 3));
    }
}
