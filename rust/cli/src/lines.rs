//! Divides what a stream gives into lines.

use bstr::ByteSlice;
use std::mem;

/// The line of a stream that has begun.
#[derive(Debug, Default)]
pub struct Lines {
    begun: Vec<u8>,
}

impl Lines {
    /// Takes the next bytes of the stream, and passes each line that ends in them, without its line feed.
    ///
    /// Fails if `take` does.
    pub fn take<E>(
        &mut self,
        piece: &[u8],
        mut take: impl FnMut(&[u8]) -> Result<(), E>,
    ) -> Result<(), E> {
        let mut rest = piece;
        while let Some(at) = rest.find_byte(b'\n') {
            let end = &rest[..at];
            if self.begun.is_empty() {
                take(end)?;
            } else {
                let mut line = mem::take(&mut self.begun);
                line.extend_from_slice(end);
                take(&line)?;
            }
            rest = &rest[at + 1..];
        }
        self.begun.extend_from_slice(rest);
        Ok(())
    }

    /// Returns the rest of the stream at its end. It is a line unless it is empty.
    pub fn end(&mut self) -> Option<Vec<u8>> {
        let line = mem::take(&mut self.begun);
        (!line.is_empty()).then_some(line)
    }
}

#[cfg(test)]
mod tests {
    use super::*;

    /// Returns the lines of pieces, and the rest.
    fn divided<'a>(pieces: impl IntoIterator<Item = &'a [u8]>) -> (Vec<Vec<u8>>, Option<Vec<u8>>) {
        let (mut lines, mut found) = (Lines::default(), Vec::new());
        for piece in pieces {
            let taken: Result<(), ()> = lines.take(piece, |line| {
                found.push(line.to_vec());
                Ok(())
            });
            taken.expect("nothing fails");
        }
        (found, lines.end())
    }

    #[test]
    fn lines_are_the_same_wherever_the_stream_is_divided() {
        let text = b"first\n\nthird\r\nrest";
        let wanted = vec![b"first".to_vec(), Vec::new(), b"third\r".to_vec()];
        for size in 1..=text.len() {
            let found = divided(text.chunks(size));
            assert_eq!(found, (wanted.clone(), Some(b"rest".to_vec())), "{size}");
        }
        assert_eq!(divided([&b"a\n"[..]]), (vec![b"a".to_vec()], None));
        assert_eq!(divided([]), (Vec::new(), None));
    }

    #[test]
    fn no_line_follows_one_that_cannot_be_taken() {
        let mut count = 0;
        let taken = Lines::default().take(b"a\nb\nc\n", |line| {
            count += 1;
            if line == b"b" { Err("full") } else { Ok(()) }
        });
        assert_eq!((taken, count), (Err("full"), 2));
    }
}
