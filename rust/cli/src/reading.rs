//! Reads the files of a run in a thread of its own, so that the program can act while no line comes.

use std::io::{self, ErrorKind, Read};
use std::sync::mpsc::{Receiver, RecvTimeoutError, sync_channel};
use std::thread;
use std::time::Duration;

/// The most bytes that are read at once. A pipe of Linux holds as many.
const PIECE: usize = 65_536;

/// The number of pieces that may wait until the program takes them.
const WAITING: usize = 4;

/// A reader that a thread reads to its end.
#[derive(Debug)]
pub struct Reading {
    pieces: Receiver<io::Result<Vec<u8>>>,
}

impl Reading {
    /// Starts a thread that reads.
    ///
    /// Fails if the system has no thread left.
    pub fn start(reader: impl Read + Send + 'static) -> io::Result<Reading> {
        let (sender, pieces) = sync_channel(WAITING);
        thread::Builder::new().spawn(move || send_all(reader, |piece| sender.send(piece)))?;
        Ok(Reading { pieces })
    }

    /// Returns the next bytes, or an empty piece at the end. Waits for them, but at most for the time `wait` if
    /// there is one. Returns `None` if that time is over.
    ///
    /// Fails if the reader does.
    pub fn next_piece(&self, wait: Option<Duration>) -> io::Result<Option<Vec<u8>>> {
        let received = match wait {
            Some(wait) => self.pieces.recv_timeout(wait),
            None => self.pieces.recv().map_err(RecvTimeoutError::from),
        };
        match received {
            Ok(piece) => piece.map(Some),
            Err(RecvTimeoutError::Timeout) => Ok(None),
            Err(RecvTimeoutError::Disconnected) => Ok(Some(Vec::new())),
        }
    }
}

/// Sends the pieces of a reader until it ends or fails, or until nobody takes them any more. The last one is an error, or
/// is empty.
pub fn send_all<E>(mut reader: impl Read, send: impl Fn(io::Result<Vec<u8>>) -> Result<(), E>) {
    loop {
        let mut piece = vec![0; PIECE];
        let read = reader.read(&mut piece).map(|count| {
            piece.truncate(count);
            piece
        });
        let is_last = match &read {
            Ok(piece) => piece.is_empty(),
            Err(error) if error.kind() == ErrorKind::Interrupted => continue,
            Err(_) => true,
        };
        if send(read).is_err() || is_last {
            return;
        }
    }
}

#[cfg(test)]
mod tests {
    use super::*;

    /// A reader of some pieces, which then fails or ends.
    struct Pieces {
        left: Vec<io::Result<&'static [u8]>>,
    }

    impl Read for Pieces {
        fn read(&mut self, buffer: &mut [u8]) -> io::Result<usize> {
            match self.left.pop() {
                Some(Ok(mut piece)) => piece.read(buffer),
                Some(Err(error)) => Err(error),
                None => Ok(0),
            }
        }
    }

    #[test]
    fn the_pieces_come_in_order_and_then_the_end() {
        let left = vec![Ok(&b"second"[..]), Ok(&b"first"[..])];
        let reading = Reading::start(Pieces { left }).expect("a thread starts");
        for wanted in [&b"first"[..], b"second", b"", b""] {
            let piece = reading.next_piece(None).expect("the reader does not fail");
            assert_eq!(piece.as_deref(), Some(wanted));
        }
    }

    #[test]
    fn an_interrupted_read_is_repeated_and_another_error_is_returned() {
        let interrupted = || Err(ErrorKind::Interrupted.into());
        let left = vec![
            Err(ErrorKind::ConnectionReset.into()),
            interrupted(),
            Ok(&b"a"[..]),
            interrupted(),
        ];
        let reading = Reading::start(Pieces { left }).expect("a thread starts");
        assert_eq!(
            reading.next_piece(None).expect("bytes come"),
            Some(b"a".to_vec())
        );
        let error = reading.next_piece(None).expect_err("the reader fails");
        assert_eq!(error.kind(), ErrorKind::ConnectionReset);
    }

    #[test]
    fn a_wait_without_input_ends() {
        let (reader, writer) = io::pipe().expect("a pipe opens");
        let reading = Reading::start(reader).expect("a thread starts");
        let wait = Some(Duration::from_millis(10));
        assert_eq!(reading.next_piece(wait).expect("no read fails"), None);
        drop(writer);
        assert_eq!(
            reading.next_piece(None).expect("no read fails"),
            Some(Vec::new())
        );
    }
}
