//! Reads what a process writes to its output streams, each in a thread of its own, until the streams end or the process
//! is over.

use crate::reading::send_all;
use std::io::{self, Read};
use std::sync::mpsc::{Receiver, RecvTimeoutError, sync_channel};
use std::thread;
use std::time::{Duration, Instant};

/// How long a stream is read in which nothing comes after the end of the process. A process in the background may keep
/// it open.
const QUIET: Duration = Duration::from_secs(2);

/// How long the streams are read after the end of the process. A process in the background may write on and on.
const LONGEST: Duration = Duration::from_secs(10);

/// How long more bytes may take to come when that time is over, if they are there.
const MOMENT: Duration = Duration::from_millis(20);

/// The most bytes that are read when that time is over. The pipes and the threads hold no more, unless they are made
/// larger.
const MOST_THERE: usize = 1 << 20;

/// The number of pieces that may wait until they are taken.
const WAITING: usize = 4;

/// The longest time between two looks at a process while nothing comes.
pub const LOOK: Duration = Duration::from_millis(100);

/// An output stream of a process.
#[derive(Clone, Copy, Debug, PartialEq, Eq)]
pub enum Stream {
    Output,
    Error,
}

/// A stream that is read.
#[derive(Debug)]
struct OpenStream {
    stream: Stream,

    /// When its last piece was taken, or else when reading began.
    last: Instant,
}

/// The output streams of a process.
#[derive(Debug)]
pub struct ProcessStreams {
    pieces: Receiver<(Stream, io::Result<Vec<u8>>)>,

    /// The streams that are still read.
    open: Vec<OpenStream>,

    /// The stream of the piece that was returned last.
    taken: Option<Stream>,

    /// When the process ended, if it has.
    ended: Option<Instant>,

    /// How many bytes are still read when the longest time is over. 0 if nothing more is there.
    left: usize,
}

impl ProcessStreams {
    /// Starts a thread for each stream that reads it.
    ///
    /// Fails if the system has no thread left.
    pub fn start<const N: usize>(
        streams: [(Stream, Box<dyn Read + Send>); N],
    ) -> io::Result<ProcessStreams> {
        let (sender, pieces) = sync_channel(WAITING);
        let mut open = Vec::new();
        for (stream, reader) in streams {
            let (sender, last) = (sender.clone(), Instant::now());
            let send = move |piece| sender.send((stream, piece));
            thread::Builder::new().spawn(move || send_all(reader, send))?;
            open.push(OpenStream { stream, last });
        }
        Ok(ProcessStreams {
            pieces,
            open,
            taken: None,
            ended: None,
            left: MOST_THERE,
        })
    }

    /// Returns the next bytes of a stream. Returns `None` if none come within the time `wait`, or if a stream ends. The
    /// piece that was returned before counts as taken now.
    ///
    /// Fails if a stream cannot be read. This stream is then at its end.
    pub fn next_piece(&mut self, wait: Duration) -> io::Result<Option<(Stream, Vec<u8>)>> {
        if let Some(taken) = self.taken.take() {
            self.note_taken(taken);
        }
        let is_late = self.is_late(Instant::now());
        let wait = if is_late { wait.min(MOMENT) } else { wait };
        let (stream, piece) = match self.pieces.recv_timeout(wait) {
            Ok((stream, piece)) => (stream, piece),
            Err(RecvTimeoutError::Timeout) => {
                if is_late {
                    self.left = 0;
                }
                return Ok(None);
            }
            Err(RecvTimeoutError::Disconnected) => {
                self.open.clear();
                return Ok(None);
            }
        };
        let bytes = piece.inspect_err(|_| self.close(stream))?;
        if bytes.is_empty() {
            self.close(stream);
        }
        if is_late {
            self.left = self.left.saturating_sub(bytes.len());
        }
        let is_open = self.open.iter().any(|it| it.stream == stream);
        if is_open {
            self.taken = Some(stream);
        }
        Ok(is_open.then_some((stream, bytes)))
    }

    /// Notes that the process has ended. Later calls change nothing.
    pub fn note_end(&mut self, now: Instant) {
        self.ended.get_or_insert(now);
    }

    /// Returns true if nothing more is read: each stream has ended, or nothing came in it for two seconds since the
    /// process ended, or ten seconds are over since then and what was there is read.
    pub fn are_over(&mut self, now: Instant) -> bool {
        if let Some(ended) = self.ended {
            let is_quiet =
                |it: &OpenStream| now.saturating_duration_since(it.last.max(ended)) >= QUIET;
            self.open.retain(|it| !is_quiet(it));
        }
        self.open.is_empty() || self.is_late(now) && self.left == 0
    }

    /// Returns true if the longest time after the end of the process is over.
    fn is_late(&self, now: Instant) -> bool {
        let since_end = self.ended.map(|ended| now.saturating_duration_since(ended));
        since_end.is_some_and(|time| time >= LONGEST)
    }

    /// Notes that a piece of a stream was taken.
    fn note_taken(&mut self, stream: Stream) {
        let taken = self.open.iter_mut().find(|it| it.stream == stream);
        if let Some(taken) = taken {
            taken.last = Instant::now();
        }
    }

    /// Reads a stream no more.
    fn close(&mut self, stream: Stream) {
        self.open.retain(|it| it.stream != stream);
    }
}

#[cfg(test)]
mod tests {
    use super::*;
    use std::io::{PipeReader, PipeWriter, Write, pipe};

    const SECOND: Duration = Duration::from_secs(1);

    /// Returns both ends of a pipe: one for the thread that reads, and one to write to.
    fn boxed_pipe() -> (Box<dyn Read + Send>, PipeWriter) {
        let (reader, writer): (PipeReader, _) = pipe().expect("a pipe opens");
        (Box::new(reader), writer)
    }

    /// Returns the streams of a process, and where it writes.
    fn streams() -> (ProcessStreams, PipeWriter, PipeWriter) {
        let ((output, output_writer), (errors, error_writer)) = (boxed_pipe(), boxed_pipe());
        let streams = ProcessStreams::start([(Stream::Output, output), (Stream::Error, errors)]);
        (streams.expect("threads start"), output_writer, error_writer)
    }

    /// Returns the next piece, which must come.
    fn next(streams: &mut ProcessStreams) -> (Stream, Vec<u8>) {
        for _ in 0..600 {
            if let Some(piece) = streams.next_piece(LOOK).expect("no read fails") {
                return piece;
            }
        }
        panic!("nothing comes");
    }

    #[test]
    fn each_piece_has_its_stream_and_both_streams_end() {
        let (mut streams, mut output, mut errors) = streams();
        output.write_all(b"a").expect("the thread reads");
        assert_eq!(next(&mut streams), (Stream::Output, b"a".to_vec()));
        errors.write_all(b"b").expect("the thread reads");
        assert_eq!(next(&mut streams), (Stream::Error, b"b".to_vec()));
        drop(output);
        let start = Instant::now();
        while streams.open.len() > 1 && start.elapsed() < 60 * SECOND {
            assert_eq!(streams.next_piece(LOOK).expect("no read fails"), None);
        }
        assert!(!streams.are_over(start + 60 * SECOND), "the process runs");
        drop(errors);
        while !streams.are_over(start) && start.elapsed() < 60 * SECOND {
            assert_eq!(streams.next_piece(LOOK).expect("no read fails"), None);
        }
        assert!(streams.are_over(start));
    }

    #[test]
    fn a_quiet_stream_is_read_for_two_seconds_after_the_end_or_its_last_piece() {
        let (mut streams, mut output, _errors) = streams();
        let ended = Instant::now();
        streams.note_end(ended);
        streams.note_end(ended + SECOND);
        assert!(!streams.are_over(ended + QUIET / 2));
        output.write_all(b"a").expect("the thread reads");
        next(&mut streams);
        assert_eq!(streams.next_piece(LOOK).expect("no read fails"), None);
        let taken = streams.open[0].last;
        assert!(taken > ended);
        assert!(!streams.are_over(ended + QUIET), "the output is read");
        assert_eq!(streams.open.len(), 1);
        assert_eq!(streams.open[0].stream, Stream::Output);
        assert!(streams.are_over(taken + QUIET));
    }

    #[test]
    fn what_is_there_is_read_although_the_longest_time_is_over() {
        let (mut streams, mut output, _errors) = streams();
        for _ in 0..3 {
            output
                .write_all(&[b'a'; 20_000])
                .expect("the pipe has room");
        }
        let now = Instant::now();
        streams.note_end(now - LONGEST);
        streams.open[0].last = now;
        let mut count = 0;
        while !streams.are_over(now) {
            if let Some((_, bytes)) = streams.next_piece(LOOK).expect("no read fails") {
                count += bytes.len();
            }
        }
        assert_eq!(count, 60_000);
    }

    #[test]
    fn a_process_that_writes_on_and_on_is_not_read_for_ever() {
        let reader: Box<dyn Read + Send> = Box::new(io::repeat(b'a'));
        let streams = ProcessStreams::start([(Stream::Output, reader)]);
        let mut streams = streams.expect("a thread starts");
        let ended = Instant::now() - LONGEST;
        streams.note_end(ended);
        let mut count = 0;
        while !streams.are_over(Instant::now()) {
            if let Some((_, bytes)) = streams.next_piece(LOOK).expect("no read fails") {
                count += bytes.len();
            }
        }
        assert!((MOST_THERE..2 * MOST_THERE).contains(&count), "{count}");
    }
}
