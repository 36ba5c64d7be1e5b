//! The calls that devices make of readers and writers of `std`, which are fakes that keep a log of
//! their calls.

use crate::run_digest_engine::engine::{EXTRACT, OUTPUT, REPORT, RUN};
use deodarsieve_cli::program_io::device::{DeviceFailed, Sink, Source};
use deodarsieve_cli::program_io::std_device::{StdSink, StdSource};
use deodarsieve_cli::run_digest_engine::count::count;
use deodarsieve_cli::run_digest_engine::extract::extract;
use deodarsieve_cli::run_digest_engine::fault::Fault;
use std::io::{self, Read, Write};

/// A reader that returns at most `most` bytes for each call, and fails only at one call.
struct Pieces {
    bytes: &'static [u8],
    most: usize,
    fails_at: Option<usize>,
    calls: usize,
}

impl Read for Pieces {
    fn read(&mut self, buf: &mut [u8]) -> io::Result<usize> {
        let call = self.calls;
        self.calls = call + 1;
        if self.fails_at == Some(call) {
            return Err(io::ErrorKind::Interrupted.into());
        }
        let n = self.bytes.len().min(buf.len()).min(self.most);
        buf[..n].copy_from_slice(&self.bytes[..n]);
        self.bytes = &self.bytes[n..];
        Ok(n)
    }
}

/// A call of a writer: a write of a number of bytes, or a flush.
#[derive(Clone, Copy, PartialEq, Eq)]
enum Call {
    Write(usize),
    Flush,
}

/// A writer that takes at most `most` bytes for each call, and fails only at one call.
struct Log {
    most: usize,
    fails_at: Option<usize>,
    calls: Vec<Call>,
    taken: Vec<u8>,
}

impl Log {
    fn new(most: usize, fails_at: Option<usize>) -> Self {
        Self {
            most,
            fails_at,
            calls: Vec::new(),
            taken: Vec::new(),
        }
    }

    fn call(&mut self, call: Call) -> io::Result<()> {
        let fails = self.fails_at == Some(self.calls.len());
        self.calls.push(call);
        if fails {
            return Err(io::ErrorKind::Interrupted.into());
        }
        Ok(())
    }
}

impl Write for Log {
    fn write(&mut self, buf: &[u8]) -> io::Result<usize> {
        self.call(Call::Write(buf.len()))?;
        let n = buf.len().min(self.most);
        self.taken.extend_from_slice(&buf[..n]);
        Ok(n)
    }

    fn flush(&mut self) -> io::Result<()> {
        self.call(Call::Flush)
    }
}

/// Returns a reader that returns at most `most` bytes for each call.
fn reader(bytes: &'static [u8], most: usize, fails_at: Option<usize>) -> Pieces {
    Pieces {
        bytes,
        most,
        fails_at,
        calls: 0,
    }
}

/// Counts the run that is read from a reader, and writes its report to a writer.
fn counted(reader: &mut Pieces, writer: &mut Log) -> Result<bool, Fault> {
    let mut source = StdSource::new(reader);
    let mut sink = StdSink::new(writer);
    count(&mut source, &mut sink)
}

#[test]
fn new_devices_call_nothing() {
    let mut pieces = reader(RUN, 7, Some(0));
    let source = StdSource::new(&mut pieces);
    let mut log = Log::new(9, Some(0));
    let sink = StdSink::new(&mut log);
    assert!(!source.has_failed() && !sink.has_failed());
    assert!(pieces.calls == 0 && pieces.bytes == RUN && log.calls.is_empty());
}

#[test]
fn a_failed_read_is_not_tried_again() {
    // Six pieces, and one read that finds the end.
    for at in 0..8 {
        let mut pieces = reader(RUN, 7, Some(at));
        let mut log = Log::new(200, None);
        let answer = counted(&mut pieces, &mut log);
        let holds = if at < 7 {
            answer == Err(Fault::Read) && pieces.calls == at + 1 && log.calls.is_empty()
        } else {
            answer == Ok(false) && pieces.calls == 7
        };
        assert!(holds, "call {at}");
    }
}

#[test]
fn a_read_is_one_call_of_the_reader() {
    let mut pieces = reader(RUN, 7, Some(1));
    let mut source = StdSource::new(&mut pieces);
    let mut buffer = [0; 9];
    assert!(source.read(&mut buffer) == Ok(7) && buffer.starts_with(b"run 2 0"));
    assert!(source.read(&mut buffer) == Err(DeviceFailed) && source.has_failed());
    assert!(pieces.calls == 2 && pieces.bytes == &RUN[7..]);
}

#[test]
fn pieces_of_every_size_give_the_same_text() {
    for most in 1..RUN.len() + 2 {
        let mut log = Log::new(200, None);
        let answer = counted(&mut reader(RUN, most, None), &mut log);
        assert!(answer == Ok(false) && log.taken == REPORT, "{most} bytes");
    }
    for most in 1..OUTPUT.len() + 2 {
        let mut pieces = reader(OUTPUT, most, None);
        let mut source = StdSource::new(&mut pieces);
        let mut log = Log::new(200, None);
        let mut sink = StdSink::new(&mut log);
        let answer = extract(&mut source, &mut sink);
        assert!(answer == Ok(true) && log.taken == EXTRACT, "{most} bytes");
    }
}

#[test]
fn the_text_is_handed_on_and_then_flushed() {
    let whole = REPORT.len();
    let at_once = [Call::Write(whole), Call::Flush];
    // The bytes that a writer did not take are passed next.
    let in_pieces = [
        Call::Write(whole),
        Call::Write(whole - 30),
        Call::Write(whole - 60),
        Call::Flush,
    ];
    for (most, fails_at, wanted, calls, taken) in [
        (200, None, Ok(false), at_once.as_slice(), whole),
        (30, None, Ok(false), &in_pieces, whole),
        // A failed write or flush is not tried again.
        (30, Some(0), Err(Fault::Write), &in_pieces[..1], 0),
        (30, Some(1), Err(Fault::Write), &in_pieces[..2], 30),
        (30, Some(2), Err(Fault::Write), &in_pieces[..3], 60),
        (30, Some(3), Err(Fault::Write), &in_pieces, whole),
        // A write that takes no byte is a failure.
        (0, None, Err(Fault::Write), &in_pieces[..1], 0),
    ] {
        let mut log = Log::new(most, fails_at);
        let answer = counted(&mut reader(RUN, 7, None), &mut log);
        assert!(
            answer == wanted && log.calls == calls,
            "{most} bytes, {fails_at:?} fails"
        );
        assert!(
            log.taken.len() == taken && REPORT.starts_with(&log.taken),
            "{most} bytes, {fails_at:?} fails"
        );
    }
}

#[test]
fn a_flush_is_one_call_of_the_writer() {
    let mut log = Log::new(3, Some(1));
    let mut sink = StdSink::new(&mut log);
    assert!(sink.write(b"hello") == Ok(3) && sink.flush() == Err(DeviceFailed));
    assert!(sink.has_failed() && sink.flush() == Ok(()) && sink.has_failed());
    let wanted = [Call::Write(5), Call::Flush, Call::Flush];
    assert!(log.calls == wanted && log.taken == b"hel");
}

#[test]
fn a_reader_is_asked_again_after_an_error_and_at_its_end() {
    let mut pieces = reader(b"ab", 7, Some(0));
    let mut source = StdSource::new(&mut pieces);
    let mut buffer = [0; 9];
    assert!(source.read(&mut buffer) == Err(DeviceFailed));
    assert!(source.read(&mut buffer) == Ok(2) && buffer.starts_with(b"ab"));
    assert!(source.read(&mut buffer) == Ok(0) && source.read(&mut buffer) == Ok(0));
    assert!(source.has_failed());
    assert!(pieces.calls == 4);
}

#[test]
fn a_writer_is_asked_again_after_an_error() {
    let mut log = Log::new(3, Some(0));
    let mut sink = StdSink::new(&mut log);
    assert!(sink.write(b"hello") == Err(DeviceFailed));
    assert!(sink.write(b"world") == Ok(3) && sink.flush() == Ok(()) && sink.has_failed());
    let wanted = [Call::Write(5), Call::Write(5), Call::Flush];
    assert!(log.calls == wanted && log.taken == b"wor");
}
