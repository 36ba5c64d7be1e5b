//! Devices over memory.

use deodarsieve_cli::program_io::device::{DeviceFailed, Sink, Source};
use deodarsieve_cli::program_io::memory_device::{MemorySink, MemorySource};

#[test]
fn a_source_is_read_in_pieces_and_fails_at_one_read() {
    let failure = (Err(DeviceFailed), b"----");
    let pieces = [
        (Ok(4), b"0123"),
        (Ok(4), b"4567"),
        (Ok(2), b"8967"),
        (Ok(0), b"8967"),
    ];
    let [first, second, third, end] = pieces;
    for (fails_at, calls) in [
        (None, pieces),
        (Some(0), [failure, first, second, third]),
        (Some(1), [first, failure, second, third]),
        (Some(4), [first, second, third, end]),
    ] {
        let mut source = MemorySource::new(b"0123456789", fails_at);
        let mut buffer = [0; 4];
        let mut failed = false;
        for (wanted, bytes) in calls {
            assert!(source.has_failed() == failed, "{fails_at:?}");
            let answer = source.read(&mut buffer);
            failed |= answer.is_err();
            assert!(
                answer == wanted && (answer.is_err() || buffer.as_slice() == bytes.as_slice()),
                "{fails_at:?}"
            );
        }
        assert!(source.has_failed() == failed, "{fails_at:?}");
    }
}

#[test]
fn a_sink_keeps_its_room_after_a_failed_write() {
    let mut buffer = [0; 10];
    let mut sink = MemorySink::new(&mut buffer, Some(0));
    assert!(!sink.has_failed() && sink.written().is_empty());
    for (text, wanted, written) in [
        (b"hello".as_slice(), Err(DeviceFailed), b"".as_slice()),
        (b"hello", Ok(5), b"hello"),
        (b"worlds", Ok(5), b"helloworld"),
        (b"s", Err(DeviceFailed), b"helloworld"),
    ] {
        assert!(
            sink.write(text) == wanted && sink.flush() == Ok(()) && sink.written() == written,
            "{text:?}"
        );
        assert!(sink.has_failed());
    }
}
