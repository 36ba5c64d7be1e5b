//! Slices of long outputs, whose searches go block by block from the end.

use deodarsieve::{
    ByteSubslice, TestOutputErrorSlice, heuristic_error_str, heuristic_panic_message,
    heuristic_should_panic,
};

/// A line of a log, of 64 bytes.
const LINE: &[u8] = b"[00:00:01.209 TRACE wire::frame] read 4096 bytes, kind Headers.\n";

/// The number of lines in four megabytes.
const LINES: usize = 65_536;

/// The numbers of lines before and after a message.
const PLACES: [(usize, usize); 3] = [(0, LINES), (LINES / 2, LINES / 2), (LINES, 0)];

/// Returns a log with a message after `before` lines.
fn log_with(message: &[u8], (before, after): (usize, usize)) -> Vec<u8> {
    [&LINE.repeat(before), message, &LINE.repeat(after)].concat()
}

/// Returns the slice of combined output.
fn extracted(output: &[u8]) -> Option<TestOutputErrorSlice<'_>> {
    TestOutputErrorSlice::heuristic_extract(Some(output), Some(output))
}

/// Returns the part of an output from the line of a number to the white space at the end.
fn from_line(output: &[u8], line: usize) -> ByteSubslice<'_> {
    let start = line * LINE.len();
    ByteSubslice {
        slice: output[start..].trim_ascii_end(),
        start,
    }
}

#[test]
fn a_panic_is_found_at_each_place() {
    for place in PLACES {
        let output = log_with(b"thread 'a' panicked at src/lib.rs:1:1:\nwhy\n", place);
        let stderr_subslice = from_line(&output, place.0);
        let wanted = TestOutputErrorSlice::PanicMessage { stderr_subslice };
        assert!(extracted(&output) == Some(wanted), "{place:?}");
    }
}

#[test]
fn an_error_is_found_at_each_place() {
    for place in PLACES {
        let output = log_with(b"Error: why\n", place);
        let stderr_subslice = from_line(&output, place.0);
        let wanted = TestOutputErrorSlice::ErrorStr { stderr_subslice };
        assert!(extracted(&output) == Some(wanted), "{place:?}");
    }
}

#[test]
fn a_note_is_found_at_each_place() {
    let note = b"note: test did not panic as expected at src/lib.rs:1:1\n";
    for place in PLACES {
        let output = log_with(note, place);
        let stdout_subslice = ByteSubslice {
            slice: note.trim_ascii_end(),
            start: place.0 * LINE.len(),
        };
        let wanted = TestOutputErrorSlice::ShouldPanic { stdout_subslice };
        assert!(extracted(&output) == Some(wanted), "{place:?}");
    }
}

#[test]
fn a_log_without_a_message_has_no_slice() {
    let output = LINE.repeat(LINES);
    assert!(extracted(&output).is_none());
}

/// The numbers of bytes after the borders of the first blocks, for a panic, and for an error or a
/// note.
const BORDERS: [usize; 7] = [2_048, 10_240, 51_200, 131_072, 182_272, 262_144, 313_344];

/// Returns a log of 400,000 bytes with a message at each place around the borders of blocks.
fn at_borders(message: &[u8]) -> impl Iterator<Item = (Vec<u8>, usize)> {
    let log: Vec<u8> = LINE.iter().copied().cycle().take(400_000).collect();
    BORDERS.into_iter().flat_map(move |border| {
        let log = log.clone();
        let message = message.to_vec();
        (0..message.len() + 2).map(move |after| {
            let start = log.len() - border - after;
            let mut output = log.clone();
            output[start - 1] = b'\n';
            output[start..start + message.len()].copy_from_slice(&message);
            (output, start)
        })
    })
}

#[test]
fn a_panic_at_the_border_of_a_block_is_found() {
    for (output, start) in at_borders(b"thread 'a' panicked at src/lib.rs:1:1:\n") {
        let part = heuristic_panic_message(&output).expect("there is a panic");
        assert_eq!(part.start, start);
    }
}

#[test]
fn an_error_at_the_border_of_a_block_is_found() {
    for (output, start) in at_borders(b"Error: why\n") {
        let found = extracted(&output).and_then(|found| found.stderr_subslice());
        assert_eq!(found.expect("there is an error").start, start);
    }
}

#[test]
fn a_note_at_the_border_of_a_block_is_found() {
    for (output, start) in at_borders(b"note: test did not panic as expected\n") {
        let found = extracted(&output).and_then(|found| found.stdout_subslice());
        assert_eq!(found.expect("there is a note").start, start);
    }
}

#[test]
fn the_last_panic_of_a_long_block_is_found() {
    let message = b"thread 'a' panicked at src/lib.rs:1:1:\n";
    for count in 1..10 {
        let output = [message.repeat(count), LINE.repeat(100)].concat();
        let part = heuristic_panic_message(&output).expect("there is a panic");
        assert_eq!(part.start, (count - 1) * message.len());
    }
}

/// A search by a rare byte gives up after many of these bytes, and what it looks for is still found.
#[test]
fn a_message_among_many_rare_bytes_is_found() {
    let panic = "thread 'a' panicked at src/lib.rs:1:1:\n";
    let note = "note: test did not panic as expected\n";
    let rares = ["k", "E", "x", "'", "kEx'"];
    let counts = [8, 9, 10, 40, 400];
    for many in rares
        .iter()
        .flat_map(|rare| counts.map(|count| rare.repeat(count)))
    {
        let after = many.len() + 1;
        let start = |part: Option<ByteSubslice<'_>>| part.map(|part| part.start);
        let output = format!("{many}\n{panic}{panic}{many}\n");
        let found = heuristic_panic_message(output.as_bytes());
        assert_eq!(start(found), Some(after + panic.len()), "{output}");
        let output = format!("{many}\n{panic}thread 'x' started\n{many} panicked at \n");
        let found = heuristic_panic_message(output.as_bytes());
        assert_eq!(start(found), Some(after), "{output}");
        let output = format!("{many}\nError: why\n{many}\nError: no\n");
        let found = heuristic_error_str(output.as_bytes());
        assert_eq!(start(found), Some(after), "{output}");
        let output = format!("{many}\n{note}{many}\n{note}");
        let found = heuristic_should_panic(output.as_bytes());
        assert_eq!(start(found), Some(after), "{output}");
    }
}
