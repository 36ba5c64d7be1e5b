//! The extraction from an output.

use crate::Row;
use crate::inputs::{self, Output, pass_over};
use crate::timing::Work;
use deodarsieve::TestOutputErrorSlice;
use std::hint::black_box;
use std::rc::Rc;

/// The streams that an output is passed as.
#[derive(Clone, Copy)]
enum Streams {
    Stdout,
    Stderr,

    /// Both, as if they were captured as one.
    Both,
}

/// The kinds of slices, as the library for C numbers them.
const PANIC: u32 = 1;
const ERROR: u32 = 2;

/// An output, and the kind, the start and the end of the part that must be extracted from it.
struct Extraction {
    bytes: Vec<u8>,
    streams: Streams,
    part: Option<(u32, usize, usize)>,
}

impl Extraction {
    /// Returns standard output and standard error.
    fn streams(&self) -> (Option<&[u8]>, Option<&[u8]>) {
        let bytes = Some(black_box(self.bytes.as_slice()));
        match self.streams {
            Streams::Stdout => (bytes, None),
            Streams::Stderr => (None, bytes),
            Streams::Both => (bytes, bytes),
        }
    }

    /// Extracts from the output.
    fn extract(&self) {
        let (stdout, stderr) = self.streams();
        let found = TestOutputErrorSlice::heuristic_extract(stdout, stderr);
        let part = found.map(|found| {
            let (kind, part) = match found {
                TestOutputErrorSlice::PanicMessage { stderr_subslice } => (PANIC, stderr_subslice),
                TestOutputErrorSlice::ErrorStr { stderr_subslice } => (ERROR, stderr_subslice),
                other => panic!("no panic and no error: {other:?}"),
            };
            (kind, part.start, part.start + part.slice.len())
        });
        assert_eq!(part, self.part);
    }

    /// Extracts from the output with the library.
    #[cfg(feature = "archive")]
    fn extract_archived(&self) {
        use deodarsieve_archive::sys::{extract, written};
        let (stdout, stderr) = self.streams();
        let found = written(|answer| extract(stdout, stderr, answer)).expect("the status is OK");
        let part = (found.kind, found.start, found.start + found.length);
        assert_eq!((found.kind != 0).then_some(part), self.part);
    }
}

/// Returns the extraction from an output of a size in bytes.
fn work(output: &Output, streams: Streams, size: usize) -> Work {
    let bytes = output.bytes(size);
    let part = output.part_in(&bytes).map(|(start, end)| {
        let is_error = bytes[start..].starts_with(b"Error: ");
        (if is_error { ERROR } else { PANIC }, start, end)
    });
    let extraction = Rc::new(Extraction {
        bytes,
        streams,
        part,
    });
    let (called, passed) = (Rc::clone(&extraction), Rc::clone(&extraction));
    Work {
        call: Box::new(move || called.extract()),
        archived: archived!(move || extraction.extract_archived()),
        pass: Box::new(move || pass_over(&passed.bytes)),
    }
}

/// Returns the rows of short output, of at most 4,000 bytes.
fn short_rows() -> impl Iterator<Item = Row> {
    let outputs = [
        ("short-empty", inputs::EMPTY),
        ("short-line", inputs::SHORT_LINE),
        ("short-panic", inputs::SHORT_PANIC),
        ("short-log", inputs::SHORT_LOG),
        ("short-rare", inputs::SHORT_RARE),
        ("short-backtrace", inputs::SHORT_BACKTRACE),
        ("short-panic-front", inputs::SHORT_PANIC_FRONT),
        ("short-error-front", inputs::SHORT_ERROR_FRONT),
    ];
    outputs.into_iter().map(|(name, output)| {
        Row::new(name, move |_| {
            work(&output, Streams::Both, inputs::FULL_SIZE)
        })
        .with_most_passes(30.0)
    })
}

/// Returns the rows of ordinary output, of short output, and of output that is chosen to take long.
pub fn rows() -> Vec<Row> {
    let row = |streams, name, most_passes, output: Output| {
        Row::new(name, move |size| work(&output, streams, size)).with_most_passes(most_passes)
    };
    let stderr = |name, most_passes, output| row(Streams::Stderr, name, most_passes, output);
    let ordinary = [
        stderr("panic-near-end", 0.01, inputs::PANIC_NEAR_END),
        stderr("panic-at-front", 1.2, inputs::PANIC_AT_FRONT),
        stderr("nothing-found", 4.0, inputs::NOTHING_FOUND),
        stderr("false-opening", 5.0, inputs::FALSE_OPENING),
    ];
    let adverse = [
        stderr("heads", 0.01, inputs::HEADS),
        stderr("openings", 30.0, inputs::OPENINGS),
        stderr("openings-started", 30.0, inputs::OPENINGS_STARTED),
        stderr("openings-spaced", 30.0, inputs::OPENINGS_SPACED),
        stderr("quotes", 4.0, inputs::QUOTES),
        stderr("newlines", 4.0, inputs::NEWLINES),
        stderr("quotes-in-heads", 30.0, inputs::QUOTES_IN_HEADS),
        row(Streams::Stdout, "near-notes", 10.0, inputs::NEAR_NOTES),
        stderr("white-space", 30.0, inputs::WHITE_SPACE),
    ];
    ordinary
        .into_iter()
        .chain(short_rows())
        .chain(adverse)
        .collect()
}
