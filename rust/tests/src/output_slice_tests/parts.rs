//! The parts of each stream, and their text.

use deodarsieve::{ByteSubslice, TestOutputErrorSlice};

/// An error whose text is not UTF-8.
const ERROR: &[u8] = b"Error: \xc3\xa9 \xff\xe2\x80";

/// A note between two lines.
const NOTE: &[u8] = b"a\r\nnote: test did not panic as expected\r\nb";

/// Prints the start and the length of a part of a stream.
fn print_part(stream: &str, found: Option<ByteSubslice<'_>>) {
    match found {
        Some(part) => {
            println!("  {stream}: {}, {} bytes", part.start, part.slice.len());
        }
        None => {
            println!("  {stream}: no part");
        }
    }
}

/// Prints the text of what was found, and its part of each stream.
fn print_parts(found: TestOutputErrorSlice<'_>) {
    println!("parts of {found}");
    print_part("standard error", found.stderr_subslice());
    print_part("standard output", found.stdout_subslice());
    print_part("combined", found.combined_subslice());
}

/// Prints the parts that are found in each stream.
pub(crate) fn parts_of_each_stream() {
    for (stdout, stderr) in [(None, Some(ERROR)), (Some(NOTE), None)] {
        match TestOutputErrorSlice::heuristic_extract(stdout, stderr) {
            Some(found) => print_parts(found),
            None => println!("nothing is extracted"),
        }
    }
}
