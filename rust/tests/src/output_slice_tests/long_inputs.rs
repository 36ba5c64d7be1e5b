//! Long inputs: the numbers of reads, and searches whose time must grow no faster than the input.

use deodarsieve::TestOutputErrorSlice;
use deodarsieve::counted::{ByteSource, CountedBytes, last_panic_head};

/// The name of an input, and its bytes: a front, a piece `times` times, and an end.
struct Long {
    shows: &'static str,
    front: &'static [u8],
    piece: &'static [u8],
    times: usize,
    end: &'static [u8],
}

impl Long {
    fn bytes(&self) -> Vec<u8> {
        let mut bytes = Vec::from(self.front);
        for _ in 0..self.times {
            bytes.extend_from_slice(self.piece);
        }
        bytes.extend_from_slice(self.end);
        bytes
    }
}

/// Inputs without a head, in which a search could read the same bytes over and over.
const READ: [Long; 3] = [
    Long {
        shows: "openings",
        front: b"",
        piece: b"thread '\n",
        times: 100_000,
        end: b"",
    },
    Long {
        shows: "quotes",
        front: b"",
        piece: b"'",
        times: 1_000_000,
        end: b"",
    },
    Long {
        shows: "a number without an end",
        front: b"thread 'a' (",
        piece: b"1",
        times: 1_000_000,
        end: b"",
    },
];

/// A line that contains the end of a head but is not one. Without such a line the search does not
/// look for heads.
const NO_HEAD: &[u8] = b"the worker panicked at start\n";

/// The end of a name that is not UTF-8, and the end of a head. Any `thread '` before it may be
/// crossed by a head up to here.
const NO_NAME: &[u8] = b"\xFF' panicked at start\n";

/// Inputs on which a search would not end in time if it looked through the rest of the input at
/// every `thread '` or at every window, or if it compared all heads with each other.
const SEARCHED: [Long; 7] = [
    Long {
        shows: "openings alone",
        front: b"",
        piece: b"thread '\n",
        times: 1_000_000,
        end: b"",
    },
    Long {
        shows: "openings, of which each may go on to the next: one window",
        front: b"",
        piece: b"thread '\n",
        times: 1_000_000,
        end: NO_NAME,
    },
    Long {
        shows: "the same, set apart by text",
        front: b"",
        piece: b"thread 'a\none line\ntwo lines\nthree lines\n",
        times: 1_000_000,
        end: NO_NAME,
    },
    Long {
        shows: "heads",
        front: b"",
        piece: b"thread 'a' panicked at \n",
        times: 1_000_000,
        end: b"",
    },
    Long {
        shows: "lines that open no head: a million windows",
        front: b"",
        piece: b"thread 'x' has panicked at \n",
        times: 1_000_000,
        end: NO_HEAD,
    },
    Long {
        shows: "the same, set apart by text",
        front: b"",
        piece: b"thread 'x' has panicked at \n\none line\n",
        times: 1_000_000,
        end: NO_HEAD,
    },
    Long {
        shows: "a head before all of these windows",
        front: b"thread 'a' panicked at b\n",
        piece: b"thread 'x' has panicked at \n",
        times: 1_000_000,
        end: NO_HEAD,
    },
];

/// Prints for each of the inputs to be read whether a head is found, and whether there are few
/// reads: at most three for each byte, and eight more.
pub(crate) fn few_reads() {
    println!("reads of long inputs");
    for long in &READ {
        let bytes = long.bytes();
        let mut source = CountedBytes::new(bytes.as_slice());
        let has_head = last_panic_head(&mut source).is_some();
        let are_few = source.reads() <= 3 * bytes.len() as u128 + 8;
        println!("  {}: a head: {has_head}, few reads: {are_few}", long.shows);
    }
}

/// Prints for each of the inputs to be searched the start and the length of the slice that is
/// found.
pub(crate) fn linear_time() {
    println!("searches of long inputs");
    for long in &SEARCHED {
        let bytes = long.bytes();
        let found = TestOutputErrorSlice::heuristic_extract(None, Some(bytes.as_slice()));
        match found.and_then(|found| found.stderr_subslice()) {
            Some(part) => {
                println!(
                    "  {}: {}, {} bytes",
                    long.shows,
                    part.start,
                    part.slice.len()
                );
            }
            None => println!("  {}: nothing", long.shows),
        }
    }
}
