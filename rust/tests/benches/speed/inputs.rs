//! Outputs of tests, made of pieces.

use bstr::ByteSlice;

/// The panic at the front or at the end of an output.
pub const PANIC: &[u8] =
    b"thread 'pool::tests::grows' panicked at src/pool.rs:41:9:\nno room left\n";

/// A block of a log, of 640 bytes.
pub const LOG: &[u8] = b"\
[00:00:01.204 INFO  server::pool] accepted connection 17 from 10.0.0.4:55312 after\n\
[00:00:01.207 DEBUG server::session] the peer said 'hello', version 3, in 1.4 ms\n\
[00:00:01.209 TRACE wire::frame] read 4096 bytes: kind Data, stream 5, end false\n\
[00:00:01.215 WARN  cache::evict] can't keep entry 'users/17': 64 of 64 in use\n\
[00:00:01.218 INFO  worker] thread 'pool-3' is now waiting for work\n\
Compiling parser v0.4.2 (crates/parser, of this workspace) anew\n\
test session::tests::closes_after_timeout ... ok\n\
[00:00:01.231 ERROR wire::frame] error: stream 5 was reset by its peer\n\
[00:00:01.232 DEBUG server::pool] 3 idle, 1 busy, 0 are waiting\n";

/// A line of a log, of 64 bytes, without a quote.
const QUOTELESS_LOG: &[u8] = b"[00:00:01.209 TRACE wire::frame] read 4096 bytes, stream 5, End\n";

/// Four frames of a backtrace, of 334 bytes in all.
const FRAMES: &[u8] = b"\
\x20  0: core::panicking::panic_fmt\n\
\x20            at ./library/core/src/panicking.rs:75:14\n\
\x20  1: checks::pool::Pool::take_block\n\
\x20            at ./src/pool.rs:41:9\n\
\x20  2: checks::pool::tests::grows\n\
\x20            at ./tests/checks.rs:97:16\n\
\x20  3: core::ops::function::FnOnce::call_once\n\
\x20            at ./library/core/src/ops/function.rs:250:5\n";

/// A `thread '` prefix, 480 quotes and the end of a head. There is no head in it.
const QUOTES_IN_HEAD: &[u8] = b"\
thread 'x' started\n\
''''''''''''''''''''''''''''''''''''''''''''''''''''''''''''''''''''''''''''''''\
''''''''''''''''''''''''''''''''''''''''''''''''''''''''''''''''''''''''''''''''\
''''''''''''''''''''''''''''''''''''''''''''''''''''''''''''''''''''''''''''''''\
''''''''''''''''''''''''''''''''''''''''''''''''''''''''''''''''''''''''''''''''\
''''''''''''''''''''''''''''''''''''''''''''''''''''''''''''''''''''''''''''''''\
'''''''''''''''''''''''''''''''''''''''''''''''''''''''''''''''''''''''''''''''' panicked at \n";

/// A line that ends like the head of a panic message but is not one. Without such a line the search
/// does not look for heads.
const NO_HEAD: &[u8] = b"the worker panicked at start\n";

/// The place of the part of an output that must be extracted. It ends before the white space at the
/// end of the output.
#[derive(Clone, Copy)]
pub enum Place {
    Nowhere,
    Front,
    LastPiece,
    End,
}

/// The size in bytes for which an output has its number of pieces.
pub const FULL_SIZE: usize = 64_000_000;

/// An output: a front, a piece a number of times, and an end.
#[derive(Clone, Copy)]
pub struct Output {
    front: &'static [u8],
    piece: &'static [u8],

    /// The number of pieces in an output of 64 megabytes.
    count: usize,

    end: &'static [u8],
    part_at: Place,
}

/// Returns an output that is only a repeated piece, from which nothing is extracted.
const fn pieces(piece: &'static [u8], count: usize) -> Output {
    Output {
        front: b"",
        piece,
        count,
        end: b"",
        part_at: Place::Nowhere,
    }
}

/// Returns the same output before a line after which the search looks for heads.
const fn before_no_head(output: Output) -> Output {
    Output {
        end: NO_HEAD,
        ..output
    }
}

pub const NOTHING_FOUND: Output = pieces(LOG, 100_000);

pub const PANIC_NEAR_END: Output = Output {
    end: PANIC,
    part_at: Place::End,
    ..NOTHING_FOUND
};

pub const PANIC_AT_FRONT: Output = Output {
    front: PANIC,
    part_at: Place::Front,
    ..NOTHING_FOUND
};

pub const FALSE_OPENING: Output = Output {
    front: b"thread 'a\n",
    ..before_no_head(pieces(QUOTELESS_LOG, 1_000_000))
};

pub const HEADS: Output = Output {
    part_at: Place::LastPiece,
    ..pieces(b"thread 'main' panicked at src/lib.rs:1:1:\n", 1_000_000)
};

pub const OPENINGS: Output = before_no_head(pieces(b"thread 'a\n", 1_000_000));

pub const OPENINGS_STARTED: Output = before_no_head(pieces(b"thread 'x' started\n", 1_000_000));

pub const OPENINGS_SPACED: Output = before_no_head(pieces(
    b"thread 'a\none line\ntwo lines\nthree lines\n",
    300_000,
));

pub const QUOTES: Output = pieces(b"'", 16_000_000);

pub const NEWLINES: Output = pieces(b"\n", 16_000_000);

pub const QUOTES_IN_HEADS: Output = pieces(QUOTES_IN_HEAD, 100_000);

pub const NEAR_NOTES: Output = pieces(b"note: test did not panic as expecte_\n", 1_000_000);

pub const WHITE_SPACE: Output = Output {
    front: b"thread 'a' panicked at b",
    part_at: Place::Front,
    ..pieces(b"   \t    \n   \t   ", 4_000_000)
};

/// No byte.
pub const EMPTY: Output = pieces(b"", 0);

/// A line of 40 bytes.
pub const SHORT_LINE: Output = Output {
    end: b"read 40 entries of the table in 1.25 ms\n",
    ..EMPTY
};

/// A panic of 71 bytes after 129 bytes of a log.
pub const SHORT_PANIC: Output = Output {
    front: b"[00:00:01.204 INFO  server::pool] accepted connection 17 from 10.0.0.4:55312 after\n\
        [00:00:01.207 DEBUG server::session] the peer\n",
    count: 0,
    ..PANIC_NEAR_END
};

/// A log of 2,000 bytes.
pub const SHORT_LOG: Output = Output {
    end: b"[00:00:01.209 TRACE wire::frame] read 4096 bytes: kind Data, stream 5, end true\n",
    ..pieces(LOG, 3)
};

/// The bytes by which short output is searched for markers, 2,048 in all.
pub const SHORT_RARE: Output = pieces(b"kEx'", 512);

/// A panic before a backtrace of 2,004 bytes.
pub const SHORT_BACKTRACE: Output = Output {
    front: b"\
thread 'pool::tests::grows' panicked at src/pool.rs:41:9:\n\
no room left\n\
stack backtrace:\n",
    part_at: Place::Front,
    ..pieces(FRAMES, 6)
};

/// A panic before 3,840 bytes of a log.
pub const SHORT_PANIC_FRONT: Output = Output {
    count: 6,
    ..PANIC_AT_FRONT
};

/// An error before 3,840 bytes of a log.
pub const SHORT_ERROR_FRONT: Output = Output {
    front: b"Error: no room left\n",
    ..SHORT_PANIC_FRONT
};

impl Output {
    /// Returns the output of a size in bytes.
    pub fn bytes(&self, size: usize) -> Vec<u8> {
        [
            self.front,
            &self.piece.repeat(share(size, self.count)),
            self.end,
        ]
        .concat()
    }

    /// Returns the start and the end of the part that must be extracted from `bytes`, which is this
    /// output of some size.
    pub fn part_in(&self, bytes: &[u8]) -> Option<(usize, usize)> {
        let start = match self.part_at {
            Place::Nowhere => return None,
            Place::Front => 0,
            Place::LastPiece => bytes.len() - self.end.len() - self.piece.len(),
            Place::End => bytes.len() - self.end.len(),
        };
        Some((start, bytes.trim_ascii_end().len()))
    }
}

/// Returns the number of things in an input of `size` bytes, if one of 64 megabytes has `count`.
pub fn share(size: usize, count: usize) -> usize {
    size * count / FULL_SIZE
}

/// Reads an input once, by a search for a byte 0, which does not occur in it.
pub fn pass_over(bytes: &[u8]) {
    assert_eq!(bytes.find_byte(0), None);
}
