// Made by tools/erase from crates/output_slice/src/signs.rt. Do not edit.
//! Markers: texts that every slice of a kind contains, and the offset after which output has none.
//!
//! Most output has no marker, and then all of it is searched for each marker, block by block from
//! the end. The marker of a panic is searched for first and separately, since a panic message takes
//! precedence. The other two are searched for together, while the block is in the processor's
//! cache.

use crate::output_slice::lines::{last_byte, next_byte};
use bstr::ByteSlice;

/// The size of a block in bytes. It is small enough to stay in the processor's cache for the next
/// search.
const BLOCK_SIZE: usize = 131_072;

/// The most bytes of a block that is searched by the rare byte of a marker. For so few bytes this is
/// faster than `find` of `bstr`, which builds a searcher at each call.
const SHORT_BLOCK_SIZE: usize = 2_048;

/// The bytes that a search by a rare byte must pass for each miss, which is a rare byte that is in no marker, after the
/// first ones. With more misses `find` is faster.
const BYTES_PER_MISS: usize = 32;

/// How many first ones a search of a whole output may have.
const FREE_MISSES: u8 = 8;

/// A marker, or another text that is searched for, with the offset in it of a byte that is rare in
/// output.
#[derive(Clone, Copy)]
pub(crate) struct Sign {
    pub(crate) text: &'static [u8],
    pub(crate) rare: usize,

    /// How many misses a search may have without passing bytes for them.
    pub(crate) free_misses: u8,
}

/// The end of a panic's head.
const PANIC_SIGN: Sign = Sign {
    text: b" panicked at ",
    rare: 6,
    free_misses: FREE_MISSES,
};

/// A line feed and the start of an error.
pub(crate) const ERROR_SIGN: Sign = Sign {
    text: b"\nError: ",
    rare: 1,
    free_misses: FREE_MISSES,
};

/// The note that a test did not panic.
pub(crate) const NOTE: Sign = Sign {
    text: b"note: test did not panic as expected",
    rare: 29,
    free_misses: FREE_MISSES,
};

/// The last words of the note, which are its marker: a search for a few words is faster than for the
/// whole note.
const NOTE_SIGN: Sign = Sign {
    text: b"panic as expected",
    rare: 10,
    free_misses: FREE_MISSES,
};

/// For each stream, an offset at or after which no marker begins.
#[derive(Clone, Copy)]
pub(crate) struct QuietEnds {
    pub(crate) stdout: usize,
    pub(crate) stderr: usize,
}

/// Returns an offset that no head extends past.
pub(crate) fn heads_end(bytes: &[u8]) -> usize {
    match last_sign(bytes, PANIC_SIGN) {
        Some(at) => at + PANIC_SIGN.text.len(),
        None => 0,
    }
}

/// Returns the last offset of `sign`, or `None`.
///
/// Blocks are searched from the end. A block is four times as long as all bytes after it, up to
/// `BLOCK_SIZE`, so a marker near the end is found in few bytes.
pub(crate) fn last_sign(bytes: &[u8], sign: Sign) -> Option<usize> {
    let mut end = bytes.len();
    while end > 0 {
        let size = (bytes.len() - end)
            .saturating_mul(4)
            .clamp(SHORT_BLOCK_SIZE, BLOCK_SIZE);
        let start = end.saturating_sub(size);
        if let Some(gap) = last_match(&bytes[start..reach(bytes, sign, end)], sign) {
            return Some(start + gap);
        }
        end = start;
    }
    None
}

/// Returns the last offset of `sign` in a block.
fn last_match(block: &[u8], sign: Sign) -> Option<usize> {
    if block.len() <= SHORT_BLOCK_SIZE {
        last_by_rare_byte(block, sign)
    } else {
        last_by_find(block, sign)
    }
}

/// Returns the first offset of `sign` in a block.
fn first_match(block: &[u8], sign: Sign) -> Option<usize> {
    if block.len() <= SHORT_BLOCK_SIZE {
        first_by_rare_byte(block, sign)
    } else {
        block.find(sign.text)
    }
}

/// Returns the last offset of `sign`. The search goes forwards, since a forward search of `bstr` is
/// faster.
fn last_by_find(bytes: &[u8], sign: Sign) -> Option<usize> {
    let mut last = bytes.find(sign.text)?;
    while let Some(gap) = (&bytes[last + 1..]).find(sign.text) {
        last += gap + 1;
    }
    Some(last)
}

/// Returns the last offset of `sign`. The search goes from the end, from one rare byte to the next.
/// After too many misses it continues with `find`.
fn last_by_rare_byte(bytes: &[u8], sign: Sign) -> Option<usize> {
    let mut end = bytes.len();
    let mut misses = 0;
    while let Some(at) = last_byte(bytes, sign.text[sign.rare], end) {
        if let Some(start) = sign_around(bytes, sign, at) {
            return Some(start);
        }
        end = at;
        misses += 1;
        if are_too_many(misses, sign, bytes.len() - end) {
            return last_by_find(&bytes[..reach(bytes, sign, end)], sign);
        }
    }
    None
}

/// Returns the first offset of `sign`. The search goes from one rare byte to the next. After too many
/// misses it continues with `find`.
fn first_by_rare_byte(bytes: &[u8], sign: Sign) -> Option<usize> {
    let mut from = 0;
    let mut misses = 0;
    while let Some(at) = next_byte(bytes, sign.text[sign.rare], from) {
        if let Some(start) = sign_around(bytes, sign, at) {
            return Some(start);
        }
        from = at + 1;
        misses += 1;
        if are_too_many(misses, sign, from) {
            let rest = from.saturating_sub(sign.rare);
            let gap = (&bytes[rest..]).find(sign.text)?;
            return Some(rest + gap);
        }
    }
    None
}

/// Returns true if a search by a rare byte with these misses in the bytes that it passed is slower than
/// `find`.
fn are_too_many(misses: usize, sign: Sign, passed: usize) -> bool {
    misses > usize::from(sign.free_misses) + passed / BYTES_PER_MISS
}

/// Returns the offset of the `sign` whose rare byte is at `at`, or `None` if there is none.
fn sign_around(bytes: &[u8], sign: Sign, at: usize) -> Option<usize> {
    let start = at.checked_sub(sign.rare)?;
    if (&bytes[start..]).starts_with_str(sign.text) {
        Some(start)
    } else {
        None
    }
}

/// Returns the offsets at or after which no error and no note begins.
///
/// The search goes from the end of both streams, a block of each at a time, to the first block that
/// has a marker. If an error is at the front of `stderr`, no search is needed.
pub(crate) fn quiet_ends(stdout: &[u8], stderr: &[u8]) -> QuietEnds {
    let mut ends = QuietEnds {
        stdout: stdout.len(),
        stderr: stderr.len(),
    };
    if stderr.starts_with_str(&ERROR_SIGN.text[1..]) {
        return ends;
    }
    while ends.stdout.max(ends.stderr) > 0 {
        let starts = QuietEnds {
            stdout: ends.stdout.saturating_sub(BLOCK_SIZE),
            stderr: ends.stderr.saturating_sub(BLOCK_SIZE),
        };
        if !are_quiet_between(stdout, stderr, starts, ends) {
            return ends;
        }
        ends = starts;
    }
    ends
}

/// Returns true if no marker begins at or after `starts`, given that none does at or after `ends`.
fn are_quiet_between(stdout: &[u8], stderr: &[u8], starts: QuietEnds, ends: QuietEnds) -> bool {
    is_quiet_between(stderr, ERROR_SIGN, starts.stderr, ends.stderr)
        && is_quiet_between(stdout, NOTE_SIGN, starts.stdout, ends.stdout)
}

/// Returns true if `sign` does not begin at or after `start`, given that it does not at or after `end`.
fn is_quiet_between(bytes: &[u8], sign: Sign, start: usize, end: usize) -> bool {
    let block = &bytes[start..reach(bytes, sign, end)];
    first_match(block, sign).is_none()
}

/// Returns the offset that `sign` does not extend past if it begins before `end`.
fn reach(bytes: &[u8], sign: Sign, end: usize) -> usize {
    end.saturating_add(sign.text.len()).min(bytes.len())
}

/// Returns the first offset of `sign`, given that it does not begin at or after `end`.
pub(crate) fn first_sign(bytes: &[u8], sign: Sign, end: usize) -> Option<usize> {
    first_match(&bytes[..reach(bytes, sign, end)], sign)
}
