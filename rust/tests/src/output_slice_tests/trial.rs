//! One input, searched by the slow functions and by those that are tested.

use crate::output_slice_tests::slow::{list_heads, list_taken, widened};
use deodarsieve::counted::{ByteSource, CountedBytes, HeadSpan, last_head, last_panic_head};
use deodarsieve::heuristic_panic_message;

/// The number of reads of a search, and the number of bytes of its input.
#[derive(Clone, Copy)]
pub(crate) struct Reads {
    pub(crate) count: u128,
    pub(crate) bytes: usize,
}

impl Reads {
    /// No reads of no bytes. Any other reads exceed these.
    pub(crate) const NONE: Reads = Reads { count: 0, bytes: 0 };

    /// Returns true if (count - 8) / bytes is greater than that of `other`. The products are
    /// compared.
    pub(crate) fn exceed(self, other: Reads) -> bool {
        self.beside(other) > other.beside(self)
    }

    /// Returns `count * other.bytes + 8 * bytes`, which is exact below 2^60 bytes.
    fn beside(self, other: Reads) -> u128 {
        self.count
            .saturating_mul(other.bytes as u128)
            .saturating_add(8 * self.bytes as u128)
    }
}

/// One input and its heads. The memory is used again for the next input.
#[derive(Clone)]
pub(crate) struct Trial {
    pub(crate) bytes: Vec<u8>,
    pub(crate) heads: Vec<HeadSpan>,
    pub(crate) taken: Vec<HeadSpan>,
}

impl Trial {
    pub(crate) fn new() -> Self {
        Trial {
            bytes: Vec::new(),
            heads: Vec::new(),
            taken: Vec::new(),
        }
    }

    /// Takes these bytes as the input. Their heads are not listed yet.
    pub(crate) fn take(&mut self, bytes: &[u8]) {
        self.bytes.clear();
        self.bytes.extend_from_slice(bytes);
    }

    /// Lists the heads of the bytes.
    pub(crate) fn list(&mut self) {
        list_heads(self.bytes.as_slice(), &mut self.heads);
        list_taken(self.heads.as_slice(), &mut self.taken);
    }

    /// Returns the reads of the counted search if all searches have the results of the slow
    /// functions: the last taken head, and the start of its slice. The reads must be at most three
    /// for each byte, and eight more.
    pub(crate) fn reads(&self) -> Option<Reads> {
        let bytes = self.bytes.as_slice();
        let last = self.taken.last().copied();
        let mut source = CountedBytes::new(bytes);
        let found = last_panic_head(&mut source);
        let reads = Reads {
            count: source.reads(),
            bytes: bytes.len(),
        };
        let slice = heuristic_panic_message(bytes);
        if found == last
            && last_head(bytes) == last
            && slice.map(|part| part.start) == self.slice_start()
            && reads.count <= 3 * reads.bytes as u128 + 8
        {
            Some(reads)
        } else {
            None
        }
    }

    /// Returns the start of the slice of the last taken head.
    fn slice_start(&self) -> Option<usize> {
        let head = self.taken.last()?;
        self.bytes.get(..head.start).map(widened)
    }

    /// Returns true if the slice of the last taken head begins before the head.
    pub(crate) fn is_widened(&self) -> bool {
        self.slice_start() != self.taken.last().map(|head| head.start)
    }

    /// Returns true if a head begins within another one.
    pub(crate) fn overlaps(&self) -> bool {
        self.heads.len() > self.taken.len()
    }

    /// Returns true if a head contains a line feed.
    pub(crate) fn crosses_line(&self) -> bool {
        self.heads.iter().any(|head| {
            let text = self.bytes.get(head.start..head.stop);
            text.is_some_and(|text| text.contains(&b'\n'))
        })
    }
}
