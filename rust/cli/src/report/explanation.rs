//! The explanation: the part of an output that says why a test failed.

use crate::report::colours::{place_after, place_before};
use crate::report::limit::Limit;
use crate::report::lines::written_count;
use deodarsieve::TestOutputErrorSlice;
use deodarsieve::counted::{HeadSpan, first_head, last_head};
use std::borrow::Cow;

/// What is found in an output.
pub(crate) struct Found<'a> {
    /// The output, without colours.
    pub(crate) output: &'a str,

    /// The slice that explains the failure.
    pub(crate) slice: Option<TestOutputErrorSlice<'a>>,

    /// The first head of a panic.
    pub(crate) first: Option<HeadSpan>,

    /// The last head of a panic.
    pub(crate) last: Option<HeadSpan>,
}

/// The part of an output that says why a test failed. The output may have colours.
#[derive(Clone, Copy)]
pub(crate) struct Explanation<'a> {
    output: &'a str,

    /// Where it begins: at the first head of a panic if several threads panicked, or else at the slice.
    start: usize,

    /// Where the slice that explains the failure begins.
    slice: usize,

    /// Where the explanation ends.
    end: usize,
}

/// What is shown of an output.
pub(crate) struct Excerpt<'a> {
    /// Its parts. If there are several, lines between them are left out.
    parts: Vec<Cow<'a, str>>,
}

impl<'a> Found<'a> {
    /// Returns what is found in an output without colours.
    pub(crate) fn of(output: &'a str) -> Found<'a> {
        let bytes = output.as_bytes();
        Found {
            output,
            slice: TestOutputErrorSlice::heuristic_extract(Some(bytes), Some(bytes)),
            first: first_head(bytes),
            last: last_head(bytes),
        }
    }

    /// Returns the slice that explains the failure as text.
    pub(crate) fn slice_text(&self) -> Option<&'a str> {
        let part = self.slice?.combined_subslice()?;
        Some(&self.output[part.start..part.start + part.slice.len()])
    }

    /// Returns true if the slice that explains the failure is a panic.
    pub(crate) fn is_panic(&self) -> bool {
        matches!(self.slice, Some(TestOutputErrorSlice::PanicMessage { .. }))
    }

    /// Returns the explanation in the output, of which `output` is the one with colours. It is the slice that explains the
    /// failure. If that is a panic, the panics before it come first, since it may be what came of the first one.
    pub(crate) fn explanation_in<'b>(&self, output: &'b str) -> Option<Explanation<'b>> {
        let part = self.slice?.combined_subslice()?;
        let head = self.first.filter(|_| self.is_panic());
        let start = head.map_or(part.start, |head| head.start.min(part.start));
        Some(Explanation {
            output,
            start: place_before(output, start),
            slice: place_before(output, part.start),
            end: place_after(output, part.start + part.slice.len()),
        })
    }
}

impl<'a> Explanation<'a> {
    /// Returns all of the explanation.
    pub(crate) fn text(self) -> &'a str {
        &self.output[self.start..self.end]
    }

    /// Returns the explanation or, if something comes before the slice and all of it is above the limit, its first two
    /// lines and the slice.
    pub(crate) fn excerpt(self, limit: Limit) -> Excerpt<'a> {
        self.excerpt_after(0, limit)
    }

    /// Returns the excerpt with as many of the lines right before it as the limit holds. `above` is what is shown above
    /// the excerpt.
    pub(crate) fn excerpt_with_lines_before(
        self,
        above: &[Cow<'_, str>],
        limit: Limit,
    ) -> Excerpt<'a> {
        let excerpt = self.excerpt(limit);
        let text = excerpt.text();
        let texts = above.iter().map(Cow::as_ref).chain([text.as_ref()]);
        match limit.left_after(texts.flat_map(|text| text.split('\n'))) {
            Some(room) => self.excerpt_after(self.size_before(room, limit), limit),
            None => excerpt,
        }
    }

    /// Returns how many bytes right before the explanation are lines that fit into `room` bytes. The first of these lines
    /// is not blank.
    fn size_before(self, room: usize, limit: Limit) -> usize {
        let Some(before) = self.output[..self.start].strip_suffix('\n') else {
            return 0;
        };
        let size = limit.fitting(before.rsplit('\n'), room);
        let lines = self.output[self.start - size..self.start].split_inclusive('\n');
        let blank = lines.take_while(|line| line.trim().is_empty());
        size - blank.map(str::len).sum::<usize>()
    }

    /// Returns the excerpt that begins this number of bytes before the explanation.
    fn excerpt_after(self, before: usize, limit: Limit) -> Excerpt<'a> {
        let Explanation {
            output,
            start,
            slice,
            end,
        } = self;
        let first = start - before;
        if start == slice || limit.holds_shown(self.text()) {
            return Excerpt::of(&output[first..end]);
        }
        let front = start + two_lines(&output[start..slice]).len();
        Excerpt {
            parts: vec![output[first..front].into(), output[slice..end].into()],
        }
    }
}

/// Returns the first two lines of a text, without the last line feed.
fn two_lines(text: &str) -> &str {
    match text.match_indices('\n').nth(1) {
        Some((end, _)) => &text[..end],
        None => text.strip_suffix('\n').unwrap_or(text),
    }
}

impl<'a> Excerpt<'a> {
    /// Returns the excerpt that is one part of an output.
    pub(crate) fn of(part: impl Into<Cow<'a, str>>) -> Excerpt<'a> {
        Excerpt {
            parts: vec![part.into()],
        }
    }

    /// Returns how many lines of the output it has that are not blank.
    pub(crate) fn written_count(&self) -> usize {
        self.parts.iter().map(|part| written_count(part)).sum()
    }

    /// Returns the parts, with a line `..` between two of them.
    pub(crate) fn text(&self) -> Cow<'a, str> {
        match self.parts.as_slice() {
            [part] => part.clone(),
            parts => parts.join("\n..\n").into(),
        }
    }
}
