//! How much is shown of a text of a test: the middle of a text above the limit is left out, and that of a long line.
//! Sequences that set styles do not count as bytes, and none is divided.

use crate::report::colours::{front_and_end, shown_size, without_colours};
use crate::report::escape::front;
use crate::report::options::{Options, OutputDisplay};
use crate::report::words::counted;
use std::borrow::Cow;

/// A line with more bytes than this is long.
const LONG_LINE: usize = 512;

/// How many bytes at the front of a long line are shown.
const FRONT: usize = 384;

/// How many bytes at the end of a long line are shown.
const END: usize = 96;

/// How many bytes at the front of a long line are shown if it first differs from another one further on.
const FRONT_OF_CHANGE: usize = 96;

/// How many bytes are shown before and after the place in which it differs.
const AROUND: [usize; 2] = [64, 192];

/// How many bytes a diff has before each line.
const SIGN: usize = 2;

/// What is between the number of bytes in the middle of a long line and its end.
const BYTES: &str = " bytes .. ";

/// How long lines are shown.
#[derive(Clone, Copy, Debug, PartialEq, Eq)]
pub(crate) enum LongLines {
    /// As their fronts and their ends.
    Cut,

    /// Whole.
    Whole,
}

impl LongLines {
    /// Returns how lines of this much of an output are shown.
    pub(crate) fn of(output: OutputDisplay) -> LongLines {
        match output {
            OutputDisplay::Auto | OutputDisplay::Short => LongLines::Cut,
            OutputDisplay::Whole => LongLines::Whole,
        }
    }

    /// Returns what is shown of a line. Of a long one this is its front, the number of bytes in its middle, and its end.
    fn line(self, line: &str) -> Cow<'_, str> {
        if !self.cuts(line) {
            return line.into();
        }
        let plain = without_colours(line);
        let front = plain.floor_char_boundary(FRONT);
        let end = plain.ceil_char_boundary(plain.len() - END);
        let middle = end - front;
        let (front, end) = front_and_end(line, front, end);
        format!("{front} .. {middle}{BYTES}{end}").into()
    }

    /// Returns what is shown of the lines of a text. If it is borrowed, it is the text itself.
    pub(crate) fn lines(self, text: &str) -> Cow<'_, str> {
        if !text.split('\n').any(|line| self.cuts(line)) {
            return text.into();
        }
        let mut lines = String::new();
        for line in text.split_inclusive('\n') {
            match line.strip_suffix('\n') {
                Some(line) => lines.extend([&self.line(line), "\n"]),
                None => lines.push_str(&self.line(line)),
            }
        }
        lines.into()
    }

    /// Returns true if not all of a line is shown.
    fn cuts(self, line: &str) -> bool {
        match self {
            LongLines::Cut => line.len() > LONG_LINE && shown_size(line) > LONG_LINE,
            LongLines::Whole => false,
        }
    }
}

/// Returns false only if all lines of a text that is shown are whole.
pub(crate) fn may_have_cut_lines(shown: &str) -> bool {
    shown.contains(BYTES)
}

/// Returns true if a diff of two lines shows only a part of one, and the front of a long line would not show where they
/// differ. The lines have no colours.
pub(crate) fn cuts_alike(left: &str, right: &str) -> bool {
    let size = left.len().max(right.len()) + SIGN;
    let same = equal_front(left, right);
    size > LONG_LINE && left != right && SIGN + same + AROUND[1] > FRONT
}

/// Returns how many bytes at the front of two texts are equal, in whole characters.
fn equal_front(left: &str, right: &str) -> usize {
    let pairs = left.chars().zip(right.chars());
    let equal = pairs.take_while(|(left, right)| left == right);
    equal.map(|(c, _)| c.len_utf8()).sum()
}

/// Returns what a diff shows of a line that replaces another one or is replaced by it. If it is long, and would be cut
/// before they differ, this is its front, what is around the first place in which they differ, and its end. The lines have
/// no colours.
pub(crate) fn shown_change<'a>(line: &'a str, other: &str) -> Cow<'a, str> {
    if line.len() + SIGN <= LONG_LINE || !cuts_alike(line, other) {
        return line.into();
    }
    let (place, [before, after]) = (equal_front(line, other), AROUND);
    let parts = [
        0..FRONT_OF_CHANGE,
        place.saturating_sub(before)..place + after,
        line.len() - END..line.len(),
    ];
    let (mut shown, mut next) = (String::new(), 0);
    for part in parts {
        let start = line.ceil_char_boundary(part.start);
        let end = line.floor_char_boundary(part.end);
        if start > next {
            shown.push_str(&format!(" .. {}{BYTES}", start - next));
            next = start;
        }
        if end > next {
            shown.push_str(&line[next..end]);
            next = end;
        }
    }
    shown.into()
}

/// How much is shown of a text.
#[derive(Clone, Copy)]
pub(crate) struct Limit {
    /// The greatest number of bytes, before escapes.
    bytes: usize,

    /// How long lines count.
    counted: LongLines,

    /// How long lines are written.
    written: LongLines,
}

impl Limit {
    /// Returns how much is shown of why a test failed. Of the options it uses only `limit` and `output`.
    pub(crate) fn of(options: Options) -> Limit {
        let lines = LongLines::of(options.output);
        Limit {
            bytes: options.limit,
            counted: lines,
            written: lines,
        }
    }

    /// Returns the limit of this number of bytes. Long lines are cut, because a single one could be longer.
    pub(crate) fn within(bytes: usize) -> Limit {
        Limit {
            bytes,
            counted: LongLines::Cut,
            written: LongLines::Cut,
        }
    }

    /// Returns how much is shown of the output of a test that passed: all of it, unless a limit is given.
    pub(crate) fn of_passed(options: Options) -> Limit {
        let output = match options.passed_limit {
            usize::MAX => OutputDisplay::Whole,
            _ => options.output,
        };
        Limit::of(Options {
            limit: options.passed_limit,
            output,
            ..options
        })
    }

    /// Returns the limit with which the same lines are shown, each of them whole.
    pub(crate) fn with_whole_lines(self) -> Limit {
        Limit {
            written: LongLines::Whole,
            ..self
        }
    }

    /// Returns true if a text has no more bytes than the limit.
    pub(crate) fn holds(self, text: &str) -> bool {
        text.len() <= self.bytes || shown_size(text) <= self.bytes
    }

    /// Returns true if the lines of a text, as they are shown, have no more bytes than the limit.
    pub(crate) fn holds_shown(self, text: &str) -> bool {
        self.holds(text) || self.left_after(text.split('\n')).is_some()
    }

    /// Returns how many bytes of the limit are left after these lines, or `None` if they are above it.
    pub(crate) fn left_after<'a>(self, mut lines: impl Iterator<Item = &'a str>) -> Option<usize> {
        // No line feed comes before the first line.
        let most = self.bytes.saturating_add(1);
        lines.try_fold(most, |left, line| left.checked_sub(self.size(line)))
    }

    /// Returns how many bytes the first lines of a text have that fit into `room` bytes. The lines come in the order in
    /// which they are taken. Each counts with a line feed, the last line of a text too.
    pub(crate) fn fitting<'a>(
        self,
        lines: impl Iterator<Item = &'a str>,
        mut room: usize,
    ) -> usize {
        let mut bytes = 0;
        for line in lines {
            let Some(left) = room.checked_sub(self.size(line)) else {
                break;
            };
            room = left;
            bytes += line.len() + 1;
        }
        bytes
    }

    /// Returns how many bytes are shown of a line and its line feed.
    fn size(self, line: &str) -> usize {
        shown_size(&self.counted.line(line)) + 1
    }

    /// Returns what is shown of a text: all of it or, if it is above the limit, as many lines of its front as half of
    /// the limit holds, the number of lines in its middle, and as many lines of its end. If it is borrowed, it is the
    /// text itself.
    pub(crate) fn shown(self, text: &str) -> Cow<'_, str> {
        let Some((front, end)) = self.ends(text) else {
            return self.written.lines(text);
        };
        let middle = &text.as_bytes()[front.len()..text.len() - end.len()];
        // A line feed is before each line of the middle, and after the last one.
        let lines = middle.iter().filter(|byte| **byte == b'\n').count() - 1;
        let (front, end) = (self.written.lines(front), self.written.lines(end));
        format!("{front}\n({})\n{end}", counted(lines, "line")).into()
    }

    /// Returns the front and the end of a text above the limit, each of at least one line, or `None` if there is nothing
    /// to leave out between them.
    fn ends(self, text: &str) -> Option<(&str, &str)> {
        if self.holds_shown(text) {
            return None;
        }
        let half = self.bytes / 2 + 1;
        let line = |line: Option<&str>| line.map_or(0, str::len);
        let (first, last) = (text.split('\n').next(), text.rsplit('\n').next());
        let front = self.fitting(text.split('\n'), half).max(line(first) + 1) - 1;
        let end = self.fitting(text.rsplit('\n'), half).max(line(last) + 1) - 1;
        let has_middle = front + 1 + end < text.len();
        has_middle.then(|| (&text[..front], &text[text.len() - end..]))
    }

    /// Returns what is shown of a short reason, which is one line.
    pub(crate) fn short(self, reason: &str) -> Cow<'_, str> {
        match self.written.line(reason) {
            Cow::Borrowed(line) => front(line, self.bytes).into(),
            Cow::Owned(line) => front(&line, self.bytes).to_string().into(),
        }
    }
}
