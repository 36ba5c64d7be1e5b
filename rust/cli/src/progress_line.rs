//! The line on standard error that shows the progress of the run.

use crate::report_text::ReportText;
use std::cell::RefCell;
use std::collections::VecDeque;
use std::io::{self, Stderr, Write};
use std::time::{Duration, Instant};

/// The least time between two writes of the line.
const SHORTEST_PAUSE: Duration = Duration::from_millis(100);

/// The time after which the line is written again although nothing has changed.
pub const LONGEST_PAUSE: Duration = Duration::from_secs(1);

/// A line on a terminal. While it is shown, the cursor is at its end.
#[derive(Debug)]
pub struct ProgressLine<T> {
    terminal: T,

    /// The text on the terminal, or `None` if the line is hidden.
    shown: Option<String>,

    /// When the line was last written, or found to be up to date.
    written: Option<Instant>,

    /// True if input was read or text was written above the line since then.
    is_stale: bool,
}

impl<T: Write> ProgressLine<T> {
    /// Returns a line that is hidden.
    pub fn new(terminal: T) -> ProgressLine<T> {
        ProgressLine {
            terminal,
            shown: None,
            written: None,
            is_stale: false,
        }
    }

    /// Notes that input was read, so that the line may have to change.
    pub fn note_input(&mut self) {
        self.is_stale = true;
    }

    /// Returns how long after `now` the line is due, or `None` if no input was read yet.
    pub fn time_until_due(&self, now: Instant) -> Option<Duration> {
        let Some(written) = self.written else {
            return self.is_stale.then_some(Duration::ZERO);
        };
        let pause = if self.is_stale {
            SHORTEST_PAUSE
        } else {
            LONGEST_PAUSE
        };
        Some((written + pause).saturating_duration_since(now))
    }

    /// Writes the line if it is due. A line that is due because of input is not written if its text is still
    /// the same.
    pub fn refresh(&mut self, now: Instant, text: impl FnOnce() -> ReportText) {
        if self.time_until_due(now) != Some(Duration::ZERO) {
            return;
        }
        let text = text();
        let text = text.as_str();
        if !self.is_stale || self.shown.as_deref() != Some(text) {
            // The terminal cuts the text at its width, because the line does not wrap.
            self.write(&format!("\r\u{1b}[K\u{1b}[?7l{text}\u{1b}[?7h"));
            self.shown = Some(text.to_string());
        }
        self.written = Some(now);
        self.is_stale = false;
    }

    /// Hides the line, because text is written in its place. It is due again a tenth of a second after it was
    /// last written.
    pub fn hide(&mut self) {
        if self.shown.take().is_some() {
            self.write("\r\u{1b}[K");
            self.is_stale = true;
        }
    }

    /// Writes a message above the line.
    pub fn say(&mut self, message: &str) {
        self.hide();
        let mut text = ReportText::new();
        text.push(message);
        text.push("\n");
        self.write(text.as_str());
    }

    /// Writes a text to the terminal. If that fails, the text is missing and the report continues.
    fn write(&mut self, text: &str) {
        let _ = self.terminal.write_all(text.as_bytes());
    }
}

/// When the running tests started. The time of a start is that of the first look at the run after it.
#[derive(Debug, Default)]
pub struct StartTimes {
    /// How many tests had started at a look, and when that was. A look is here if a test had started since the
    /// look before, until all tests that had started by then are over.
    looks: VecDeque<(usize, Instant)>,

    /// The number of tests that had started at the last look.
    started: usize,
}

impl StartTimes {
    /// Looks at the run, and returns for how many whole seconds the test has been running that started first. 0 if
    /// no test is running. `started` tests have started, and `first` of them started before that test.
    pub fn seconds(&mut self, started: usize, first: Option<usize>, now: Instant) -> u64 {
        if self.started < started {
            self.looks.push_back((started, now));
            self.started = started;
        }
        let over = first.unwrap_or(started);
        while self.looks.front().is_some_and(|look| look.0 <= over) {
            self.looks.pop_front();
        }
        match self.looks.front() {
            Some((_, start)) => now.saturating_duration_since(*start).as_secs(),
            None => 0,
        }
    }
}

/// A writer that hides the line before it writes. Several of them share one line.
#[derive(Debug)]
pub struct Output<'a, W> {
    writer: W,

    /// The line of progress, on standard error.
    line: &'a RefCell<ProgressLine<Stderr>>,
}

impl<'a, W> Output<'a, W> {
    /// Returns a writer that shares a terminal with a line.
    pub fn new(writer: W, line: &'a RefCell<ProgressLine<Stderr>>) -> Output<'a, W> {
        Output { writer, line }
    }

    /// Returns the writer.
    pub fn into_writer(self) -> W {
        self.writer
    }
}

impl<W: Write> Write for Output<'_, W> {
    fn write(&mut self, buffer: &[u8]) -> io::Result<usize> {
        self.line.borrow_mut().hide();
        self.writer.write(buffer)
    }

    fn flush(&mut self) -> io::Result<()> {
        self.writer.flush()
    }
}

#[cfg(test)]
mod tests {
    use super::*;

    /// Returns a text.
    fn text_of(pushed: &str) -> ReportText {
        let mut text = ReportText::new();
        text.push(pushed);
        text
    }

    /// Runs the line for some milliseconds, and returns when it was due: at each time in `input` a text is
    /// read, and at each time in `above` text is written above the line.
    fn due_times(milliseconds: u64, input: &[u64], above: &[u64]) -> Vec<u64> {
        let (mut line, start) = (ProgressLine::new(io::sink()), Instant::now());
        let mut due = Vec::new();
        for time in 0..milliseconds {
            if above.contains(&time) {
                line.hide();
            }
            if input.contains(&time) {
                line.note_input();
            }
            let now = start + Duration::from_millis(time);
            line.refresh(now, || {
                due.push(time);
                text_of(&format!("the text at {time}"))
            });
        }
        due
    }

    #[test]
    fn there_is_no_line_before_the_first_input() {
        assert!(due_times(3_000, &[], &[]).is_empty());
    }

    #[test]
    fn the_line_follows_the_input_ten_times_a_second_at_most() {
        let each_time: Vec<u64> = (0..1_000).collect();
        let tenths: Vec<u64> = (0..1_000).step_by(100).collect();
        assert_eq!(due_times(1_000, &each_time, &[]), tenths);
    }

    #[test]
    fn the_last_change_is_shown_after_a_tenth_of_a_second_at_most() {
        assert_eq!(due_times(1_000, &[5, 6, 7], &[]), [5, 105]);
        assert_eq!(due_times(1_000, &[5, 300], &[]), [5, 300]);
    }

    #[test]
    fn without_input_the_line_is_written_once_a_second() {
        assert_eq!(due_times(3_500, &[5], &[]), [5, 1_005, 2_005, 3_005]);
    }

    #[test]
    fn the_line_is_shown_again_after_text_above_it() {
        assert_eq!(due_times(1_000, &[5], &[50]), [5, 105]);
        assert_eq!(due_times(1_000, &[5], &[400]), [5, 400]);
    }

    #[test]
    fn the_seconds_of_a_test_count_from_its_start() {
        let (mut times, start) = (StartTimes::default(), Instant::now());
        let mut seconds =
            |at, started, first| times.seconds(started, first, start + Duration::from_millis(at));
        // Two tests start, a third one a second later, and a fourth one.
        assert_eq!(seconds(0, 2, Some(0)), 0);
        assert_eq!(seconds(999, 2, Some(0)), 0);
        assert_eq!(seconds(1_000, 3, Some(0)), 1);
        assert_eq!(seconds(2_500, 4, Some(0)), 2);
        // The first one ends, then the second and the third one.
        assert_eq!(seconds(3_000, 4, Some(1)), 3);
        assert_eq!(seconds(3_600, 4, Some(2)), 2);
        assert_eq!(seconds(3_600, 4, Some(3)), 1);
        // No test runs, and then another one starts.
        assert_eq!(seconds(9_000, 4, None), 0);
        assert_eq!(seconds(9_500, 5, Some(4)), 0);
        assert_eq!(seconds(11_400, 5, Some(4)), 1);
    }

    #[test]
    fn a_line_that_has_not_changed_is_not_written_for_new_input() {
        let (mut line, start) = (ProgressLine::new(Vec::new()), Instant::now());
        for tenths in 0..5 {
            line.note_input();
            line.refresh(start + tenths * SHORTEST_PAUSE, || text_of("one"));
        }
        line.say("a message");
        assert_eq!(
            String::from_utf8_lossy(&line.terminal),
            "\r\u{1b}[K\u{1b}[?7lone\u{1b}[?7h\r\u{1b}[Ka message\n"
        );
    }
}
