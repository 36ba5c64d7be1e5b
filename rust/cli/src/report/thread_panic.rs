//! The panics of threads in what their program printed.

use crate::report::failure::failed_test;
use deodarsieve::counted::{HeadSpan, first_head};
use deodarsieve_run::{FailureKind, Note, TestNote};
use std::collections::{HashMap, VecDeque};

/// How many bytes of the prints between the events of a run are looked through for panics: the last ones.
const WINDOW: u64 = 65_536;

/// The panics of threads in prints. Each print is looked at once.
#[derive(Default)]
pub(crate) struct ThreadPanics {
    /// The panics by the names of their threads, in their order.
    panics: HashMap<String, VecDeque<Panic>>,

    /// Where each panic of the window begins, and the name of its thread.
    order: VecDeque<(u64, String)>,

    /// The number of bytes of the prints.
    size: u64,
}

/// A panic.
struct Panic {
    /// The number of bytes of the prints before it.
    start: u64,

    /// True if the panic before it, of all threads, is of the same thread.
    follows: bool,

    /// The prints from its head up to the next head.
    text: String,
}

impl ThreadPanics {
    /// Returns the panics in a whole text.
    pub(crate) fn of(text: &str) -> ThreadPanics {
        let mut panics = ThreadPanics::default();
        for line in text.split_inclusive('\n') {
            panics.add(line);
        }
        panics
    }

    /// Takes a line of the prints between the events of a run, without its line feed. Panics that begin before the last
    /// 64 KiB of these prints are dropped.
    pub(crate) fn on_print(&mut self, line: &[u8]) {
        self.add(&String::from_utf8_lossy(&[line, b"\n"].concat()));
        let oldest = self.size.saturating_sub(WINDOW);
        while let Some((start, thread)) = self.order.pop_front_if(|(start, _)| *start < oldest) {
            if let Some(panics) = self.panics.get_mut(&thread) {
                panics.pop_front_if(|panic| panic.start == start);
                if panics.is_empty() {
                    self.panics.remove(&thread);
                }
            }
        }
    }

    /// Notes that a test starts: a panic before that is not its own. Nearly always there is none.
    pub(crate) fn on_test_started(&mut self, name: &str) {
        if !self.panics.is_empty() {
            self.panics.remove(name);
        }
    }

    /// Drops all panics.
    pub(crate) fn clear(&mut self) {
        if self.size > 0 {
            *self = ThreadPanics::default();
        }
    }

    /// Takes the panics of the failed tests among notes whose outputs were not captured. Returns a text for each note, which
    /// is empty for another one, or none if there is no such test. A panic is taken once, so no text is searched for each of
    /// many tests of one name.
    pub(crate) fn take_of(&mut self, notes: &[Note]) -> Vec<String> {
        if !notes.iter().any(|note| uncaptured(note).is_some()) {
            return Vec::new();
        }
        let texts = notes.iter().map(|note| match uncaptured(note) {
            Some((test, _)) => self.take(&test.name),
            None => String::new(),
        });
        texts.collect()
    }

    /// Takes the panics of a thread. Returns what was printed from the first one up to that of another thread, or an empty
    /// text if the thread has none.
    fn take(&mut self, thread: &str) -> String {
        let panics = self.panics.remove(thread).into_iter().flatten();
        let own = panics
            .enumerate()
            .take_while(|(place, panic)| *place == 0 || panic.follows);
        own.map(|(_, panic)| panic.text).collect()
    }

    /// Adds a line.
    fn add(&mut self, line: &str) {
        let last = self.order.back().map(|(_, thread)| thread.as_str());
        if let Some(thread) = thread_of(line) {
            let panic = Panic {
                start: self.size,
                follows: last == Some(thread),
                text: line.to_string(),
            };
            self.order.push_back((self.size, thread.to_string()));
            let panics = self.panics.entry(thread.to_string()).or_default();
            panics.push_back(panic);
        } else if let Some(panics) = last.and_then(|thread| self.panics.get_mut(thread))
            && let Some(panic) = panics.back_mut()
        {
            panic.text.push_str(line);
        }
        self.size += line.len() as u64;
    }
}

/// Returns the test of a note, and how it failed, if its output was not captured.
pub(crate) fn uncaptured(note: &Note) -> Option<(&TestNote, &FailureKind)> {
    let (test, failure) = failed_test(note)?;
    failure.stdout.is_none().then_some((test, &failure.kind))
}

/// Returns the name of the thread in a line that begins with the head of a panic.
fn thread_of(line: &str) -> Option<&str> {
    let head = first_head(line.as_bytes()).filter(|head| head.start == 0)?;
    Some(thread_name(line, head))
}

/// Returns the name of the thread in a head of a panic.
pub(crate) fn thread_name(output: &str, head: HeadSpan) -> &str {
    output[head.start..].split('\'').nth(1).unwrap_or("")
}

#[cfg(test)]
mod tests {
    use super::*;

    /// Returns the panics in the prints of some lines.
    fn printed<'a>(lines: impl IntoIterator<Item = &'a str>) -> ThreadPanics {
        let mut panics = ThreadPanics::default();
        for line in lines {
            panics.on_print(line.as_bytes());
        }
        panics
    }

    #[test]
    fn a_thread_has_its_panics_up_to_that_of_another_one() {
        let stderr = "log\n\nthread 'a' (7) panicked at src/a.rs:1:2:\nno\n\nthread 'b::c' panicked at src/b.rs:3:4:\nlost\n\
                      thread 'b::c' (8) panicked at src/b.rs:5:6:\nagain\nthread 'a' (7) panicked at src/a.rs:9:9:\nlate\n";
        let both = "thread 'b::c' panicked at src/b.rs:3:4:\nlost\nthread 'b::c' (8) panicked at src/b.rs:5:6:\nagain\n";
        for mut panics in [ThreadPanics::of(stderr), printed(stderr.lines())] {
            assert_eq!(
                panics.take("a"),
                "thread 'a' (7) panicked at src/a.rs:1:2:\nno\n\n"
            );
            assert_eq!(panics.take("b::c"), both);
            assert_eq!(panics.take("c"), "");
            assert_eq!(panics.take("a"), "", "it was taken");
        }
    }

    #[test]
    fn other_lines_are_no_panic_of_the_thread() {
        for stderr in [
            "",
            "thread 'aa' (7) panicked at src/a.rs:1:2:\n",
            "thread 'a (7) panicked at src/a.rs:1:2:\n",
            "thread 'a' (x) panicked at src/a.rs:1:2:\n",
            "thread 'a' (7 panicked at src/a.rs:1:2:\n",
            " thread 'a' (7) panicked at src/a.rs:1:2:\n",
            "thread 'a' (7) has overflowed its stack\n",
        ] {
            assert_eq!(ThreadPanics::of(stderr).take("a"), "", "{stderr}");
        }
    }

    #[test]
    fn the_last_panic_may_end_without_a_line_feed() {
        let stderr = "thread 'a (2)' (7) panicked at a.rs:1:2:\nno";
        assert_eq!(ThreadPanics::of(stderr).take("a (2)"), stderr);
    }

    #[test]
    fn a_panic_before_the_start_of_a_test_is_not_its_own() {
        let mut panics = printed(["thread 'a' panicked at a.rs:1:2:", "no"]);
        panics.on_test_started("a");
        panics.on_print(b"log");
        assert_eq!(panics.take("a"), "");
        panics.on_print(b"thread 'a' panicked at a.rs:3:4:");
        assert_eq!(panics.take("a"), "thread 'a' panicked at a.rs:3:4:\n");
    }

    #[test]
    fn a_panic_is_in_the_last_64_kib_of_the_prints() {
        let (first, last) = (
            "thread 'a' panicked at a.rs:1:2:",
            "thread 'a' panicked at a.rs:3:4:",
        );
        // With their line feeds, `first`, `last` and the filling have 65,536 bytes.
        let filling = "x".repeat(65_536 - 2 * (first.len() + 1) - 1);
        let both = format!("{first}\n{filling}\n{last}\n");
        assert_eq!(printed([first, &filling, last]).take("a"), both);
        let mut panics = printed([first, &filling, last, ""]);
        assert_eq!(panics.take("a"), format!("{last}\n\n"));
        let mut panics = printed([first, &filling, last, "", &filling, first]);
        assert_eq!((panics.order.len(), panics.panics.len()), (1, 1));
        assert_eq!(panics.take("a"), format!("{first}\n"));
    }
}
