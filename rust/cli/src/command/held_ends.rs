//! The lines of a test program that wait until its failed tests have run again.
//!
//! They wait in this process alone: if it is killed before that, they are lost.

use deodarsieve_run::{Event, Line, TestResult};
use std::collections::BTreeSet;
use std::mem;

/// The most bytes of other lines that wait. Only rustdoc writes some after the end of a suite.
const MOST_OTHERS: usize = 1 << 20;

/// A line that waits, and the number of bytes in it before its event.
#[derive(Debug, PartialEq, Eq)]
pub struct HeldLine {
    pub line: Vec<u8>,
    pub front: usize,
    pub kind: HeldKind,
}

/// What a line says that waits.
#[derive(Debug, PartialEq, Eq)]
pub enum HeldKind {
    /// The test of this name failed.
    Failed(String),

    /// The suite of failed tests that wait has ended.
    SuiteEnded,

    /// Something after that.
    Other,
}

/// The ends of failed tests, the last line of their suite, and the events after that.
#[derive(Debug, Default)]
pub struct HeldEnds {
    /// The most failed tests that wait.
    most: usize,

    /// True if no line waits any more, because none can or too many would.
    is_over: bool,
    lines: Vec<HeldLine>,

    /// The number of failed tests among the lines.
    failed: usize,

    /// True if the last line of a suite is among the lines.
    has_end: bool,

    /// The number of bytes of other lines.
    size: usize,

    /// The number of suites that have started and not ended.
    open: usize,

    /// The tests that started.
    tests: BTreeSet<String>,
}

impl HeldEnds {
    /// Returns the lines of a program that has written none. If more than `most` tests fail, none of them waits; if `most`
    /// is 0, nothing ever waits.
    pub fn new(most: usize) -> HeldEnds {
        HeldEnds {
            most,
            is_over: most == 0,
            ..HeldEnds::default()
        }
    }

    /// Takes a line of standard output, without its line feed, and passes on what does not wait.
    ///
    /// Fails if `pass_on` does.
    pub fn take<E>(
        &mut self,
        line: &[u8],
        mut pass_on: impl FnMut(&[u8]) -> Result<(), E>,
    ) -> Result<(), E> {
        if self.is_over {
            return pass_on(line);
        }
        let read = Line::read(line);
        match self.kind_of(&read.event()) {
            None => pass_on(line)?,
            Some(kind) => self.lines.push(HeldLine {
                line: line.to_vec(),
                front: read.rest().unwrap_or(0),
                kind,
            }),
        }
        if self.failed > self.most || self.size > MOST_OTHERS {
            self.release(pass_on)?;
        }
        Ok(())
    }

    /// Passes on what waits. From now on nothing does.
    ///
    /// Fails if `pass_on` does.
    pub fn release<E>(&mut self, mut pass_on: impl FnMut(&[u8]) -> Result<(), E>) -> Result<(), E> {
        self.is_over = true;
        let lines = mem::take(&mut self.lines);
        lines.iter().try_for_each(|held| pass_on(&held.line))
    }

    /// Returns what a line says that waits, or `None` if it does not wait.
    fn kind_of(&mut self, event: &Event) -> Option<HeldKind> {
        match event {
            Event::SuiteStarted { .. } => self.open += 1,
            Event::SuiteEnded(_) => {
                self.open = self.open.saturating_sub(1);
                if self.failed > 0 {
                    self.has_end = true;
                    return Some(HeldKind::SuiteEnded);
                }
            }
            Event::TestStarted { name } => {
                self.tests.insert(name.to_string());
            }
            Event::TestEnded {
                name,
                result: TestResult::Failed,
                ..
            } => {
                self.failed += 1;
                return Some(HeldKind::Failed(name.to_string()));
            }
            Event::TestEnded { name, .. } => self.size += name.len(),
            Event::TestSlow { .. }
            | Event::Other
            | Event::Heading { .. }
            | Event::CargoFailed { .. }
            | Event::Print { .. }
            | Event::Damaged { .. } => return None,
        }
        self.has_end.then_some(HeldKind::Other)
    }

    /// Returns true if failed tests wait, and all suites have ended.
    pub fn are_complete(&self) -> bool {
        self.failed > 0 && !self.is_over && self.open == 0
    }

    /// Returns the lines that wait, and the names of the tests that started.
    pub fn into_parts(self) -> (Vec<HeldLine>, BTreeSet<String>) {
        (self.lines, self.tests)
    }
}

#[cfg(test)]
mod tests {
    use super::*;
    use bstr::ByteSlice;

    const SUITE: &str = r#"{"type":"suite","event":"started","test_count":2}"#;
    const LAST: &str = r#"{"type":"suite","event":"failed","passed":1,"failed":1}"#;

    /// Returns the line of the start or the end of a test.
    fn test(event: &str, name: &str) -> String {
        format!(r#"{{"type":"test","event":"{event}","name":"{name}"}}"#)
    }

    /// Returns the lines that are passed on at once, and what waits after them.
    fn taken(most: usize, lines: &[&str]) -> (Vec<String>, HeldEnds) {
        let (mut held, mut passed) = (HeldEnds::new(most), Vec::new());
        for line in lines {
            let keep = |line: &[u8]| {
                passed.push(line.to_str_lossy().into_owned());
                Ok::<_, ()>(())
            };
            held.take(line.as_bytes(), keep).expect("nothing fails");
        }
        (passed, held)
    }

    #[test]
    fn failed_ends_wait_and_what_follows_the_end_of_their_suite() {
        let (started, failed) = (test("started", "a"), test("failed", "a"));
        let passed = test("ok", "b");
        let fronted = format!("text {failed}");
        let lines = [
            SUITE, &started, &fronted, &passed, "print", LAST, "more", SUITE, &passed, LAST,
        ];
        let (at_once, held) = taken(1, &lines);
        assert_eq!(at_once, [SUITE, &started, &passed, "print", "more"]);
        assert!(held.are_complete());
        let (lines, tests) = held.into_parts();
        let kinds: Vec<_> = lines.iter().map(|it| (&it.kind, it.front)).collect();
        let wanted = [
            (&HeldKind::Failed("a".into()), 5),
            (&HeldKind::SuiteEnded, 0),
            (&HeldKind::Other, 0),
            (&HeldKind::Other, 0),
            (&HeldKind::SuiteEnded, 0),
        ];
        assert_eq!(kinds, wanted);
        assert_eq!(lines[0].line, fronted.as_bytes());
        assert_eq!(tests, BTreeSet::from(["a".to_string()]));
    }

    #[test]
    fn nothing_waits_if_nothing_failed_or_too_much() {
        let (a, b, c) = (test("failed", "a"), test("failed", "b"), test("ok", "c"));
        let lines = [SUITE, &c, LAST, SUITE, LAST];
        let (at_once, held) = taken(10, &lines);
        assert_eq!(at_once, lines);
        assert!(!held.are_complete());
        let lines = [SUITE, &a, &c, &b, LAST, &a];
        let (at_once, held) = taken(1, &lines);
        assert_eq!(at_once, [SUITE, &c, &a, &b, LAST, &a]);
        assert!(!held.are_complete());
        assert!(held.into_parts().0.is_empty());
        assert_eq!(taken(0, &lines).0, lines);
        assert!(
            !taken(2, &[SUITE, &a]).1.are_complete(),
            "the suite has no end"
        );
    }

    #[test]
    fn what_waits_can_be_passed_on_at_once() {
        let failed = test("failed", "a");
        let (_, mut held) = taken(2, &[SUITE, &failed]);
        let mut passed = Vec::new();
        for _ in 0..2 {
            let keep = |line: &[u8]| {
                passed.push(line.to_vec());
                Ok::<_, ()>(())
            };
            held.release(keep).expect("nothing fails");
        }
        assert_eq!(passed, [failed.as_bytes()]);
        let mut count = 0;
        held.take(failed.as_bytes(), |_| {
            count += 1;
            Ok::<_, ()>(())
        })
        .expect("nothing fails");
        assert_eq!(count, 1, "nothing waits any more");
        assert!(!held.are_complete());
    }

    #[test]
    fn not_too_many_lines_wait() {
        let name = "x".repeat(1 << 16);
        let (failed, passed) = (test("failed", "a"), test("ok", &name));
        let mut lines = vec![SUITE, &failed, LAST, SUITE];
        lines.extend(vec![passed.as_str(); 17]);
        let (at_once, held) = taken(1, &lines);
        assert_eq!(at_once.len(), lines.len());
        assert!(!held.are_complete());
    }
}
