//! Writers that fail: what was written is a beginning of the report.

use crate::reports::small_run::{PARTS, RUN, report_of_run};
use deodarsieve::RunOutcome;
use deodarsieve_cli::report::fault::Fault;
use deodarsieve_cli::report::{Files, Format};
use deodarsieve_tests::reports::{OPTIONS, new_report, read_lines, write_report};
use std::io::{self, Write};

/// A writer that can run out of room, and whose call number `fails` is an error.
#[derive(Default)]
struct Writer {
    written: Vec<u8>,

    /// How many bytes it takes at most, if there is a limit.
    room: Option<usize>,

    /// The number of calls until now, and the number of those before the call that fails.
    calls: usize,
    fails: Option<usize>,

    /// How many bytes were written at each flush.
    flushes: Vec<usize>,
}

impl Writer {
    /// Counts a call.
    ///
    /// Fails if it is the one that fails.
    fn call(&mut self) -> io::Result<()> {
        self.calls += 1;
        if Some(self.calls - 1) == self.fails {
            return Err(io::Error::other("the disk is gone"));
        }
        Ok(())
    }
}

impl Write for Writer {
    fn write(&mut self, bytes: &[u8]) -> io::Result<usize> {
        self.call()?;
        let left = self
            .room
            .map_or(usize::MAX, |room| room - self.written.len());
        let taken = bytes.len().min(left);
        self.written.extend_from_slice(&bytes[..taken]);
        Ok(taken)
    }

    fn flush(&mut self) -> io::Result<()> {
        self.call()?;
        self.flushes.push(self.written.len());
        Ok(())
    }
}

/// Writes the report of [`RUN`], and returns whether the run succeeded.
fn success_of(writer: &mut Writer) -> Result<bool, Fault> {
    let report = new_report(OPTIONS, Format::Text, Files::default());
    let end = write_report(report, RUN.as_bytes(), writer)?;
    Ok(end.run.outcome == RunOutcome::Success)
}

#[test]
fn each_part_is_flushed() {
    let mut writer = Writer::default();
    assert_eq!(success_of(&mut writer), Ok(false));
    assert_eq!(writer.written, report_of_run().as_bytes());
    let mut size = 0;
    let ends = PARTS.map(|part| {
        size += part.len();
        size
    });
    assert_eq!(writer.flushes, ends);
}

#[test]
fn each_write_and_each_flush_that_fails_is_reported() {
    let report = report_of_run();
    let mut sound = Writer::default();
    assert_eq!(success_of(&mut sound), Ok(false));
    let calls = sound.calls;
    // Each part is at least one write, and then one flush.
    assert!(calls >= 2 * PARTS.len());
    let mut before = 0;
    for number in 0..calls {
        let mut writer = Writer {
            fails: Some(number),
            ..Writer::default()
        };
        assert_eq!(success_of(&mut writer), Err(Fault::Write), "call {number}");
        assert_eq!(
            writer.written,
            &report.as_bytes()[..writer.written.len()],
            "call {number}"
        );
        assert!(writer.written.len() >= before, "call {number}");
        before = writer.written.len();
    }
    // The last call is a flush.
    assert_eq!(before, report.len());
}

#[test]
fn a_writer_that_is_full_has_the_beginning() {
    let report = report_of_run();
    for room in 0..report.len() {
        let mut writer = Writer {
            room: Some(room),
            ..Writer::default()
        };
        assert_eq!(success_of(&mut writer), Err(Fault::Write), "{room} bytes");
        assert_eq!(writer.written, &report.as_bytes()[..room], "{room} bytes");
    }
}

/// A run in which a test fails. Three of its lines are no events: the first line, text in front of an event, and the
/// last line, which has no line feed.
const MIXED: &str = r#"warning: unused
{"type":"suite","event":"started","test_count":1}
adding {"type":"test","event":"started","name":"a"}
{"type":"test","event":"failed","name":"a","message":"why"}
{"type":"suite","event":"failed"}
bye"#;

#[test]
fn lines_that_are_no_events_are_passed_on() {
    // Each line is one write.
    for (fails, wanted) in [
        (None, "warning: unused\nadding \nbye\n"),
        (Some(2), "warning: unused\nadding \n"),
        (Some(1), "warning: unused\nbye\n"),
        (Some(0), "adding \nbye\n"),
    ] {
        let mut others = Writer {
            fails,
            ..Writer::default()
        };
        let mut written = Vec::new();
        let mut report = new_report(OPTIONS, Format::Names, Files::default());
        read_lines(&mut report, MIXED.as_bytes(), &mut written, &mut others)
            .expect("the report is whole");
        let end = report
            .finish(None, &mut written)
            .expect("the report is whole");
        assert_eq!(written, b"a\n");
        assert_eq!(end.run.stats.failed, 1);
        assert_eq!(others.written, wanted.as_bytes(), "{fails:?}");
    }
}

#[test]
fn faults_have_texts_and_a_status() {
    for (fault, text) in [
        (Fault::Read, "read failed"),
        (Fault::Write, "write failed"),
        (Fault::CounterFull, "a number does not fit its counter"),
    ] {
        assert_eq!((fault.status(), fault.to_string().as_str()), (3, text));
    }
}
