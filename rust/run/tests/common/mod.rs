//! Reads runs.

use deodarsieve_run::{CommandEnd, Finished, Line, Note, TestRun};

/// The time in microseconds from which on a test is slow.
pub const SLOW: u64 = 60_000_000;

/// Passes the lines of a text to a run, and returns the notes that they make known.
pub fn take(run: &mut TestRun, text: &str) -> Vec<Note> {
    let mut notes = Vec::new();
    for line in text.lines() {
        let line = Line::read(line.as_bytes());
        notes.extend(run.on_line(&line).expect("the counters have room"));
    }
    notes
}

/// Ends a run, and returns its end.
pub fn finish(run: &mut TestRun, command: Option<CommandEnd>) -> Finished {
    run.finish(command, false).expect("the counters have room")
}
