// Made by tools/erase from crates/test_report_run/src/contradictions.rt. Do not edit.
//! Adds contradictions to notes.

use crate::notes::note::{Contradiction, Note};

/// Adds a contradiction to the notes, and does not count it.
pub(crate) fn push_contradiction(contradiction: Contradiction, notes: &mut Vec<Note>) {
    notes.push(Note::Contradiction(contradiction));
}
