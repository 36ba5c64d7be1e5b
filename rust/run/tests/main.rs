//! The tests of this package, as one program. By itself cargo builds and links one for each file, which takes longer.

mod common;
mod examples;
mod laws;
mod limits;
mod lines;
mod note_lines;
mod notes;
mod outcomes;
mod programs;
