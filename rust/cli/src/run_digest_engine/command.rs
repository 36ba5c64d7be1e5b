// Made by tools/erase from crates/run_digest_engine/src/command.rt. Do not edit.
//! The commands of `run-digest`.

use crate::run_digest_engine::fault::Fault;

/// A command of `run-digest`.
#[derive(Clone, Copy, Debug, PartialEq, Eq)]
pub enum Command {
    /// Find the part of a test's output that explains its failure.
    Extract,

    /// Count the units of a run.
    Count,
}

impl Command {
    /// Returns the command that the command-line arguments name: [`Command::Extract`] for `extract`,
    /// and [`Command::Count`] for `count` or no argument.
    ///
    /// # Errors
    ///
    /// The error is [`Fault::BadWord`] for any other argument, and for more than one.
    pub fn from_words(words: &[String]) -> Result<Command, Fault> {
        match words {
            [] => Ok(Command::Count),
            [word] => {
                if word.as_str() == "extract" {
                    Ok(Command::Extract)
                } else if word.as_str() == "count" {
                    Ok(Command::Count)
                } else {
                    Err(Fault::BadWord)
                }
            }
            _ => Err(Fault::BadWord),
        }
    }
}
