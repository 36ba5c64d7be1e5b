//! The options that say which tests of a command run, and how often.

use crate::command::programs::Retries;
use crate::program::{BAD_ARGUMENT, Failure};
use clap::ArgMatches;

/// The default of `--retries-max`: how many tests of a program may have failed if some of them are run again.
const MOST_RETRIED: usize = 10;

/// Which tests of a command run, and how often.
#[derive(Clone, Copy, Debug, Default, PartialEq, Eq)]
pub struct RunAgain {
    /// True if only the tests run that failed last.
    pub only_failed: bool,

    /// How often failed tests are run again.
    pub retries: Retries,
}

impl RunAgain {
    /// Returns what the arguments say.
    pub fn of(matches: &ArgMatches) -> RunAgain {
        let number = |name: &str| matches.get_one(name).copied();
        RunAgain {
            only_failed: matches.get_flag("failed"),
            retries: Retries {
                count: number("retries").unwrap_or(0),
                most: number("retries-max").unwrap_or(MOST_RETRIED),
            },
        }
    }

    /// Refuses these options, if there is a reason why they cannot be followed.
    pub fn refuse(self, why: Option<&str>) -> Result<(), Failure> {
        let option = match self {
            RunAgain {
                only_failed: true, ..
            } => "--failed",
            RunAgain {
                retries: Retries { count: 1.., .. },
                ..
            } => "--retries",
            RunAgain { .. } => return Ok(()),
        };
        match why {
            Some(why) => Err(Failure::new(BAD_ARGUMENT, format!("{option}: {why}"))),
            None => Ok(()),
        }
    }
}
