//! How to get lines of a harness, if there were none.

use crate::report::escape::line;

/// The line that says how `cargo test` writes them.
const BY_HAND: &str = "    \
cargo test writes such lines with: RUSTC_BOOTSTRAP=1 cargo test -- -Z unstable-options --format json
";

/// The line after it, if nobody has tried that.
const BY_COMMAND: &str = "    test-report -- cargo test does this by itself\n";

/// The line for a command whose harness writes no JSON because its user wants so.
const OTHER_FORMAT: &str = "    the harness writes no lines that can be reported with another --format than json: leave it out\n";

/// Who needs such advice.
#[derive(Clone, Debug, PartialEq, Eq)]
pub enum Advice {
    /// Who reads files or a pipe.
    Input,

    /// Who runs another command than those that get what they need. This is the command.
    OtherCommand(String),

    /// Who asks the harness for a format that is not JSON.
    OtherFormat,

    /// Nobody: the command gets what it needs.
    Nobody,
}

impl Advice {
    /// Returns true if this is about the command, so that it comes once.
    pub(crate) fn is_of_command(&self) -> bool {
        match self {
            Advice::OtherCommand(_) | Advice::OtherFormat => true,
            Advice::Input | Advice::Nobody => false,
        }
    }

    /// Returns the advice, in lines of the report.
    pub(crate) fn text(&self) -> String {
        match self {
            Advice::Input => [BY_HAND, BY_COMMAND].concat(),
            Advice::OtherCommand(command) => {
                let command = line(command);
                format!(
                    "    only cargo test, cargo bench and cargo nextest run are given what makes them write JSON; \
                     this was: {command}\n{BY_HAND}"
                )
            }
            Advice::OtherFormat => OTHER_FORMAT.to_string(),
            Advice::Nobody => String::new(),
        }
    }
}
