//! Decides whether cargo writes colours.

use crate::report::screen::{is_dumb_terminal, is_set};
use std::env;
use std::io::{self, IsTerminal};

/// The variable that says when cargo uses colours.
pub const CARGO_COLOR: &str = "CARGO_TERM_COLOR";

/// Returns the value of that variable for a cargo, given the value of this program's option `--color`, or `None` if it stays
/// as the user has set it.
///
/// `never` and `always` say it. Otherwise `NO_COLOR` and a terminal without escapes make cargo write none, unless the user
/// has set cargo's own variable. Cargo's standard error is a pipe in part of the run, so without all these a terminal makes
/// it write colours.
pub fn cargo_color(option: &str) -> Option<&'static str> {
    match option {
        "always" => Some("always"),
        "never" => Some("never"),
        _ if env::var_os(CARGO_COLOR).is_some() => None,
        _ if is_set("NO_COLOR") || is_dumb_terminal() => Some("never"),
        _ => io::stderr().is_terminal().then_some("always"),
    }
}

#[cfg(test)]
mod tests {
    use super::*;

    #[test]
    fn the_option_says_it_whatever_the_variables_say() {
        assert_eq!(cargo_color("always"), Some("always"));
        assert_eq!(cargo_color("never"), Some("never"));
    }
}
