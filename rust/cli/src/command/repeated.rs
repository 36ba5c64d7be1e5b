//! The lines that cargo writes twice.

use crate::report::build::without_colors;
use bstr::ByteSlice;
use std::collections::HashSet;

/// What follows one of these texts in a line of cargo can change: which of two equal warnings it counts, and a time.
const BEFORE_CHANGES: [&str; 2] = [" generated ", " target(s) in "];

/// How the lines of cargo begin that it writes each time: warnings about manifests and of build scripts, and what
/// belongs to them.
const EACH_TIME: [&str; 3] = ["warning: ", "note: ", "help: "];

/// Whether all is known that cargo wrote while it built.
#[derive(Clone, Copy, Debug, Default, PartialEq, Eq)]
pub enum CargoWords {
    /// All that it may write again is known.
    #[default]
    Known,

    /// Only what the compiler said is known: cargo wrote its own words to a terminal.
    Unknown,
}

/// The lines that cargo wrote while it built. When cargo then runs what it has built, it repeats the warnings of the
/// packages that it does not compile again.
#[derive(Debug, Default)]
pub struct Repeated {
    lines: HashSet<Vec<u8>>,
    words: CargoWords,

    /// True if no line says that cargo has finished, and so the first line of a test program does.
    is_quiet: bool,
}

impl Repeated {
    /// Returns the lines that were written by a cargo that has built. `is_quiet` is true if it says nothing of its own.
    pub fn new(written: &[u8], words: CargoWords, is_quiet: bool) -> Repeated {
        let lines = written.lines_with_terminator().map(unchanged_part);
        Repeated {
            lines: lines.map(<[u8]>::to_vec).collect(),
            words,
            is_quiet,
        }
    }

    /// Notes that a test program has started. Cargo's own words may still be on their way: they come through another
    /// pipe.
    pub fn note_program(&mut self) {
        if self.is_quiet {
            self.clear();
        }
    }

    /// Returns true if a line of the run repeats a line of the build. From the line on in which cargo says that it
    /// compiles a package, and after the one in which it says that it has finished, no line does.
    pub fn repeats(&mut self, line: &[u8]) -> bool {
        if self.lines.is_empty() && self.words == CargoWords::Known {
            return false;
        }
        if line.contains_str("Compiling ") {
            self.clear();
        }
        let is_repeated =
            self.lines.contains(unchanged_part(line)) || self.is_written_each_time(line);
        if line.contains_str("Finished") {
            self.clear();
        }
        is_repeated
    }

    /// Returns true if cargo has written this line to the terminal: it is a warning, or says that it has finished. What
    /// says how many warnings there are comes only from a cargo that writes them itself.
    fn is_written_each_time(&self, line: &[u8]) -> bool {
        match self.words {
            CargoWords::Known => false,
            CargoWords::Unknown => {
                let plain = without_colors(&line.to_str_lossy());
                let is_finished = plain.trim_start().starts_with("Finished ");
                let is_warning = EACH_TIME.iter().any(|front| plain.starts_with(front));
                is_finished || is_warning && !plain.contains(" generated ")
            }
        }
    }

    /// Forgets the lines of the build: from now on no line repeats one.
    pub fn clear(&mut self) {
        self.lines.clear();
        self.words = CargoWords::Known;
        self.is_quiet = false;
    }
}

/// Returns the part of a line that is the same if cargo writes the line again.
fn unchanged_part(line: &[u8]) -> &[u8] {
    let ends = BEFORE_CHANGES.iter().filter_map(|text| line.find(text));
    ends.min().map_or(line, |end| &line[..end])
}

#[cfg(test)]
mod tests {
    use super::*;

    /// What a build writes.
    const BUILD: &str = "\
   Compiling a v0.1.0
warning: unused
warning: `a` (lib) generated 1 warning
warning: `a` (lib test) generated 1 warning (1 duplicate)
\u{1b}[1m\u{1b}[92m    Finished\u{1b}[0m `test` profile [unoptimized] target(s) in 2.50s
";

    /// Returns the lines of a run that are not repeated after this build.
    fn left_after(build: &str, words: CargoWords, run: &str) -> String {
        let mut repeated = Repeated::new(build.as_bytes(), words, false);
        let lines = run.split_inclusive('\n');
        lines
            .filter(|line| !repeated.repeats(line.as_bytes()))
            .collect()
    }

    /// Returns the lines of a run that are not repeated.
    fn left(run: &str) -> String {
        left_after(BUILD, CargoWords::Known, run)
    }

    #[test]
    fn the_warnings_of_a_build_are_repeated_until_it_has_finished() {
        let run = "\
warning: `a` (lib test) generated 1 warning
warning: unused
warning: other
warning: `a` (lib) generated 1 warning (1 duplicate)
\u{1b}[1m\u{1b}[92m    Finished\u{1b}[0m `test` profile [unoptimized] target(s) in 0.02s
warning: unused
     Running a
";
        assert_eq!(
            left(run),
            "warning: other\nwarning: unused\n     Running a\n"
        );
    }

    #[test]
    fn what_is_compiled_again_is_not_repeated() {
        let run = format!("warning: unused\n{BUILD}");
        assert_eq!(left(&run), BUILD);
    }

    /// What cargo writes when it runs what it has built, and then a test program.
    const RUN: &str = "\
warning: unused manifest key: package.unknown
\u{1b}[1m\u{1b}[33mwarning\u{1b}[0m: money@0.1.0: careful
note: more
help: much more
warning: unused
 --> src/lib.rs:2:9
warning: `money` (lib) generated 1 warning
    Blocking waiting for file lock on build directory
\u{1b}[1m\u{1b}[92m    Finished\u{1b}[0m `test` profile [unoptimized] target(s) in 0.02s
     Running a
warning: printed
";

    #[test]
    fn warnings_are_left_out_although_cargo_has_written_them_to_a_terminal() {
        let texts = "warning: unused\n --> src/lib.rs:2:9\n";
        let left = "\
warning: `money` (lib) generated 1 warning
    Blocking waiting for file lock on build directory
     Running a
warning: printed
";
        assert_eq!(left_after(texts, CargoWords::Unknown, RUN), left);
        assert_eq!(left_after("", CargoWords::Known, RUN), RUN);
    }

    #[test]
    fn all_is_left_of_a_run_that_compiles() {
        let run = format!("   Compiling money v0.1.0\n{RUN}");
        assert_eq!(left_after("", CargoWords::Unknown, &run), run);
    }
}
