//! The arguments of a test harness, and the program that takes them.

use super::cargo::values_of;
use std::ffi::{OsStr, OsString};
use std::process::{Command, Stdio};

/// The variable with which a stable toolchain's test harness accepts unstable options.
pub const BOOTSTRAP: &str = "RUSTC_BOOTSTRAP";

/// The value of that variable. It is not `1` and not the name of a crate, so the compiler still refuses unstable
/// features, in documentation tests too.
pub const ACCEPT_OPTIONS: &str = "test-report";

/// The option of rustdoc before each argument of documentation tests.
pub const TEST_ARGUMENT: &str = "--test-args";

/// The options of the harness that have a value in the next argument, apart from `--skip`.
const WITH_VALUE: [&str; 6] = [
    "--test-threads",
    "--logfile",
    "--color",
    "--format",
    "-Z",
    "--shuffle-seed",
];

/// The option before a text in the names of tests that are left out.
const SKIP: &str = "--skip";

/// The option with which a test is selected by its whole name.
const EXACT: &str = "--exact";

/// The options that decide whether ignored tests run.
const IGNORED: [&str; 2] = ["--ignored", "--include-ignored"];

/// The arguments with which a harness writes the names of its tests, and what follows the name in its lines.
const LISTING: [&str; 3] = ["--list", "--format", "terse"];
const LISTED: [&str; 2] = [": test", ": benchmark"];

/// The most bytes of the names of tests that are passed to a program. Systems allow two MiB and more for all arguments and
/// variables, but Windows only 32 KiB.
const LONGEST: usize = if cfg!(windows) { 16_384 } else { 524_288 };

/// The most documentation tests that are selected. The time to find texts that select them grows with their number.
const MOST_DOCUMENTATION: usize = 200;

/// The arguments of a harness: those that select tests by their names, and the others.
#[derive(Debug, Default, PartialEq, Eq)]
pub struct HarnessArguments {
    options: Vec<OsString>,
    words: Vec<String>,
    skips: Vec<String>,
    is_exact: bool,
}

impl HarnessArguments {
    /// Divides arguments, as the harness does.
    pub fn of(arguments: &[OsString]) -> HarnessArguments {
        let mut found = HarnessArguments::default();
        let mut arguments = arguments.iter();
        while let Some(argument) = arguments.next() {
            let word = argument.to_string_lossy();
            let value = word
                .strip_prefix(SKIP)
                .and_then(|rest| rest.strip_prefix('='));
            if word == "--" {
                found.words.extend(
                    arguments
                        .by_ref()
                        .map(|it| it.to_string_lossy().into_owned()),
                );
            } else if word == EXACT {
                found.is_exact = true;
            } else if word == SKIP {
                found
                    .skips
                    .extend(arguments.next().map(|it| it.to_string_lossy().into_owned()));
            } else if let Some(value) = value {
                found.skips.push(value.to_string());
            } else if word.starts_with('-') && word.len() > 1 {
                found.options.push(argument.clone());
                if WITH_VALUE.contains(&&*word) {
                    found.options.extend(arguments.next().cloned());
                }
            } else {
                found.words.push(word.into_owned());
            }
        }
        found
    }

    /// Returns the arguments that do not select tests by their names.
    pub fn options(&self) -> &[OsString] {
        &self.options
    }

    /// Returns true if an option says whether ignored tests run.
    pub fn mention_ignored(&self) -> bool {
        self.options
            .iter()
            .any(|option| IGNORED.iter().any(|it| option == it))
    }

    /// Returns true if perhaps not all tests are selected.
    pub fn have_filters(&self) -> bool {
        let only_ignored = self.options.iter().any(|option| option == IGNORED[0]);
        only_ignored || !self.words.is_empty() || !self.skips.is_empty()
    }

    /// Returns true if the arguments select a test.
    pub fn select(&self, test: &str) -> bool {
        let is_in = |filters: &[String]| {
            filters.iter().any(|filter| {
                if self.is_exact {
                    test == filter
                } else {
                    test.contains(filter.as_str())
                }
            })
        };
        (self.words.is_empty() || is_in(&self.words)) && !is_in(&self.skips)
    }
}

/// A program with Rust's test harness.
#[derive(Debug)]
pub enum Tested<'a> {
    /// A test program at this path.
    Program(&'a OsStr),

    /// Rustdoc, which runs documentation tests. These are its arguments, without those of the tests.
    Documentation(Vec<&'a OsStr>),
}

impl Tested<'_> {
    /// Returns the name of the program for the system.
    pub fn program(&self) -> &OsStr {
        match self {
            Tested::Program(path) => path,
            Tested::Documentation(_) => "rustdoc".as_ref(),
        }
    }

    /// Returns the program with these arguments of the harness. `prepare` returns a command for a program.
    pub fn command(&self, prepare: impl Fn(&OsStr) -> Command, harness: &[OsString]) -> Command {
        let mut command = prepare(self.program());
        command.env(BOOTSTRAP, ACCEPT_OPTIONS);
        match self {
            Tested::Program(_) => command.args(harness),
            Tested::Documentation(own) => {
                let pairs = harness
                    .iter()
                    .flat_map(|word| [TEST_ARGUMENT.as_ref(), word.as_os_str()]);
                command.args(own).args(pairs)
            }
        };
        command
    }

    /// Asks the program for the names of its tests, or of the ignored ones alone. Returns `None` if it does not say them.
    pub fn tests(
        &self,
        prepare: impl Fn(&OsStr) -> Command,
        only_ignored: bool,
    ) -> Option<Vec<String>> {
        let ignored = only_ignored.then_some(IGNORED[0]);
        let words: Vec<_> = LISTING
            .into_iter()
            .chain(ignored)
            .map(OsString::from)
            .collect();
        let mut command = self.command(prepare, &words);
        command.stdin(Stdio::null()).stderr(Stdio::null());
        let output = command
            .output()
            .ok()
            .filter(|output| output.status.success())?;
        let text = String::from_utf8(output.stdout).ok()?;
        let name = |line: &str| {
            LISTED
                .iter()
                .find_map(|end| line.strip_suffix(end))
                .map(String::from)
        };
        Some(text.lines().filter_map(name).collect())
    }

    /// Returns the arguments with which the harness runs one of its tests. `others` are those that are known. Documentation
    /// tests with similar names may run as well.
    pub fn selecting_one(&self, test: &str, others: &[&str]) -> Vec<OsString> {
        let words = match self {
            Tested::Program(_) => vec![EXACT.into(), "--".into(), test.into()],
            Tested::Documentation(_) => similar_words(&[test], others),
        };
        words.into_iter().map(OsString::from).collect()
    }

    /// Returns the arguments with which the harness runs these of its tests. `others` are those that it is not to run, as
    /// far as they are known. Returns `None` if the arguments would be too long.
    ///
    /// Rustdoc divides its arguments at white space, which the names of documentation tests have. So there a test may run
    /// that has a similar name.
    pub fn selecting(&self, tests: &[&str], others: &[&str]) -> Option<Vec<OsString>> {
        let words = match self {
            Tested::Program(_) => exact_words(tests, others),
            Tested::Documentation(_) => {
                (tests.len() <= MOST_DOCUMENTATION).then(|| similar_words(tests, others))?
            }
        };
        let size: usize = words.iter().map(|word| word.len() + 1).sum();
        (size <= LONGEST).then(|| words.into_iter().map(OsString::from).collect())
    }
}

/// Returns the arguments that select these tests by their whole names, or leave out the others if that is shorter.
fn exact_words(tests: &[&str], others: &[&str]) -> Vec<String> {
    let size = |names: &[&str]| names.iter().map(|name| name.len()).sum::<usize>();
    let mut words = vec![EXACT.to_string()];
    if size(tests) <= size(others) {
        // A name may begin with `-`.
        words.push("--".to_string());
        words.extend(tests.iter().map(|name| name.to_string()));
    } else {
        words.extend(others.iter().map(|name| format!("{SKIP}={name}")));
    }
    words
}

/// Returns the arguments that select these tests by parts of their names without white space: for each test the part that
/// the fewest others have, and for each of these others a part that no test has.
fn similar_words(tests: &[&str], others: &[&str]) -> Vec<String> {
    let mut parts: Vec<&str> = Vec::new();
    for test in tests {
        let count = |part: &&str| others.iter().filter(|other| other.contains(*part)).count();
        parts.extend(parts_of(test).min_by_key(count));
    }
    let mut skips: Vec<&str> = Vec::new();
    for other in others {
        let is_in = |part: &&str| other.contains(*part);
        if parts.iter().any(is_in) && !skips.iter().any(is_in) {
            let is_free = |part: &&str| !tests.iter().any(|test| test.contains(*part));
            skips.extend(parts_of(other).find(is_free));
        }
    }
    let skips = skips.into_iter().map(|part| format!("{SKIP}={part}"));
    skips.chain(parts.into_iter().map(String::from)).collect()
}

/// Returns the parts of a name between its white space, from the last to the first. One that looks like an option is none.
fn parts_of(name: &str) -> impl Iterator<Item = &str> {
    name.split_whitespace()
        .rev()
        .filter(|part| !part.starts_with('-'))
}

/// Returns the options of the harness that are needed and that the user has not given.
pub fn missing_options(harness: &[OsString]) -> impl Iterator<Item = &'static str> {
    let has = |name: &str, wanted: &str| values_of(harness, name).contains(&wanted);
    let is_given = |word: &str| harness.iter().any(|it| it == word);
    let unstable = has("-Z", "unstable-options") || is_given("-Zunstable-options");
    let needed: [(bool, &[&str]); 3] = [
        (unstable, &["-Z", "unstable-options"]),
        (has("--format", "json"), &["--format", "json"]),
        (is_given("--report-time"), &["--report-time"]),
    ];
    let missing = needed.into_iter().filter(|(is_given, _)| !is_given);
    missing.flat_map(|(_, words)| words.iter().copied())
}

#[cfg(test)]
mod tests {
    use super::*;

    /// Returns the words of a text.
    fn words(text: &str) -> Vec<OsString> {
        text.split_whitespace().map(OsString::from).collect()
    }

    #[test]
    fn words_that_select_tests_are_told_from_options_and_their_values() {
        let found = HarnessArguments::of(&words(
            "-Z unstable-options --format json one --skip two --skip=three --exact --test-threads 1 --nocapture - \
             --shuffle-seed 7 -q -- --four -Z",
        ));
        let options =
            "-Z unstable-options --format json --test-threads 1 --nocapture --shuffle-seed 7 -q";
        assert_eq!(found.options(), words(options));
        assert_eq!(found.words, ["one", "-", "--four", "-Z"]);
        assert_eq!(found.skips, ["two", "three"]);
        assert!(found.is_exact && !found.mention_ignored());
        for given in ["--ignored", "a --include-ignored"] {
            assert!(HarnessArguments::of(&words(given)).mention_ignored());
        }
        assert!(!HarnessArguments::of(&words("-- --ignored")).mention_ignored());
    }

    #[test]
    fn a_test_is_selected_as_the_harness_does_it() {
        let selects =
            |arguments: &str, test: &str| HarnessArguments::of(&words(arguments)).select(test);
        assert!(selects("", "a::b") && selects("--nocapture", "a::b"));
        assert!(selects("a", "a::b") && selects("x b", "a::b") && !selects("x", "a::b"));
        assert!(!selects("--skip b", "a::b") && !selects("a --skip b", "a::b"));
        assert!(selects("a::b --exact", "a::b") && !selects("a --exact", "a::b"));
        assert!(selects("--skip a --exact", "a::b") && !selects("--exact --skip a::b", "a::b"));
    }

    #[test]
    fn tests_of_a_program_are_selected_by_their_names_or_the_others_are_left_out() {
        let program = Tested::Program("/p".as_ref());
        let selected = program.selecting(&["a", "-b"], &["cc", "d"]);
        assert_eq!(selected, Some(words("--exact -- a -b")));
        let selected = program.selecting(&["aa", "bb"], &["c", "=d"]);
        assert_eq!(selected, Some(words("--exact --skip=c --skip==d")));
        let long = "x".repeat(LONGEST - "--exact -- ".len() - 1);
        assert!(program.selecting(&[&long], &[&long]).is_some());
        let longer = long + "x";
        assert_eq!(program.selecting(&[&longer], &[&longer]), None);
    }

    #[test]
    fn documentation_tests_are_selected_by_parts_of_their_names() {
        let selected = |tests: &[&str], others: &[&str]| {
            let selected = Tested::Documentation(Vec::new()).selecting(tests, others);
            let selected = selected.expect("the words are short");
            let arguments = HarnessArguments::of(&selected);
            assert!(
                tests.iter().all(|test| arguments.select(test)),
                "{selected:?}"
            );
            let found = others.iter().filter(|test| arguments.select(test)).count();
            (
                selected
                    .join(" ".as_ref())
                    .into_string()
                    .expect("it is UTF-8"),
                found,
            )
        };
        let all = [
            "src/lib.rs - (line 1)",
            "src/lib.rs - adds (line 5)",
            "src/a.rs - Adder<T>::adds (line 15)",
        ];
        let found = selected(&[all[1]], &[all[0], all[2]]);
        assert_eq!(found, ("--skip=15) 5)".to_string(), 0));
        assert_eq!(selected(&[all[2]], &all[..2]), ("15)".to_string(), 0));
        assert_eq!(selected(&all[..2], &all[2..]).1, 0);
        let same_line = [
            "src/a.rs - a (line 3)",
            "src/b.rs - b (line 3)",
            "b/src/b.rs - c (line 3)",
        ];
        for at in 0..3 {
            let others: Vec<_> = same_line
                .into_iter()
                .filter(|it| *it != same_line[at])
                .collect();
            assert_eq!(selected(&[same_line[at]], &others).1, 0, "{at}");
        }
        let many = vec!["src/lib.rs - a (line 1)"; MOST_DOCUMENTATION + 1];
        assert_eq!(
            Tested::Documentation(Vec::new()).selecting(&many, &[]),
            None
        );
    }

    #[test]
    fn rustdoc_gets_each_argument_of_the_tests_apart() {
        let tested = Tested::Documentation(vec!["--test".as_ref(), "a.rs".as_ref()]);
        let command = tested.command(|program| Command::new(program), &words("--exact b"));
        assert_eq!(command.get_program(), "rustdoc");
        let arguments: Vec<_> = command.get_args().collect();
        assert_eq!(
            arguments,
            [
                "--test",
                "a.rs",
                "--test-args",
                "--exact",
                "--test-args",
                "b"
            ]
        );
    }
}
