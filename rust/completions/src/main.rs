//! Writes the completions of `run-digest`, `test-report` and `cargo-test-report` for bash, zsh and fish, and their man
//! pages.
//!
//! The only argument is the folder for the files, which must be present.

mod completions;
mod document;
mod man_page;
mod page;

use clap::Command;
use completions::write_completions;
use deodarsieve_cli::commands::{cargo_test_report, run_digest, test_report};
use man_page::{Document, man_page};
use std::env;
use std::fs;
use std::io;
use std::path::Path;
use std::process::ExitCode;

/// Returns the programs with their documents.
fn programs() -> [(Command, Document); 3] {
    let of_run_digest = Document {
        path: "docs/RUN-DIGEST.md",
        text: include_str!("../../../docs/RUN-DIGEST.md"),
        sections: &[
            ("Input", "Input of count"),
            ("Report", "Report of count"),
            ("Repeated runs", "Repeated runs"),
            ("extract", "extract"),
        ],
        is_proved: true,
    };
    let of_test_report = Document {
        path: "docs/TEST-REPORT.md",
        text: include_str!("../../../docs/TEST-REPORT.md"),
        sections: &[
            ("Running a command", "Running a command"),
            ("In a terminal", "What the report has"),
            ("Contradictions", "Contradictions"),
            ("Forms", "Forms"),
        ],
        is_proved: false,
    };
    let of_cargo_test_report = Document {
        sections: &[("Running a command", "Running a command")],
        ..of_test_report
    };
    [
        (run_digest(), of_run_digest),
        (test_report(), of_test_report),
        (cargo_test_report(), of_cargo_test_report),
    ]
}

/// Writes the completions and the man pages of all programs to a folder.
fn write_to(folder: &Path) -> io::Result<()> {
    for (command, document) in programs() {
        let file = folder.join(format!("{}.1", command.get_name()));
        fs::write(
            file,
            man_page(command.clone(), &document).map_err(io::Error::other)?,
        )?;
        write_completions(command, folder)?;
    }
    Ok(())
}

fn main() -> ExitCode {
    let mut arguments = env::args_os().skip(1);
    let (Some(folder), None) = (arguments.next(), arguments.next()) else {
        eprintln!("usage: deodarsieve-completions FOLDER");
        return ExitCode::from(2);
    };
    match write_to(Path::new(&folder)) {
        Ok(()) => ExitCode::SUCCESS,
        Err(error) => {
            eprintln!("deodarsieve-completions: {error}");
            ExitCode::FAILURE
        }
    }
}

#[cfg(test)]
mod tests {
    use super::*;

    /// What the proved `run-digest --help` prints.
    const DIGEST: &str = include_str!("../../../tools/help/run-digest.txt");

    /// Returns the words of a text, one a line.
    fn words_of(text: &str) -> String {
        text.split_whitespace()
            .map(|word| format!("{word}\n"))
            .collect()
    }

    #[test]
    fn help_of_run_digest_is_that_of_the_proved_program() {
        // Older versions of clap say `Print help information`.
        let own = run_digest().render_help().to_string();
        let own = words_of(&own.replace(" information", ""));
        // The plain program aborts if memory runs out.
        let beginning = own.strip_suffix("writing\nfailed\n").expect(&own);
        let last = words_of("writing failed, or there was not enough memory");
        assert_eq!(beginning.to_owned() + &last, words_of(DIGEST));
    }

    #[test]
    fn each_program_has_a_man_page() {
        for (command, document) in programs() {
            let page = man_page(command, &document).expect("the document has all sections");
            let lines = page.lines();
            let headings: Vec<_> = lines.filter_map(|line| line.strip_prefix(".SH ")).collect();
            assert_eq!(headings[..3], ["NAME", "SYNOPSIS", "DESCRIPTION"]);
            assert_eq!(headings.last(), Some(&"EXIT STATUS"));
            for (_, heading) in document.sections {
                assert!(
                    headings.contains(&heading.to_uppercase().as_str()),
                    "{headings:?}"
                );
            }
        }
    }
}
