//! Reports of runs whose lines are texts.

use deodarsieve_cli::report::fault::Fault;
use deodarsieve_cli::report::options::Options;
use deodarsieve_cli::report::{Ended, Files, Format, Report};
use std::collections::VecDeque;
use std::io::{self, Write};

/// The time in microseconds from which on a test is slow.
pub const SLOW: u64 = 60_000_000;

/// The options of most reports.
pub const OPTIONS: Options = Options::DEFAULT;

/// Returns a report of a run that may have several files without names.
#[must_use]
pub fn new_report(options: Options, format: Format, files: Files) -> Report {
    Report::new(options, format, files, SLOW, VecDeque::new())
}

/// Returns the end of a text for people in a pipe: the list, the numbers in words, and the summary for scripts.
#[must_use]
pub fn end_of_text(list: &str, numbers: &str, summary: &str, outcome: &str) -> String {
    let rule = "------------\n";
    let above = if list.is_empty() { "" } else { rule };
    format!("{above}{list}{numbers}\n{rule}     Summary {summary}\noutcome {outcome}\n")
}

/// Returns the entry of a list for tests with these names that failed with the same cause.
#[must_use]
pub fn group_text(cause: &str, mut names: Vec<String>) -> String {
    names.sort_unstable();
    let lines = names.iter().map(|name| format!("             {name}\n"));
    let lines: String = lines.collect();
    format!("        FAIL {} tests: {cause}\n{lines}", names.len())
}

/// Passes the lines of a file to a report, as the program does. The lines that are no events go to `others`.
///
/// # Errors
///
/// Fails if `output` does, or if a number of the run does not fit.
pub fn read_lines(
    report: &mut Report,
    file: &[u8],
    output: &mut impl Write,
    others: &mut impl Write,
) -> Result<(), Fault> {
    for line in lines_of(file) {
        report.on_line(line, output, others)?;
    }
    Ok(())
}

/// Passes files to a report, and the end of each but the last one.
///
/// # Errors
///
/// Fails if `output` does, or if a number of the run does not fit.
pub fn read_files(
    report: &mut Report,
    files: &[&str],
    output: &mut impl Write,
) -> Result<(), Fault> {
    for (place, file) in files.iter().enumerate() {
        if place > 0 {
            report.end_file(output)?;
        }
        read_lines(report, file.as_bytes(), output, &mut io::sink())?;
    }
    Ok(())
}

/// Returns the lines of a file. What follows the last line feed is a line unless it is empty.
fn lines_of(file: &[u8]) -> impl Iterator<Item = &[u8]> {
    let lines = file.split_inclusive(|byte| *byte == b'\n');
    lines.map(|line| line.strip_suffix(b"\n").unwrap_or(line))
}

/// Writes the report of a file.
///
/// # Errors
///
/// Fails if `output` does, or if a number of the run does not fit.
pub fn write_report(
    mut report: Report,
    file: &[u8],
    output: &mut impl Write,
) -> Result<Ended, Fault> {
    read_lines(&mut report, file, output, &mut io::sink())?;
    report.finish(None, output)
}
