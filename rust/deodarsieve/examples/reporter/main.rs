//! A reporter: it receives the events of a run in the order in which a runner makes them, writes a line
//! for each that [`StatusLevels`](deodarsieve::StatusLevels) selects, and sums the run up.
//!
//! `cargo run --example reporter` writes the text of `reporter.stdout`.

mod report;
mod run;

use std::io::{self, Write};

use deodarsieve::{ReporterEvent, TestList};

/// Reports the run of `run.rs`.
pub fn report_run(out: &mut impl Write) -> io::Result<()> {
    let list = TestList {
        instances: &run::TESTS,
        run_count: run::TESTS.len() - 1,
    };
    let mut reporter = report::Reporter::new(out);
    for event in run::events(&list) {
        reporter.report(&ReporterEvent::Test(Box::new(event)))?;
    }
    Ok(())
}

fn main() -> io::Result<()> {
    report_run(&mut io::stdout().lock())
}
