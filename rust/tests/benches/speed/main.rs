//! Measures the speed of the crates, next to that of the proved static library.
//!
//! `cargo bench -p deodarsieve-tests` prints a line for each call: its name, its time, its time as a
//! multiple of the time of one pass over the same input, and its time as a multiple of its time at
//! half the size, unless it takes less than a millisecond. With `--features archive`, for which
//! DEODARSIEVE_LIB_DIR is the folder of the library, a line also has the time as a multiple of the
//! time that the library takes, if the library has the call. A time is the least of 15.
//!
//! A pass over output is a search for a byte that does not occur. A pass over units, summaries and
//! counters is one read of each, and a pass over the lines of a test run parses each as JSON.
//!
//! The exit status is 1 if a call takes more than 1.1 times as long as the library's and 25 ns
//! more, if a call takes more passes than its limit, or if it takes more than 2.5 times as long as
//! at half the size. The 25 ns are for the searcher that bstr builds at each search. If a result is
//! wrong, the program panics.

/// Makes an `Option` of a step of the proved library: `None` without the feature `archive`.
macro_rules! archived {
    ($step:expr) => {{
        #[cfg(feature = "archive")]
        let archived: Option<crate::timing::Step> = Some(Box::new($step));
        #[cfg(not(feature = "archive"))]
        let archived: Option<crate::timing::Step> = None;
        archived
    }};
}

mod engines;
mod extraction;
mod inputs;
mod runs;
mod timing;

use std::env;
use std::process::ExitCode;
use timing::{MOST_GROWTH, Times, Work, least_times};

/// A call, which is measured at a size in bytes.
struct Row {
    name: &'static str,

    /// The most passes that the call may take, if there is a limit.
    most_passes: Option<f64>,

    work: Box<dyn Fn(usize) -> Work>,
}

impl Row {
    /// Returns a row that may take any number of passes.
    fn new(name: &'static str, work: impl Fn(usize) -> Work + 'static) -> Self {
        Self {
            name,
            most_passes: None,
            work: Box::new(work),
        }
    }

    /// Returns the row with the most passes that it may take.
    fn with_most_passes(self, most_passes: f64) -> Self {
        Self {
            most_passes: Some(most_passes),
            ..self
        }
    }
}

/// Returns what is wrong with the times of a row, or `within`.
fn verdict(times: &Times, most_passes: Option<f64>) -> String {
    if times.is_above_archive() {
        return "above the library".to_string();
    }
    if times.growth().is_some_and(|growth| growth > MOST_GROWTH) {
        return format!("growth above {MOST_GROWTH}");
    }
    match most_passes {
        Some(most) if times.passes() > most => format!("above {most} passes"),
        _ => "within".to_string(),
    }
}

/// Measures a row, prints its line, and returns true if it is within its bounds.
fn is_within(row: &Row, size: usize) -> bool {
    let times = least_times((row.work)(size), (row.work)(size / 2).call);
    let verdict = verdict(&times, row.most_passes);
    let shown = |ratio: Option<f64>| ratio.map_or("-".to_string(), |ratio| format!("{ratio:.3}"));
    println!(
        "{:17} {:>12.6} {:>9.3} {:>9} {:>9} {verdict}",
        row.name,
        times.milliseconds(),
        times.passes(),
        shown(times.growth()),
        shown(times.of_archive()),
    );
    verdict == "within"
}

/// Returns the number of megabytes that the arguments name, from 1 to 1,024, or 64 if they name
/// none. Cargo adds `--bench` to the arguments.
fn megabytes() -> Option<usize> {
    let mut arguments = env::args().skip(1).filter(|argument| argument != "--bench");
    let megabytes = arguments
        .next()
        .map_or(Some(64), |argument| argument.parse().ok())?;
    (arguments.next().is_none() && (1..=1_024).contains(&megabytes)).then_some(megabytes)
}

fn main() -> ExitCode {
    let Some(megabytes) = megabytes() else {
        eprintln!("usage: cargo bench -p deodarsieve-tests [--features archive] [-- MEGABYTES]");
        return ExitCode::from(2);
    };
    println!("call                        ms    passes    growth   library");
    let rows = extraction::rows()
        .into_iter()
        .chain(engines::rows())
        .chain(runs::rows());
    let measured: Vec<bool> = rows
        .map(|row| is_within(&row, megabytes * 1_000_000))
        .collect();
    let within = measured.iter().filter(|is_within| **is_within).count();
    println!("{within} of {} within", measured.len());
    ExitCode::from(u8::from(within < measured.len()))
}
