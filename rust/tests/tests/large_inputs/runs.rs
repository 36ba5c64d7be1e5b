//! The largest input of `count`.

use deodarsieve_cli::program_io::memory_device::{MemorySink, MemorySource};
use deodarsieve_cli::run_digest_engine::count::count;
use deodarsieve_cli::run_digest_engine::fault::Fault;

/// Returns a run of 10,000 lines, of which 9,999 are tests with this many attempts.
fn run_with(attempts: usize) -> String {
    let results = vec!["timeout-pass"; attempts].join(",");
    let line = format!("test {results} slow\n");
    format!("run 9999 0 -\n{}", line.repeat(9_999))
}

/// Counts a run, and returns the result and the text that is written.
fn counted(input: &str) -> (Result<bool, Fault>, String) {
    let mut buffer = [0; 200];
    let mut sink = MemorySink::new(&mut buffer, None);
    let result = count(&mut MemorySource::new(input.as_bytes(), None), &mut sink);
    let written = String::from_utf8_lossy(sink.written()).into_owned();
    (result, written)
}

#[test]
fn a_run_of_10_000_lines_with_100_results_each_is_counted() {
    let input = run_with(100);
    assert!(input.len() > 13_000_000);
    let text = "tests 9999 passed 9999 failed 0 flaky 9999\nscripts 0 failed 0\nsummary success\n";
    assert_eq!(counted(&input), (Ok(true), String::from(text)));
}

#[test]
fn a_run_with_one_line_or_one_result_more_is_refused() {
    let longer = format!("{}test pass\n", run_with(100));
    let number = 10_001;
    assert_eq!(
        counted(&longer),
        (Err(Fault::BadLine { number }), String::new())
    );
    let wider = run_with(101);
    let number = 2;
    assert_eq!(
        counted(&wider),
        (Err(Fault::BadLine { number }), String::new())
    );
}
