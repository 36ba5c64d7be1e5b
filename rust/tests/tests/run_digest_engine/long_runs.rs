//! Runs of many lines.

use crate::run_digest_engine::engine::{Engine, SOUND};
use deodarsieve_cli::run_digest_engine::fault::Fault;

/// Returns the lines of a run of `tests` tests. `counts` has how often the line of a test is before
/// other lines, these other lines, and how often it is after them.
pub fn run_of(tests: u32, test: &str, counts: (usize, &str, usize)) -> String {
    let (before, lines, after) = counts;
    let (before, after) = (test.repeat(before), test.repeat(after));
    format!("run {tests} 0 -\n{before}{lines}{after}")
}

#[test]
fn a_run_has_at_most_ten_thousand_lines() {
    let bad = "tests pass\n";
    let too_many = Err(Fault::BadLine { number: 10_001 });
    for (tests, counts, wanted, text) in [
        (
            9_999,
            (9_999, "", 0),
            Ok(true),
            "tests 9999 passed 9999 failed 0 flaky 0\nscripts 0 failed 0\nsummary success\n",
        ),
        (
            9_999,
            (9_998, "", 0),
            Ok(false),
            "tests 9998 passed 9998 failed 0 flaky 0\nscripts 0 failed 0\nsummary cancelled - test 9999 1\n",
        ),
        (9_999, (10_000, "", 0), too_many, ""),
        (9_999, (11_999, "", 0), too_many, ""),
        (9_999, (9_999, bad, 0), too_many, ""),
        (
            9_999,
            (9_998, bad, 1),
            Err(Fault::BadLine { number: 10_000 }),
            "",
        ),
        (
            9_999,
            (3, bad, 11_995),
            Err(Fault::BadLine { number: 5 }),
            "",
        ),
        (9_999, (10_998, bad, 1_000), too_many, ""),
        (0, (10_000, "", 0), too_many, ""),
        (
            9_998,
            (9_998, "", 0),
            Ok(true),
            "tests 9998 passed 9998 failed 0 flaky 0\nscripts 0 failed 0\nsummary success\n",
        ),
        // Lines that begin sub-runs count as lines too.
        (
            9_998,
            (9_998, "sub-run 0 0 -\n", 0),
            Ok(true),
            "tests 9998 passed 9998 failed 0 flaky 0\nscripts 0 failed 0\nsummary success\n\
             tests 0 passed 0 failed 0 flaky 0\nscripts 0 failed 0\nsummary no-tests-run\n\
             outcome success\n",
        ),
        (
            9_998,
            (9_998, "sub-run 0 0 -\nsub-run 0 0 -\n", 0),
            too_many,
            "",
        ),
    ] {
        let input = run_of(tests, "test pass\n", counts);
        assert!(
            Engine::Count.gives(input.as_bytes(), SOUND, wanted, text.as_bytes()),
            "{tests} tests, {counts:?}"
        );
    }
}

#[test]
fn a_megabyte_of_lines_is_counted() {
    let test = format!("test {}pass\n", "fail,".repeat(99));
    let input = run_of(2_000, &test, (2_000, "", 0));
    assert!(input.len() > 1_000_000);
    let text = "tests 2000 passed 2000 failed 0 flaky 2000\nscripts 0 failed 0\nsummary success\n";
    assert!(Engine::Count.gives(input.as_bytes(), SOUND, Ok(true), text.as_bytes()));
}
