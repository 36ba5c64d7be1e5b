//! The comparison of a run with an earlier one, in each form that has it.

use crate::properties::facts::{Facts, failure_of, own_name, suite_of};
use crate::properties::written::{AMOUNTS, compared};
use deodarsieve_cli::earlier_run::read_earlier_run;
use deodarsieve_run::TestOutcome;
use serde_json::{Value, json};
use std::collections::BTreeMap;
use std::fs;
use std::path::Path;

/// Whether tests failed, by the names of their suites and their own.
type Results = BTreeMap<(Option<String>, String), bool>;

/// Returns the results of the tests of a run.
fn results(run: &[Vec<u8>]) -> Results {
    let mut results = Results::new();
    for test in Facts::of(run).tests() {
        let failed = match test.outcome {
            TestOutcome::Passed { .. } | TestOutcome::Failed(_) => failure_of(test).is_some(),
            TestOutcome::Skipped { .. } | TestOutcome::Stopped => continue,
        };
        let name = (
            suite_of(test).map(str::to_string),
            own_name(test).to_string(),
        );
        *results.entry(name).or_default() |= failed;
    }
    results
}

/// Returns the tests with these results in the two runs, as JSON.
fn tests(before: &Results, now: &Results, wanted: (bool, bool)) -> Vec<Value> {
    let both = before
        .iter()
        .filter_map(|(name, failed)| Some((name, *failed, *now.get(name)?)));
    let found = both.filter(|(_, before, now)| (*before, *now) == wanted);
    let test = |(suite, name): &(Option<String>, String)| match suite {
        Some(suite) => json!({ "suite": suite, "name": name }),
        None => json!({ "name": name }),
    };
    found.map(|(name, _, _)| test(name)).collect()
}

/// Asserts what reports of a run say that is compared with an earlier one, if that has tests. Returns how many tests have a
/// result in both, and did not pass in both. The file at this path is for the earlier run.
pub fn check(earlier: &[u8], run: &[Vec<u8>], path: &Path) -> usize {
    let path_text = path.to_str().expect("the path is UTF-8");
    let (before, now) = (results(&[earlier.to_vec()]), results(run));
    if before.is_empty() {
        return 0;
    }
    let new = tests(&before, &now, (false, true));
    let still = tests(&before, &now, (true, true)).len();
    let fixed = tests(&before, &now, (true, false));
    let line = format!(
        "new failures {}, still failing {still}, fixed {}",
        new.len(),
        fixed.len()
    );
    let read = |text: &[u8]| {
        fs::write(path, text).expect("the file can be written");
        read_earlier_run(path_text).expect("it is a run")
    };
    let of_itself = compared(&[earlier.to_vec()], AMOUNTS[0], read(earlier));
    let json = of_itself.files.json.expect("the form is wanted");
    for text in [earlier, json.as_str().as_bytes()] {
        let ended = compared(run, AMOUNTS[0], read(text));
        let files = &ended.files;
        let json = files.json.as_ref().expect("the form is wanted").as_str();
        let json: Value = serde_json::from_str(json).expect("it is JSON");
        let wanted = json!({
            "new_failures": new.len(),
            "still_failing": still,
            "fixed": fixed.len(),
            "new_tests": new,
            "fixed_tests": fixed,
        });
        assert_eq!(json["comparison"], wanted);
        let html = files.html.as_ref().expect("the form is wanted").as_str();
        assert!(html.contains(&format!("<p>{line}</p>")), "{line}");
        let markdown = files
            .markdown
            .as_ref()
            .expect("the form is wanted")
            .as_str();
        assert!(markdown.contains(&format!("\n\n{line}\n\n")), "{line}");
    }
    new.len() + still + fixed.len()
}
