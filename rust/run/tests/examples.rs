//! The output of each example is the text that is stored next to it.

#[allow(dead_code, reason = "the test calls what `main` calls")]
#[path = "../examples/failed_tests.rs"]
mod failed_tests;

#[test]
fn the_failed_tests_of_a_stored_run_are_printed() {
    let mut output = Vec::new();
    let input = include_bytes!("samples/purse.jsonl");
    let status = failed_tests::report(&input[..], &mut output).expect("the run is read");
    let output = String::from_utf8(output).expect("the report is text");
    assert_eq!(output, include_str!("../examples/failed_tests.stdout"));
    assert_eq!(status, 1);
}

#[test]
fn a_contradiction_is_printed_too() {
    let mut output = Vec::new();
    let status = failed_tests::report(&b"no event\n"[..], &mut output).expect("the run is read");
    let output = String::from_utf8(output).expect("the report is text");
    assert_eq!(
        output,
        "contradiction: NoEvent { file: None }\n\
         0 passed, 0 failed, 0 skipped, 0 not run: Failed { step: Test }\n"
    );
    assert_eq!(status, 1);
}
