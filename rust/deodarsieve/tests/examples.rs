//! The output of each example is the text that is stored next to it.

#[allow(dead_code, reason = "the test calls what `main` calls")]
#[path = "../examples/reporter/main.rs"]
mod reporter;

#[allow(dead_code, reason = "the test calls what `main` calls")]
#[path = "../examples/why.rs"]
mod why;

#[test]
fn the_reporter_writes_its_report() {
    let mut report = Vec::new();
    reporter::report_run(&mut report).expect("a vector takes every write");
    let report = String::from_utf8(report).expect("the report is text");
    assert_eq!(report, include_str!("../examples/reporter/reporter.stdout"));
}

#[test]
fn the_explanation_is_the_last_panic_with_the_error_before_it() {
    let explanation = why::explain(include_bytes!("../examples/why.txt"));
    assert_eq!(
        format!("{explanation}\n"),
        include_str!("../examples/why.stdout")
    );
    assert_eq!(
        why::explain(b"all is well\n"),
        "the output does not say why"
    );
}
