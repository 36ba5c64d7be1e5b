//! Failed tests in documents: those with one cause are one entry, and a page closes its entries if there are many.

use crate::common::{self, run};

/// Returns a test that fails with this output, as lines of a run.
fn failed(name: &str, output: &str) -> String {
    format!(
        r#"{{ "type": "test", "event": "started", "name": "{name}" }}
{{ "type": "test", "event": "failed", "name": "{name}", "exec_time": 0.25, "stdout": "{output}" }}
"#
    )
}

/// Returns what a test says that panics at a place, as JSON has it.
fn panics(thread: &str, line: usize, message: &str) -> String {
    format!(r"said by all\nthread '{thread}' (7) panicked at src/lib.rs:{line}:5:\n{message}\n")
}

/// Returns a run of a suite with these tests, all of which fail.
fn run_of(tests: &[String]) -> String {
    let count = tests.len();
    format!(
        r#"     Running unittests src/lib.rs (target/debug/deps/till-0123456789abcdef)
{{ "type": "suite", "event": "started", "test_count": {count} }}
{}{{ "type": "suite", "event": "failed", "passed": 0, "failed": {count} }}
"#,
        tests.concat()
    )
}

/// Returns the document of a run.
fn document(form: &str, input: &str) -> String {
    let arguments = ["--format", form, "--others", "never"];
    let output = run("test-report", &arguments, input.as_bytes());
    assert_eq!(output.status.code(), Some(1));
    String::from_utf8(output.stdout).expect("the document is UTF-8")
}

/// A run in which `z`, `b` and `x` panic at one place, and `a` elsewhere. `x` has another output than the others.
fn run_with_group() -> String {
    let same = panics("z", 9, "refused");
    run_of(&[
        failed("z", &same),
        failed("b", &panics("b", 9, "refused")),
        failed("x", &format!(r"only @x\n{same}")),
        failed("c", &panics("c", 10, "refused")),
        failed("a", "Error: elsewhere"),
    ])
}

#[test]
fn a_page_has_a_group_where_its_first_test_is() {
    let page = document("html", &run_with_group());
    let row = |name: &str| {
        format!(
            r#"<span class="status">FAIL</span> <span class="suite">till (unittests src/lib.rs)</span> <span>{name}</span><span class="note"> 0.250s</span>"#
        )
    };
    let wanted = format!(
        r#"<h2>Failed tests</h2>
<details class="failed" open="open">
<summary><h3>{}</h3> <span class="short">Error: elsewhere</span></summary>
<pre><code>Error: elsewhere</code></pre>
</details>
<details class="failed" open="open">
<summary><h3><span class="status">FAIL</span> <span>3 tests: src/lib.rs:9:5: refused</span></h3></summary>
<ul class="tests">
<li>{}</li>
<li>{}<details>
<summary>why, 4 lines</summary>
<pre><code>only @x
said by all
thread 'z' (7) panicked at src/lib.rs:9:5:
refused</code></pre>
</details></li>
<li>{}</li>
</ul>
<pre><code>said by all
thread 'b' (7) panicked at src/lib.rs:9:5:
refused</code></pre>
</details>
<details class="failed" open="open">
<summary><h3>{}</h3> <span class="short">panicked at src/lib.rs:10:5: refused</span></summary>
<pre><code>said by all
thread 'c' (7) panicked at src/lib.rs:10:5:
refused</code></pre>
</details>
</section>
"#,
        row("a"),
        row("b"),
        row("x"),
        row("z"),
        row("c"),
    );
    assert!(page.contains(&wanted), "{page}");
}

#[test]
fn a_summary_has_a_group_where_its_first_test_is() {
    let summary = document("markdown", &run_with_group());
    let (_, failures) = summary
        .split_once("| --- | --- | ---: | --- |\n")
        .expect("there is a table");
    let till = "till &#40;unittests src/lib.rs&#41;";
    let wanted = format!(
        r#"| FAIL | {till} a | 0&#46;250s | Error: elsewhere |
| FAIL | 3 tests |  | src/lib.rs:9:5: refused |
| FAIL | {till} c | 0&#46;250s | panicked at src/lib.rs:10:5: refused |

<details><summary>FAIL {till} a</summary>

<pre>
Error: elsewhere</pre>

</details>

<details><summary>FAIL 3 tests: src/lib.rs:9:5: refused</summary>

- FAIL {till} b 0&#46;250s
- FAIL {till} x 0&#46;250s
- FAIL {till} z 0&#46;250s

<pre>
said by all
thread 'b' (7) panicked at src/lib.rs:9:5:
refused</pre>

- {till} x

<pre>
only @x
said by all
thread 'z' (7) panicked at src/lib.rs:9:5:
refused</pre>

</details>

<details><summary>FAIL {till} c</summary>

<pre>
said by all
thread 'c' (7) panicked at src/lib.rs:10:5:
refused</pre>

</details>

"#
    );
    assert_eq!(failures, wanted);
}

#[test]
fn json_and_junit_have_each_test_in_the_order_of_the_run() {
    let json = document("json", &run_with_group());
    let junit = document("junit", &run_with_group());
    for (text, name) in [(json, "\"name\":\""), (junit, "<testcase name=\"")] {
        let names: Vec<_> = text.split(name).skip(1).map(|rest| &rest[..1]).collect();
        let tests = names.iter().filter(|name| **name != "t");
        assert_eq!(tests.copied().collect::<String>(), "zbxca", "{text}");
    }
}

#[test]
fn a_page_closes_more_than_ten_entries() {
    for (entries, open) in [(1, 1), (10, 10), (11, 0)] {
        let several = |line| failed(&format!("t{line:02}"), &panics("t", line, "refused"));
        let mut tests: Vec<_> = (0..entries).map(several).collect();
        // Tests of a group are one entry.
        tests.extend((0..20).map(|test| failed(&format!("u{test}"), &panics("t", 0, "refused"))));
        let page = document("html", &run_of(&tests));
        let count = |text: &str| page.matches(text).count();
        assert_eq!(count("<details class=\"failed\""), entries);
        assert_eq!(count("<details class=\"failed\" open=\"open\">"), open);
        assert_eq!(count("<span>21 tests: src/lib.rs:0:5: refused</span>"), 1);
        assert_eq!(count("<span class=\"short\">panicked at "), entries - 1);
    }
}

#[test]
fn a_short_reason_in_a_row_is_cut() {
    let long = format!("Error: {}", "x".repeat(5_000));
    let run = run_of(&[failed("a", &long)]);
    let arguments = ["--format", "html", "--output", "whole"];
    let page = common::run("test-report", &arguments, run.as_bytes());
    let page = String::from_utf8(page.stdout).expect("the document is UTF-8");
    let cut = format!("<span class=\"short\">{}..</span>", &long[..4_096]);
    assert!(page.contains(&cut) && page.contains(&format!("<code>{long}</code>")));
}

#[test]
fn a_summary_has_only_the_first_names_of_a_large_group() {
    let name = |test: usize| format!("{}{test:05}", "n".repeat(200));
    let tests = (0..10_000).map(|test| failed(&name(test), &panics("t", 9, "refused")));
    let summary = document("markdown", &run_of(&tests.collect::<Vec<_>>()));
    assert!(summary.len() < 100_000, "{}", summary.len());
    let names = summary.matches("\n- FAIL till ").count();
    assert!(names > 100, "{names}");
    let more = format!("\n- ({} more tests)\n\n<pre>", 10_000 - names);
    assert!(summary.contains(&more), "{names}");
    assert!(summary.contains("| FAIL | 10000 tests |  | src"));
    assert!(!summary.contains("more failed tests"));
}
