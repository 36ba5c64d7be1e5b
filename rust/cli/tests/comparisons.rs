//! `--compare`: which failures are new and which are fixed since an earlier run.

use crate::common::{Folder, assert_output, run};
use std::fs;

/// The earlier run: `asks` and `new` pass, `adds` and `still` fail, and `skips` is skipped. The other suite is not in the
/// later run.
const THEN: &str = r#"     Running unittests src/lib.rs (target/debug/deps/ledger-0123456789abcdef)
{ "type": "suite", "event": "started", "test_count": 6 }
{ "type": "test", "event": "started", "name": "asks" }
{ "type": "test", "name": "asks", "event": "ok" }
{ "type": "test", "event": "started", "name": "adds" }
{ "type": "test", "name": "adds", "event": "failed", "stdout": "Error: sum\n" }
{ "type": "test", "event": "started", "name": "still" }
{ "type": "test", "name": "still", "event": "failed", "reason": "time limit exceeded" }
{ "type": "test", "event": "started", "name": "new" }
{ "type": "test", "name": "new", "event": "ok" }
{ "type": "test", "name": "skips", "event": "ignored" }
{ "type": "test", "event": "started", "name": "gone" }
{ "type": "test", "name": "gone", "event": "failed", "stdout": "Error: gone\n" }
{ "type": "suite", "event": "failed", "passed": 2, "failed": 3, "ignored": 1, "measured": 0 }
     Running unittests src/lib.rs (target/debug/deps/cart-0123456789abcdef)
{ "type": "suite", "event": "started", "test_count": 1 }
{ "type": "test", "event": "started", "name": "asks" }
{ "type": "test", "name": "asks", "event": "failed", "stdout": "Error: cart\n" }
{ "type": "suite", "event": "failed", "passed": 0, "failed": 1, "ignored": 0, "measured": 0 }
"#;

/// The later run: `adds` passes, and all others fail. `asks` and `new` do so at one place.
const NOW: &str = r#"     Running unittests src/lib.rs (target/debug/deps/ledger-fedcba9876543210)
{ "type": "suite", "event": "started", "test_count": 5 }
{ "type": "test", "event": "started", "name": "new" }
{ "type": "test", "name": "new", "event": "failed", "stdout": "thread 'new' (7) panicked at src/lib.rs:9:32:\nrefused\n" }
{ "type": "test", "event": "started", "name": "adds" }
{ "type": "test", "name": "adds", "event": "ok" }
{ "type": "test", "event": "started", "name": "still" }
{ "type": "test", "name": "still", "event": "failed", "stdout": "Error: still\n" }
{ "type": "test", "event": "started", "name": "asks" }
{ "type": "test", "name": "asks", "event": "failed", "stdout": "thread 'asks' (8) panicked at src/lib.rs:9:32:\nrefused\n" }
{ "type": "test", "event": "started", "name": "skips" }
{ "type": "test", "name": "skips", "event": "failed", "stdout": "Error: skips\n" }
{ "type": "suite", "event": "failed", "passed": 1, "failed": 4, "ignored": 0, "measured": 0 }
"#;

/// Returns the standard output of the program with arguments on the later run, which fails.
fn report(arguments: &[&str]) -> String {
    let arguments = [&["--others", "never", "--annotations", "never"], arguments].concat();
    let output = run("test-report", &arguments, NOW.as_bytes());
    assert_eq!(String::from_utf8_lossy(&output.stderr), "", "{arguments:?}");
    assert_eq!(output.status.code(), Some(1), "{arguments:?}");
    String::from_utf8(output.stdout).expect("the text is UTF-8")
}

/// Returns the name of a file with the lines of the earlier run, and that of one with its report in JSON.
fn earlier_files(folder: &Folder) -> [String; 2] {
    let (lines, json) = (folder.file("then.jsonl"), folder.file("then.json"));
    fs::write(&lines, THEN).expect("the folder is there");
    let output = run("test-report", &["--json", &json, &lines], b"");
    assert_eq!(output.status.code(), Some(1));
    [lines, json]
}

#[test]
fn each_form_says_what_is_new_and_what_is_fixed() {
    let folder = Folder::new("compared");
    for file in earlier_files(&folder) {
        let text = report(&["--compare", &file]);
        let wanted = "\nnew failures 2, still failing 1, fixed 1\n------------\n";
        assert!(text.contains(wanted), "{text}");
        let json = report(&["--compare", &file, "--format", "json"]);
        let wanted = r#","comparison":{"new_failures":2,"still_failing":1,"fixed":1,"new_tests":[{"suite":"ledger (unittests src/lib.rs)","name":"asks"},{"suite":"ledger (unittests src/lib.rs)","name":"new"}],"fixed_tests":[{"suite":"ledger (unittests src/lib.rs)","name":"adds"}]},"suites":["#;
        assert!(json.contains(wanted), "{json}");
        let page = report(&["--compare", &file, "--format", "html"]);
        assert!(page.contains(PAGE), "{page}");
        let summary = report(&["--compare", &file, "--format", "markdown"]);
        assert_eq!(summary, SUMMARY);
    }
}

/// The comparison and the failed tests in the page.
const PAGE: &str = r#"</header>
<main>
<section>
<h2>Since the earlier run</h2>
<p>new failures 2, still failing 1, fixed 1</p>
<details class="fixed" open="open">
<summary>fixed: 1</summary>
<ul class="tests">
<li><span class="suite">ledger (unittests src/lib.rs)</span> <span>adds</span></li>
</ul>
</details>
</section>
<section>
<h2>Failed tests</h2>
<details class="failed" open="open">
<summary><h3><span class="status">FAIL</span> <span class="new">2 new</span> <span>2 tests: src/lib.rs:9:32: refused</span></h3></summary>
<ul class="tests">
<li><span class="status">FAIL</span> <span class="new">new</span> <span class="suite">ledger (unittests src/lib.rs)</span> <span>asks</span></li>
<li><span class="status">FAIL</span> <span class="new">new</span> <span class="suite">ledger (unittests src/lib.rs)</span> <span>new</span></li>
</ul>
<pre><code>thread 'asks' (8) panicked at src/lib.rs:9:32:
refused</code></pre>
</details>
<details class="failed" open="open">
<summary><h3><span class="status">FAIL</span> <span class="suite">ledger (unittests src/lib.rs)</span> <span>skips</span></h3> <span class="short">Error: skips</span></summary>
<pre><code>Error: skips</code></pre>
</details>
<details class="failed" open="open">
<summary><h3><span class="status">FAIL</span> <span class="suite">ledger (unittests src/lib.rs)</span> <span>still</span></h3> <span class="short">Error: still</span></summary>
<pre><code>Error: still</code></pre>
</details>
</section>
"#;

/// The summary in Markdown.
const SUMMARY: &str = r#"## Test report: failed

5 tests run: 1 passed (0 flaky), 4 failed (0 timed out, 0 crashed), 0 skipped, 0 not run

new failures 2, still failing 1, fixed 1

<details><summary>fixed: 1</summary>

- ledger &#40;unittests src/lib.rs&#41; adds

</details>

| Result | Test | Time | Why |
| --- | --- | ---: | --- |
| FAIL (2 new) | 2 tests |  | src/lib.rs:9:32: refused |
| FAIL | ledger &#40;unittests src/lib.rs&#41; skips |  | Error: skips |
| FAIL | ledger &#40;unittests src/lib.rs&#41; still |  | Error: still |

<details><summary>FAIL (2 new) 2 tests: src/lib.rs:9:32: refused</summary>

- FAIL (new) ledger &#40;unittests src/lib.rs&#41; asks
- FAIL (new) ledger &#40;unittests src/lib.rs&#41; new

<pre>
thread 'asks' (8) panicked at src/lib.rs:9:32:
refused</pre>

</details>

<details><summary>FAIL ledger &#40;unittests src/lib.rs&#41; skips</summary>

<pre>
Error: skips</pre>

</details>

<details><summary>FAIL ledger &#40;unittests src/lib.rs&#41; still</summary>

<pre>
Error: still</pre>

</details>

"#;

#[test]
fn a_report_takes_the_place_of_the_one_that_it_is_compared_with() {
    let folder = Folder::new("compared-twice");
    let [lines, last] = earlier_files(&folder);
    for wanted in [
        r#""comparison":{"new_failures":2,"still_failing":1,"fixed":1,"#,
        r#""comparison":{"new_failures":0,"still_failing":4,"fixed":0,"new_tests":[],"fixed_tests":[]}"#,
    ] {
        report(&["--compare", &last, "--json", &last]);
        let json = fs::read_to_string(&last).expect("the report is there");
        assert!(json.contains(wanted), "{json}");
    }
    assert_eq!(fs::read_to_string(lines).expect("it is there"), THEN);
}

#[test]
fn a_file_that_is_no_run_is_refused_before_anything_is_written() {
    let folder = Folder::new("compared-wrongly");
    let (file, old) = (folder.file("file"), folder.file("old.html"));
    fs::write(&old, "of an earlier run").expect("the folder is there");
    let arguments = ["--compare", &file, "--html", &old, "--format", "names"];
    let output = run("test-report", &arguments, NOW.as_bytes());
    let message =
        format!("test-report: {file} cannot be read: No such file or directory (os error 2)\n");
    assert_output(
        &output,
        b"",
        message.as_bytes(),
        3,
        "a file that is not there",
    );
    let object = r#"{"outcome":"failed","suites":[{"tests":[{"name":"a","result":7}]}]}"#;
    for text in [
        "",
        "\n",
        "running 1 test\n",
        "[]",
        "{\"suites\":[]}",
        "{}",
        object,
    ] {
        fs::write(&file, text).expect("the folder is there");
        let output = run("test-report", &arguments, NOW.as_bytes());
        let message = format!(
            "test-report: --compare {file}: neither the lines of a run nor what --json writes of one\n"
        );
        assert_output(&output, b"", message.as_bytes(), 2, text);
    }
    let kept = fs::read_to_string(&old).expect("the old file is there");
    assert_eq!(kept, "of an earlier run");
}

#[test]
fn a_comparison_changes_no_status() {
    let folder = Folder::new("compared-status");
    let [file, _] = earlier_files(&folder);
    let passes = "{ \"type\": \"suite\", \"event\": \"started\", \"test_count\": 1 }
{ \"type\": \"test\", \"event\": \"started\", \"name\": \"asks\" }
{ \"type\": \"test\", \"name\": \"asks\", \"event\": \"ok\" }
{ \"type\": \"suite\", \"event\": \"ok\", \"passed\": 1, \"failed\": 0 }
";
    let output = run("test-report", &["--compare", &file], passes.as_bytes());
    assert_eq!(output.status.code(), Some(0));
    let text = String::from_utf8_lossy(&output.stdout);
    assert!(
        text.contains("new failures 0, still failing 0, fixed 0\n"),
        "{text}"
    );
}
