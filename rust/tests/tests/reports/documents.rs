//! What the page and the summary of a workflow show of a run.

use crate::reports::{OPTIONS, reported};
use deodarsieve_cli::report::Format;

/// A suite with one test that passes and two that are skipped. One of the skipped tests has a reason.
const SKIPPED: &str = r#"{"type":"suite","event":"started","test_count":3}
{"type":"test","event":"started","name":"passes"}
{"type":"test","event":"ok","name":"passes"}
{"type":"test","event":"ignored","name":"asks_the_bank","message":"needs \"a bank\"\r\nand a <network>"}
{"type":"test","event":"ignored","name":"is_slow"}
{"type":"suite","event":"ok","passed":1,"failed":0,"ignored":2,"measured":0,"filtered_out":0}
"#;

/// Returns the lines of a suite of tests that pass. The test `tN` takes N seconds.
fn timed_run(count: usize) -> String {
    let mut lines =
        format!("{{\"type\":\"suite\",\"event\":\"started\",\"test_count\":{count}}}\n");
    for time in 1..=count {
        lines += &format!(
            "{{\"type\":\"test\",\"event\":\"started\",\"name\":\"t{time}\"}}\n\
             {{\"type\":\"test\",\"event\":\"ok\",\"name\":\"t{time}\",\"exec_time\":{time}}}\n"
        );
    }
    lines
        + &format!(
            "{{\"type\":\"suite\",\"event\":\"ok\",\"passed\":{count},\"failed\":0,\"ignored\":0}}\n"
        )
}

/// Returns the numbers of the slow tests that the page lists.
fn listed_times(count: usize) -> Vec<usize> {
    let (page, _) = reported(OPTIONS, Format::Html, &[&timed_run(count)]);
    page.lines()
        .filter_map(|line| {
            line.strip_prefix("<tr><th scope=\"row\">suite 1 t")?
                .split('<')
                .next()?
                .parse()
                .ok()
        })
        .collect()
}

#[test]
fn the_page_lists_the_ten_slowest_tests() {
    for (count, wanted) in [
        (0, vec![]),
        (9, (1..=9).rev().collect()),
        (10, (1..=10).rev().collect()),
        (11, (2..=11).rev().collect()),
        (25, (16..=25).rev().collect()),
    ] {
        assert_eq!(listed_times(count), wanted, "{count} tests");
    }
}

#[test]
fn the_page_ends_with_the_skipped_tests_that_have_a_reason() {
    let (page, _) = reported(OPTIONS, Format::Html, &[SKIPPED]);
    let wanted = "</section>\n<section>\n<h2>Skipped tests</h2>\n<table>\n\
                  <thead><tr><th scope=\"col\">Test</th><th scope=\"col\">Reason</th></tr></thead>\n<tbody>\n\
                  <tr><th scope=\"row\">suite 1 asks_the_bank</th><td class=\"reason\">needs \"a bank\"\nand a &lt;network&gt;</td></tr>\n\
                  </tbody>\n</table>\n</section>\n</main>\n</body>\n</html>\n";
    assert!(page.ends_with(wanted), "{page}");
    let without = SKIPPED.replace(r#","message":"needs \"a bank\"\r\nand a <network>""#, "");
    let (page, _) = reported(OPTIONS, Format::Html, &[&without]);
    assert!(!page.contains("Skipped tests"), "{page}");
}

/// A suite with two failed tests, and the end of a test that had not started. The suite, the first test, its message and
/// the name of the last test have an `@`.
const MENTIONS: &str = r#"     Running tests/a@b.rs (target/debug/deps/a-46e3cc0ad64614af)
{"type":"suite","event":"started","test_count":2}
{"type":"test","event":"started","name":"asks@home"}
{"type":"test","event":"failed","name":"asks@home","message":"no answer of @team"}
{"type":"test","event":"started","name":"waits"}
{"type":"test","event":"failed","name":"waits","message":"no answer"}
{"type":"suite","event":"failed","passed":0,"failed":2,"ignored":0,"measured":0,"filtered_out":0}
{"type":"test","event":"failed","name":"ends@last"}
"#;

#[test]
fn a_summary_has_texts_with_an_at_sign_as_code() {
    let (summary, _) = reported(OPTIONS, Format::Markdown, &[MENTIONS]);
    let suite = "<code>a &#40;tests/a&#64;b.rs&#41;</code>";
    let test = "<code>asks&#64;home</code>";
    for wanted in [
        format!("| FAIL | {suite} {test} |  | <code>no answer of &#64;team</code> |\n"),
        format!("| FAIL | {suite} waits |  | no answer |\n"),
        format!(
            "<details><summary>FAIL {suite} {test}</summary>\n\n<pre>\nno answer of @team</pre>\n"
        ),
        format!("<details><summary>FAIL {suite} waits</summary>\n\n<pre>\nno answer</pre>\n"),
        "- <code>ends&#64;last ended failed, and had not started</code>\n".to_owned(),
    ] {
        assert!(summary.contains(&wanted), "{wanted}\n{summary}");
    }
}

/// Returns a message of this number of bytes, in lines of 100 bytes, as a JSON text has it.
fn message_of(letter: &str, size: usize) -> String {
    let lines = format!("{}\n", letter.repeat(99)).repeat(size / 100 + 1);
    lines[..size].replace('\n', "\\n")
}

/// Returns the summary of a run with a failed test for each of these messages. Its number takes the place of the first three
/// letters, so that no two fail for one reason.
fn summary_of(messages: &[String]) -> String {
    let count = messages.len();
    let mut lines =
        format!("{{\"type\":\"suite\",\"event\":\"started\",\"test_count\":{count}}}\n");
    for (place, message) in messages.iter().enumerate() {
        let (number, rest) = (place + 1, &message[3..]);
        let name = format!("\"name\":\"t{number:03}\"");
        lines += &format!(
            "{{\"type\":\"test\",\"event\":\"started\",{name}}}\n\
             {{\"type\":\"test\",\"event\":\"failed\",{name},\"message\":\"{number:03}{rest}\"}}\n"
        );
    }
    lines += "{\"type\":\"suite\",\"event\":\"failed\"}\n";
    reported(OPTIONS, Format::Markdown, &[&lines]).0
}

/// Returns the summary of a run with this number of failed tests, each with a message of this number of bytes.
fn long_summary(count: usize, size: usize) -> String {
    summary_of(&vec![message_of("m", size); count])
}

/// Returns the number of bytes that a failed test with this message has in the summary.
fn size_in_summary(message: &str) -> usize {
    let one = summary_of(&[message.to_owned()]);
    let row = one.find("| FAIL").expect("there is a row");
    one.len() - row - 1
}

#[test]
fn a_summary_has_at_most_900_000_bytes_of_failed_tests() {
    let most = 900_000 / size_in_summary(&message_of("m", 3_000));
    for (count, shown) in [
        (most - 1, most - 1),
        (most, most),
        (most + 1, most),
        (400, most),
    ] {
        let summary = long_summary(count, 3_000);
        assert_eq!(summary.matches("\n| FAIL | suite 1 t").count(), shown);
        assert_eq!(
            summary
                .matches("\n<details><summary>FAIL suite 1 t")
                .count(),
            shown
        );
        assert!(summary.contains(&format!("suite 1 t{shown:03}</summary>")));
        let last = format!(
            "({} more failed tests: a summary on GitHub holds 1 MiB)\n",
            count - shown
        );
        assert_eq!(summary.ends_with(&last), count > shown);
        assert_eq!(summary.contains("more failed tests"), count > shown);
    }
}

#[test]
fn a_summary_has_another_failed_test_if_it_fits_exactly() {
    let (one, long) = (3_000..3_100)
        .map(|size| message_of("m", size))
        .map(|long| (size_in_summary(&long), long))
        .find(|(one, _)| (1_000..4_000).contains(&(900_000 % one)))
        .expect("a message leaves some bytes");
    let (before, left) = (900_000 / one, 900_000 % one);
    // Bytes of later lines are in the details alone.
    let first_line = "m".repeat(100);
    let others = left - size_in_summary(&format!("{first_line}\\nn")) + 1;
    for (size, more) in [(others, 0), (others + 1, 1)] {
        let mut messages = vec![long.clone(); before];
        messages.push(format!("{first_line}\\n{}", message_of("n", size)));
        let summary = summary_of(&messages);
        let rows = summary.matches("\n| FAIL | suite 1 t").count();
        assert_eq!(rows, before + 1 - more);
        let last = format!("\n({more} more failed tests: a summary on GitHub holds 1 MiB)\n");
        assert_eq!(summary.ends_with(&last), more > 0);
    }
}
