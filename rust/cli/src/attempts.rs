//! The names and the outputs of tests that had several attempts.
//!
//! The name in the line of an end may end with `#` and the number of attempts. The output of a flaky test has the outputs of
//! its attempts one below another, each after a line with its number.
//!
//! A stand-in that runs failed tests again writes this output, and the report divides it. A test can print such a line, too.
//! Then only its own output is divided elsewhere.

/// The most attempts that a line can name.
pub const MOST_ATTEMPTS: usize = 1_000;

/// The outputs of the attempts of a test that passed.
#[derive(Debug, PartialEq, Eq)]
pub struct AttemptOutputs<'a> {
    /// Those of the attempts that failed, in their order. There are none if they are not known.
    pub failed: Vec<&'a str>,

    /// That of the last attempt, if it was captured.
    pub passed: Option<&'a str>,
}

impl<'a> AttemptOutputs<'a> {
    /// Returns the outputs in the text of a test that passed at the last of `attempts` attempts. A text without the line of a
    /// first attempt is the output of the last one.
    pub fn of(text: &'a str, attempts: usize) -> AttemptOutputs<'a> {
        let mut failed = Vec::new();
        let first = text.strip_prefix(&failed_line(1));
        let Some(mut rest) = first.filter(|_| attempts > 1) else {
            let passed = Some(text);
            return AttemptOutputs { failed, passed };
        };
        for number in 2..attempts {
            let Some((output, after)) = divided(rest, &failed_line(number)) else {
                break;
            };
            failed.push(output);
            rest = after;
        }
        let last = divided(rest, &passed_line(attempts));
        failed.push(last.map_or(rest, |(output, _)| output));
        AttemptOutputs {
            failed,
            passed: last.map(|(_, passed)| passed),
        }
    }
}

/// Returns the name of a test without the number of attempts at its end, which is the same one that the run finds there: from
/// 2 to 1,000, without a sign or a leading zero.
pub fn without_attempts(name: &str) -> &str {
    let is_number = |digits: &str| {
        let number = digits.parse();
        !digits.starts_with(['+', '0']) && number.is_ok_and(|it| (2..=MOST_ATTEMPTS).contains(&it))
    };
    match name.rsplit_once('#') {
        Some((test, digits)) if is_number(digits) => test,
        Some(_) | None => name,
    }
}

/// Returns the outputs of attempts as one text: of those that failed, and of the one after them that passed, if that was
/// captured.
pub fn joined(failed: &[String], passed: Option<&str>) -> String {
    let mut text = String::new();
    for (number, output) in (1..).zip(failed) {
        text.push_str(&failed_line(number));
        text.push_str(output);
        if !text.ends_with('\n') {
            text.push('\n');
        }
    }
    if let Some(output) = passed {
        text.push_str(&passed_line(failed.len() + 1));
        text.push_str(output);
    }
    text
}

/// Returns the line before the output of an attempt that failed.
fn failed_line(number: usize) -> String {
    format!("--- ATTEMPT {number} FAILED ---\n")
}

/// Returns the line before the output of an attempt that passed.
fn passed_line(number: usize) -> String {
    format!("--- ATTEMPT {number} PASSED ---\n")
}

/// Returns what of a text is before a line, and what is after it, or `None` if the text does not have the line.
fn divided<'a>(text: &'a str, line: &str) -> Option<(&'a str, &'a str)> {
    let is_at_front = |at: &usize| *at == 0 || text[..*at].ends_with('\n');
    let at = text
        .match_indices(line)
        .map(|(at, _)| at)
        .find(is_at_front)?;
    Some((&text[..at], &text[at + line.len()..]))
}

#[cfg(test)]
mod tests {
    use super::*;

    #[test]
    fn outputs_that_were_joined_are_divided() {
        let first =
            "--- ATTEMPT 1 FAILED ---\nno --- ATTEMPT 2 FAILED ---\n--- ATTEMPT 3 PASSED --- \n";
        let failed = [first, "", "third\n"].map(String::from);
        for passed in [
            None,
            Some(""),
            Some("done"),
            Some("--- ATTEMPT 4 PASSED ---\n"),
        ] {
            let text = joined(&failed, passed);
            let wanted = AttemptOutputs {
                failed: failed.iter().map(String::as_str).collect(),
                passed,
            };
            assert_eq!(AttemptOutputs::of(&text, 4), wanted, "{text}");
        }
        // The last line of an output gets its line feed.
        let text = joined(&["a".into()], Some("b"));
        assert_eq!(
            text,
            "--- ATTEMPT 1 FAILED ---\na\n--- ATTEMPT 2 PASSED ---\nb"
        );
    }

    #[test]
    fn a_name_may_end_with_a_number_of_attempts() {
        for (name, test) in [
            ("a", "a"),
            ("a#2", "a"),
            ("a#2#1000", "a#2"),
            ("#3", ""),
            ("a#1", "a#1"),
            ("a#1001", "a#1001"),
            ("a#02", "a#02"),
            ("a#+2", "a#+2"),
            ("a#", "a#"),
            ("a#2 ", "a#2 "),
        ] {
            assert_eq!(without_attempts(name), test, "{name}");
        }
    }

    #[test]
    fn other_outputs_are_those_of_the_last_attempt() {
        for text in [
            "",
            "a print\n",
            "\n--- ATTEMPT 1 FAILED ---\n",
            "--- ATTEMPT 2 FAILED ---\n",
        ] {
            let outputs = AttemptOutputs::of(text, 2);
            assert_eq!((outputs.failed.len(), outputs.passed), (0, Some(text)));
        }
        let text = "--- ATTEMPT 1 FAILED ---\nsays a test that did not\n";
        assert_eq!(AttemptOutputs::of(text, 1).passed, Some(text));
    }

    #[test]
    fn attempts_that_lack_a_line_are_one() {
        let outputs = AttemptOutputs::of("--- ATTEMPT 1 FAILED ---\na\n", usize::MAX);
        assert_eq!((outputs.failed, outputs.passed), (vec!["a\n"], None));
    }
}
