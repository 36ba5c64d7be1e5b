//! The values of a failed assertion as a diff: the lines that differ, with a few lines around them.

use crate::report::colours::{Mark, Paint, without_colours};
use crate::report::debug_lines::lines_of;
use crate::report::limit::{cuts_alike, shown_change};
use crate::report::words::counted;
use similar::{Algorithm, DiffOp, DiffTag, capture_diff_slices, group_diff_ops};
use std::borrow::Cow;
use std::collections::HashMap;
use std::iter::repeat;
use std::ops::Range;

/// What begins an assertion of two values, in its line: since Rust 1.73, and before.
const HEADS: [&str; 2] = ["assertion `left ", "assertion failed: `(left "];

/// What begins the line of the first value.
const LEFT: &str = "\n  left: ";

/// What begins the line of the second value.
const RIGHT: &str = "\n right: ";

/// A value with more bytes than this is long.
const LONG_VALUE: usize = 60;

/// The most bytes of a value that is compared.
const MOST_BYTES: usize = 1_048_576;

/// The most lines that differ. The time that the comparison takes grows with its square. If more differ, the first place
/// in which the values differ says more.
const MOST_DIFFERENCES: usize = 150;

/// How many equal lines are shown before and after lines that differ.
const CONTEXT: usize = 2;

/// What begins the line after the values of an assertion: a backtrace, a note, a panic or other values.
const ENDS: [&str; 4] = ["stack backtrace:", "note: run with", "thread '", "  left: "];

/// The two values of a failed assertion in a text.
struct Values<'a> {
    left: &'a str,
    right: &'a str,

    /// Where they are: from the start of the line of the first value to the end of the second one.
    place: Range<usize>,
}

/// Returns an output in which a diff takes the place of the values of each failed assertion, or `None` if no values have one.
/// Values have a diff if one of them is long or has several lines, and if some lines are equal and others differ. They
/// also have one if lines would be cut before the first place in which they differ.
pub(crate) fn with_diffs(output: &str, paint: Paint) -> Option<String> {
    let plain = without_colours(output);
    let mut lines = output.split('\n');
    let (mut shown, mut kept, mut next) = (Vec::new(), 0, 0);
    while let Some(found) = plain[next..].find(RIGHT) {
        let right = next + found;
        let Some(values) = Values::at(&plain, next, right) else {
            next = right + RIGHT.len();
            continue;
        };
        let Range { start, end } = values.place;
        next = end;
        if let Some(diff) = values.diff(paint) {
            let feeds = |text: &str| text.matches('\n').count();
            let before = feeds(&plain[kept..start]);
            shown.extend(lines.by_ref().take(before).map(Cow::from));
            shown.push(diff.into());
            lines.nth(feeds(&plain[start..end]));
            let rest = plain[end..].split('\n').next().unwrap_or("");
            shown.extend((!rest.is_empty()).then(|| rest.into()));
            kept = end + rest.len() + 1;
        }
    }
    shown.extend(lines.map(Cow::from));
    (kept > 0).then(|| shown.join("\n"))
}

impl<'a> Values<'a> {
    /// Returns the values whose second one is at `right` in a text, if the first one is after `start`, and if the assertion
    /// is that they are equal.
    fn at(text: &'a str, start: usize, right: usize) -> Option<Values<'a>> {
        let line = start + text[start..right].rfind(LEFT)? + 1;
        let mut lines = text[start..line].lines().rev();
        let (_, assertion) =
            lines.find_map(|line| HEADS.iter().find_map(|head| line.split_once(head)))?;
        if !assertion.starts_with("== right") {
            return None;
        }
        let left = &text[line + LEFT.len() - 1..right];
        let begin = right + RIGHT.len();
        let (left, right, size) = match quoted(left, &text[begin..]) {
            Some(values) => values,
            None => {
                let right = second_value(left, &text[begin..])?;
                (left, right, right.len())
            }
        };
        (!left.split('\n').any(is_end)).then_some(Values {
            left,
            right,
            place: line..begin + size,
        })
    }

    /// Returns the diff of the values, or `None` if they are shown as they are.
    fn diff(&self, paint: Paint) -> Option<String> {
        let values = [self.left, self.right];
        let is_long = |value: &str| value.len() > LONG_VALUE || value.contains('\n');
        if !values.into_iter().any(is_long) {
            return None;
        }
        self.diff_of_elements(paint).or_else(|| {
            let [left, right] =
                values.map(|value| value.split('\n').map(Cow::from).collect::<Vec<_>>());
            let all = DiffOp::Replace {
                old_index: 0,
                old_len: left.len(),
                new_index: 0,
                new_len: right.len(),
            };
            let mut pairs = left.iter().zip(&right);
            let are_cut_alike = pairs.any(|(left, right)| cuts_alike(left, right));
            are_cut_alike.then(|| diff_text(&left, &right, vec![all], paint))
        })
    }

    /// Returns the diff of the lines into which the values are broken, or `None` if they are too long, or too few of these
    /// lines are equal.
    fn diff_of_elements(&self, paint: Paint) -> Option<String> {
        let values = [self.left, self.right];
        if values.iter().any(|value| value.len() > MOST_BYTES) {
            return None;
        }
        let [left, right] = lines_of(values)?;
        let operations = operations(&left, &right)?;
        is_useful(&left, &operations).then(|| diff_text(&left, &right, operations, paint))
    }
}

/// Returns true if some lines of two values differ, and at least a third are equal. Lines without letters and digits do not
/// count as equal: each list ends with a bracket.
fn is_useful(left: &[Cow<'_, str>], operations: &[DiffOp]) -> bool {
    let (mut equal, mut removed, mut added) = (0, 0, 0);
    for operation in operations {
        let (old, new) = (operation.old_range(), operation.new_range());
        if operation.tag() == DiffTag::Equal {
            let says_something = |line: &&Cow<'_, str>| line.contains(char::is_alphanumeric);
            equal += left[old].iter().filter(says_something).count();
        } else {
            removed += old.len();
            added += new.len();
        }
    }
    let changed = removed.max(added);
    changed > 0 && changed <= 2 * equal
}

/// Returns the values as Rust before version 1.73 writes them, in quotes, and how many bytes the second one has with its
/// quotes. What follows it in its line is no part of it. Returns `None` if they are not written so.
fn quoted<'a>(left: &'a str, rest: &'a str) -> Option<(&'a str, &'a str, usize)> {
    let left = left.strip_prefix('`')?.strip_suffix("`,")?;
    let (line, _) = rest.split_once('\n').unwrap_or((rest, ""));
    let (right, _) = line.strip_prefix('`')?.rsplit_once('`')?;
    Some((left, right, right.len() + 2))
}

/// Returns the second value at the front of a text: one line, unless the first one has several. Prints of the test may
/// follow it, so its end may be unknown. Then there is none.
fn second_value<'a>(left: &str, rest: &'a str) -> Option<&'a str> {
    let (line, after) = rest.split_once('\n').unwrap_or((rest, ""));
    if !left.contains('\n') {
        let goes_on = after.starts_with([' ', '}', ']', ')']);
        return (!goes_on).then_some(line);
    }
    let lines = rest.split_inclusive('\n').take_while(|line| !is_end(line));
    let size = lines.map(str::len).sum();
    let value = rest[..size].trim_end();
    let is_whole = size < rest.len() || left.lines().last() == value.lines().last();
    is_whole.then_some(value)
}

/// Returns true for a line that no value has.
fn is_end(line: &str) -> bool {
    ENDS.iter().any(|end| line.starts_with(end))
}

/// Returns the operations that make the lines `right` of the lines `left`, or `None` if too many lines differ.
fn operations(left: &[Cow<'_, str>], right: &[Cow<'_, str>]) -> Option<Vec<DiffOp>> {
    // Numbers are compared faster than lines.
    let mut numbers = HashMap::new();
    let [left, right] = [left, right].map(|lines| {
        let number = |line| {
            let next = numbers.len();
            *numbers.entry(line).or_insert(next)
        };
        lines.iter().map(number).collect::<Vec<usize>>()
    });
    let differ_little = differ_in_at_most(&left, &right, MOST_DIFFERENCES);
    differ_little.then(|| capture_diff_slices(Algorithm::Myers, &left, &right))
}

/// Returns true if at most `most` numbers are taken out and added to make `right` of `left`.
fn differ_in_at_most(left: &[usize], right: &[usize], most: usize) -> bool {
    // How far `left` is used up after `count` numbers of which this many were taken out, at best (E. W. Myers, "An O(ND)
    // Difference Algorithm").
    let mut best = vec![0; most + 1];
    for count in 0..=most {
        for out in (0..=count).rev() {
            let after_out = out.checked_sub(1).map_or(0, |before| best[before] + 1);
            let used = best[out].max(after_out);
            let pairs = left
                .iter()
                .skip(used)
                .zip(right.iter().skip(used + count - 2 * out));
            best[out] = used + pairs.take_while(|(left, right)| left == right).count();
            if best[out] >= left.len() && best[out] + count - 2 * out >= right.len() {
                return true;
            }
        }
    }
    false
}

/// Returns a diff, given the operations that make the lines `right` of the lines `left`.
fn diff_text(
    left: &[Cow<'_, str>],
    right: &[Cow<'_, str>],
    operations: Vec<DiffOp>,
    paint: Paint,
) -> String {
    let mut lines = vec!["  left (-) and right (+) differ:".to_string()];
    let mut next = 0;
    for operation in group_diff_ops(operations, CONTEXT).into_iter().flatten() {
        let (old, new) = (operation.old_range(), operation.new_range());
        lines.extend(left_out(old.start - next));
        next = old.end;
        if operation.tag() == DiffTag::Equal {
            lines.extend(left[old].iter().map(|line| format!("  {line}")));
            continue;
        }
        let (old, new) = (&left[old], &right[new]);
        let changes = [(old, new, "-", Mark::Removed), (new, old, "+", Mark::Added)];
        for (changed, others, sign, mark) in changes {
            // Lines without a partner are compared with the last line of the other value.
            let last = others.last().map_or("", AsRef::as_ref);
            let others = others.iter().map(AsRef::as_ref).chain(repeat(last));
            lines.extend(changed.iter().zip(others).map(|(line, other)| {
                paint.line(mark, &format!("{sign} {}", shown_change(line, other)))
            }));
        }
    }
    lines.extend(left_out(left.len() - next));
    lines.join("\n")
}

/// Returns the line for this number of equal lines that are left out, or `None` if there are none.
fn left_out(lines: usize) -> Option<String> {
    (lines > 0).then(|| format!("  ({})", counted(lines, "equal line")))
}

#[cfg(test)]
mod tests {
    use super::*;
    use crate::report::colours::with_colours_in_lines;
    use std::fmt::Debug;

    /// Returns what the standard library writes of a failed `assert_eq!`.
    fn failed(left: &impl Debug, right: &impl Debug) -> String {
        format!(
            "thread 'a' (7) panicked at src/lib.rs:1:2:\nassertion `left == right` failed\n  left: {left:?}\n right: {right:?}"
        )
    }

    /// Returns what is shown below the line `assertion ..`, without colours.
    fn shown(output: &str) -> Option<String> {
        let shown = with_diffs(output, Paint::Nothing)?;
        let (_, diff) = shown.split_once("failed\n").expect("an assertion failed");
        Some(diff.to_string())
    }

    #[derive(Debug, PartialEq)]
    struct Config {
        name: &'static str,
        port: Option<u16>,
        hosts: Vec<&'static str>,
        open: bool,
        user: &'static str,
        retries: u8,
    }

    /// Returns a struct with this port.
    fn config(port: Option<u16>) -> Config {
        Config {
            name: "ledger, {a}",
            port,
            hosts: vec!["one", "two"],
            open: true,
            user: "root",
            retries: 3,
        }
    }

    #[test]
    fn of_a_struct_the_fields_that_differ_are_shown() {
        let output = failed(&config(Some(80)), &config(None));
        let wanted = "  left (-) and right (+) differ:\n  Config {\n      name: \"ledger, {a}\",\n-     port: Some(\n\
                      -         80,\n-     ),\n+     port: None,\n      hosts: [\n          \"one\",\n  (6 equal lines)";
        assert_eq!(shown(&output).as_deref(), Some(wanted));
    }

    #[test]
    fn of_two_thousand_numbers_three_hunks_are_shown() {
        let left: Vec<u32> = (0..2_000).collect();
        let mut right = left.clone();
        (right[3], right[1_000], right[1_999]) = (9, 7, 0);
        let wanted = "  left (-) and right (+) differ:\n  (2 equal lines)\n      1,\n      2,\n-     3,\n+     9,\n      4,\n      5,\n  \
                      (992 equal lines)\n      998,\n      999,\n-     1000,\n+     7,\n      1001,\n      1002,\n  \
                      (994 equal lines)\n      1997,\n      1998,\n-     1999,\n+     0,\n  ]";
        assert_eq!(shown(&failed(&left, &right)).as_deref(), Some(wanted));
    }

    #[test]
    fn of_a_text_the_lines_that_differ_are_shown() {
        let left: String = (0..30).map(|n| format!("line {n}\n")).collect();
        let right = left.replace("line 17\n", "line \"x\"\n");
        let wanted = "  left (-) and right (+) differ:\n  (15 equal lines)\n  line 15\n  line 16\n- line 17\n+ line \\\"x\\\"\n  \
                      line 18\n  line 19\n  (10 equal lines)";
        assert_eq!(shown(&failed(&left, &right)).as_deref(), Some(wanted));
        let output = failed(&left, &left[..left.len() - 1].to_string());
        let wanted =
            "  left (-) and right (+) differ:\n  (28 equal lines)\n  line 28\n  line 29\n- ";
        assert_eq!(shown(&output).as_deref(), Some(wanted));
    }

    /// Returns the line that is removed and the one that is added.
    fn changes(output: &str) -> [String; 2] {
        let shown = shown(output).expect("they differ");
        let lines = shown.lines().filter(|line| line.starts_with(['-', '+']));
        let lines: Vec<_> = lines.map(str::to_string).collect();
        lines.try_into().expect("one line differs")
    }

    #[test]
    fn long_lines_are_cut_around_the_first_place_that_differs() {
        let text = |middle| format!("<{}{middle}{}>", "a".repeat(1_400), "é".repeat(700));
        let [left, right] = ["ä, 1", "ö, 2"].map(text);
        for (output, front, end) in [
            (failed(&left, &right), "\"<", ">\""),
            (failed(&(&left,), &(&right,)), "(\"<", ">\",)"),
            (failed(&(&left, 1), &(&right, 1)), "    \"<", ">\","),
        ] {
            let (front_size, end_size) = (96 - front.len(), (96 - end.len()) / 2);
            let wanted = [("-", "ä, 1"), ("+", "ö, 2")].map(|(sign, middle)| {
                format!(
                    "{sign} {front}{} .. {} bytes .. {}{middle}{} .. {} bytes .. {}{end}",
                    "a".repeat(front_size),
                    1_400 - front_size - 64,
                    "a".repeat(64),
                    "é".repeat(93),
                    2 * (700 - 93 - end_size),
                    "é".repeat(end_size),
                )
            });
            assert!(wanted.iter().all(|line| line.len() <= 512));
            assert_eq!(changes(&output), wanted);
        }
    }

    #[test]
    fn a_line_is_cut_so_only_if_it_is_long_and_its_front_does_not_show_the_place() {
        let cut = |left: &str, right: &str| {
            let lines = changes(&failed(&(left, 1), &(right, 1)));
            lines.map(|line| line.contains(" bytes .. "))
        };
        for (same, size, is_cut) in [
            (1_999, 2_000, true),
            (185, 2_000, false),
            (186, 2_000, true),
            (502, 503, false),
            (503, 504, true),
        ] {
            let [left, right] = ["a", "b"].map(|c| "x".repeat(same) + &c.repeat(size - same));
            assert_eq!(cut(&left, &right), [is_cut, is_cut], "{same} {size}");
        }
        let long = "x".repeat(2_000);
        assert_eq!(cut(&long, &long[..400]), [true, false]);
        // A line was added, so two lines take the place of one.
        let lines = |ends: &[&str]| ends.iter().map(|end| long.clone() + end).collect();
        let [one, two]: [Vec<String>; 2] = [lines(&["a"]), lines(&["b", "c"])];
        let diff = shown(&failed(&(one, 1), &(two, 1))).expect("they differ");
        for end in ["xa\",", "xb\",", "xc\","] {
            assert!(diff.contains(end), "{diff}");
        }
        assert_eq!(diff.matches(" .. 1849 bytes .. ").count(), 3, "{diff}");
    }

    #[test]
    fn of_values_that_differ_too_much_the_first_place_is_shown() {
        let changes_of = |size: usize, changed: usize| {
            let left: Vec<usize> = (0..size).collect();
            let right = left.iter().map(|n| match n {
                n if (999..999 + changed).contains(n) => n + 100_000,
                n => *n,
            });
            changes(&failed(&left, &right.collect::<Vec<_>>()))
        };
        // More lines differ than are compared, and there are more lines than are compared.
        for [removed, added] in [changes_of(3_000, 100), changes_of(20_001, 1)] {
            assert!(removed.contains(", 998, 999, 1000, "), "{removed}");
            assert!(added.contains(", 998, 100999, "), "{added}");
        }
    }

    #[test]
    fn lines_that_differ_are_red_and_green() {
        let output = "assertion `left == right` failed\n  left: a\nx\nb\n right: a\nx\n\u{1b}[1mc\u{1b}[0m\nd\nnote: run with";
        let wanted = "assertion `left == right` failed\n  left (-) and right (+) differ:\n  a\n  x\n\u{1b}[31m- b\u{1b}[0m\n\
                      \u{1b}[32m+ c\u{1b}[0m\n\u{1b}[32m+ d\u{1b}[0m\nnote: run with";
        assert_eq!(with_diffs(output, Paint::Colours).as_deref(), Some(wanted));
        let plain = without_colours(wanted).into_owned();
        assert_eq!(with_diffs(output, Paint::Nothing), Some(plain));
    }

    #[test]
    fn a_colour_that_is_open_does_not_hide_the_values() {
        let output = format!(
            "\u{1b}[31mstart\n{}\nend\u{1b}[0m\nafter",
            failed(&config(Some(1)), &config(Some(2)))
        );
        let output = with_colours_in_lines(&output);
        let shown = with_diffs(&output, Paint::Nothing).expect("they differ");
        let wanted = with_diffs(&without_colours(&output), Paint::Nothing);
        assert_eq!(Some(without_colours(&shown).into_owned()), wanted);
        assert!(
            shown.ends_with("  (7 equal lines)\n\u{1b}[31mend\u{1b}[0m\nafter"),
            "{shown}"
        );
    }

    #[test]
    fn what_is_around_the_values_stays() {
        let values = "  left: a\nb\n right: a\nc\n";
        let diff = "  left (-) and right (+) differ:\n  a\n- b\n+ c\n";
        for (before, after) in [
            (
                "thread 'a' panicked at a.rs:1:2:\nassertion `left == right` failed: why\nand how\n",
                "stack backtrace:\n   0: a\n",
            ),
            (
                "assertion `left == right` failed: the assertion of totals\nis an assertion\n",
                "stack backtrace:\n",
            ),
            (
                "assertion failed: `(left == right)`: no assertion\n",
                "note: run with",
            ),
            (
                "assertion failed: `(left == right)`\n",
                "note: run with `RUST_BACKTRACE=1` environment variable to display a backtrace\nlog\n",
            ),
            (
                "\nassertion `left == right` failed\n",
                "\nthread 'b' panicked at b.rs:1:2:\nno\n",
            ),
        ] {
            let output = format!("{before}{values}{after}");
            let wanted = format!("{before}{diff}{after}");
            assert_eq!(with_diffs(&output, Paint::Nothing), Some(wanted));
        }
    }

    #[test]
    fn each_panic_has_its_diff() {
        let one = failed(&config(Some(1)), &config(Some(2)));
        let output = format!("{one}\n\n{one}\n");
        let diff = with_diffs(&one, Paint::Nothing).expect("they differ");
        let wanted = format!("{diff}\n\n{diff}\n");
        assert_eq!(with_diffs(&output, Paint::Nothing), Some(wanted));
    }

    #[test]
    fn a_value_of_one_line_ends_with_it() {
        let output = format!(
            "{}\nafter, the test\n",
            failed(&config(Some(1)), &config(Some(2)))
        );
        let shown = shown(&output).expect("they differ");
        assert!(
            shown.ends_with("  (7 equal lines)\nafter, the test\n"),
            "{shown}"
        );
    }

    #[test]
    fn values_as_older_versions_of_rust_write_them() {
        let (left, right) = ("x".repeat(30), "y".repeat(30));
        let output = format!(
            "thread 'a' panicked at 'assertion failed: `(left == right)`\n  left: `[\"{left}\", \"{right}\"]`,\n \
             right: `[\"{left}\", \"`\"]`: because', src/main.rs:2:5\nlog"
        );
        let wanted = format!(
            "thread 'a' panicked at 'assertion failed: `(left == right)`\n  left (-) and right (+) differ:\n  [\n      \
             \"{left}\",\n-     \"{right}\",\n+     \"`\",\n  ]\n: because', src/main.rs:2:5\nlog"
        );
        assert_eq!(with_diffs(&output, Paint::Nothing), Some(wanted));
    }

    #[test]
    fn other_values_stay_as_they_are() {
        let long = "x".repeat(61);
        let same = config(None);
        for output in [
            failed(&[1, 2, 3], &[1, 2, 4]),
            failed(&"a\nb", &"a\nc"),
            failed(&long, &long.replace('x', "y")),
            failed(&same, &same),
            failed(&[1; 40], &vec![1; 40])
                .replace(", 1]", ", 1,]")
                .replacen(",]", "]", 1),
            format!("\n  left: {same:?}\n"),
            format!("\n right: {same:?}\n"),
            format!("\n  left: {same:?}\nthread 'b' panicked at b.rs:1:2:\n right: {same:?}"),
            format!("left: {same:?}\nright: {:?}", config(Some(1))),
        ] {
            assert_eq!(with_diffs(&output, Paint::Colours), None, "{output}");
        }
    }

    #[test]
    fn a_value_of_more_than_sixty_bytes_is_long() {
        for (last, size) in [(99, 60), (100, 61)] {
            let left: Vec<u32> = (10..24).chain([last]).collect();
            let right: Vec<u32> = [9].into_iter().chain(left[1..].iter().copied()).collect();
            assert_eq!(format!("{left:?}").len(), size);
            for output in [failed(&left, &right), failed(&right, &left)] {
                let diff = with_diffs(&output, Paint::Nothing);
                assert_eq!(diff.is_some(), size > 60, "{output}");
            }
        }
    }

    #[test]
    fn values_stay_of_which_less_than_a_third_is_equal() {
        let numbers = |first: u32| (first..first + 40).collect::<Vec<_>>();
        for (right, is_shown) in [
            (0, false),
            (20, true),
            (26, true),
            (27, false),
            (100, false),
        ] {
            let output = failed(&numbers(0), &numbers(right));
            assert_eq!(shown(&output).is_some(), is_shown, "{right}");
        }
    }

    #[test]
    fn values_stay_that_are_not_asserted_to_be_equal_or_whose_end_is_not_known() {
        let output = failed(&config(Some(1)), &config(Some(2)));
        for other in ["left matches right", "left != right"] {
            let output = output.replace("left == right", other);
            assert_eq!(with_diffs(&output, Paint::Nothing), None);
        }
        // The second value goes on in the next line.
        let (front, end) = output.rsplit_once("user: ").expect("it has a user");
        let output_of_several = format!("{front}\n  user: {end}");
        assert_eq!(with_diffs(&output_of_several, Paint::Nothing), None);
        // Prints of the test follow.
        let several = output.replace("user: \"root\"", "\nuser: \"root\"");
        assert!(with_diffs(&several, Paint::Nothing).is_some());
        let printed = format!("{several}\nbye\n");
        assert_eq!(with_diffs(&printed, Paint::Nothing), None);
        assert!(with_diffs(&format!("{output}\nbye\n"), Paint::Nothing).is_some());
    }

    #[test]
    fn values_that_differ_in_too_many_lines_stay() {
        let left: Vec<usize> = (0..3_000).collect();
        let changed = |count: usize| {
            let right = left
                .iter()
                .map(|n| if *n < count { n + 10_000 } else { *n });
            with_diffs(&failed(&left, &right.collect::<Vec<_>>()), Paint::Nothing)
        };
        let shown = changed(75).expect("they differ in 150 lines");
        assert_eq!(
            (shown.matches("\n- ").count(), shown.matches("\n+ ").count()),
            (75, 75)
        );
        assert_eq!(changed(76), None);
    }

    #[test]
    fn the_fewest_lines_that_differ_are_counted() {
        let numbers = |text: &str| text.bytes().map(usize::from).collect::<Vec<_>>();
        for (left, right, fewest) in [
            ("", "", 0),
            ("abc", "abc", 0),
            ("", "abc", 3),
            ("abc", "", 3),
            ("abcabba", "cbabac", 5),
            ("abcdef", "xabcdef", 1),
            ("abcdef", "bcdefx", 2),
            ("ab", "ba", 2),
            ("abc", "xyz", 6),
        ] {
            let (left, right) = (numbers(left), numbers(right));
            for most in 0..10 {
                let is_few = differ_in_at_most(&left, &right, most);
                assert_eq!(is_few, most >= fewest, "{left:?} {right:?} {most}");
            }
        }
    }

    #[test]
    fn the_cost_is_in_proportion_to_the_output() {
        let numbers = |factor: usize| (0..19_000).map(|n| n * factor % 19_001).collect::<Vec<_>>();
        let many = |factor: usize| (0..100_000).map(|n| n * factor).collect::<Vec<usize>>();
        let text = |line: &str| line.repeat(19_000);
        for output in [
            failed(&numbers(1), &numbers(7_919)),
            failed(&many(1), &many(3)),
            failed(&text("a\n"), &text("b\n")),
            failed(&text("a\nb\n"), &text("b\nc\n")),
            "\n right: ".repeat(100_000),
            "\n  left: ".repeat(100_000),
            "\n  left: a\n right: [".repeat(50_000),
            "\n  left: a\nb\n right: c".repeat(50_000),
        ] {
            assert_eq!(with_diffs(&output, Paint::Nothing), None);
        }
        let long = |size: usize, end: &str| "a".repeat(size) + end;
        for output in [
            failed(&long(2_000_000, "a"), &long(2_000_000, "b")),
            failed(&long(1_000, "a"), &long(1_000, "b")).repeat(1_000),
        ] {
            assert!(with_diffs(&output, Paint::Nothing).is_some());
        }
    }
}
