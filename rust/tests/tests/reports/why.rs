//! Colours, diffs and short backtraces in what is shown of why a test failed.

use crate::reports::limits::{json_of, limited, run_of};
use crate::reports::{GITHUB, OPTIONS, reported};
use deodarsieve::TestOutputDisplay;
use deodarsieve_cli::report::Format;
use deodarsieve_cli::report::options::{Options, OutputDisplay};
use serde_json::json;

/// The head of a panic, and the line after it.
const FAILED: &str =
    "thread 'a' (7) panicked at src/a.rs:1:2:\nassertion `left == right` failed: in order\n";

/// Two long values of a failed assertion.
const VALUES: &str = "  left: Order { name: \"bread\", price: 250, count: 1, note: \"none\", open: true }\n \
                      right: Order { name: \"bread\", price: 249, count: 1, note: \"none\", open: true }\n";

/// What is shown of them.
const DIFF: &str = "  left (-) and right (+) differ:\n  Order {\n      name: \"bread\",\n-     price: 250,\n+     price: 249,\n      \
                    count: 1,\n      note: \"none\",\n  (2 equal lines)\n";

/// A backtrace and the line after it.
const BACKTRACE: &str = "stack backtrace:
   0: __rustc::rust_begin_unwind
             at /rustc/59807616e1fa2540724bfbac14d7976d7e4a3860/library/std/src/panicking.rs:689:5
   1: core::panicking::panic_fmt
             at /rustc/59807616e1fa2540724bfbac14d7976d7e4a3860/library/core/src/panicking.rs:80:14
   2: ledger::tests::adds
             at ./src/a.rs:1:2
note: Some details are omitted, run with `RUST_BACKTRACE=full` for a verbose backtrace.";

/// What is shown of them.
const FRAMES: &str = "stack backtrace:
      (2 frames of the standard library)
   2: ledger::tests::adds
             at ./src/a.rs:1:2
note: Some details are omitted, run with `RUST_BACKTRACE=full` for a verbose backtrace.";

/// The forms except JSON.
const FORMS: [Format; 5] = [
    Format::Text,
    GITHUB,
    Format::Junit,
    Format::Html,
    Format::Markdown,
];

/// Returns the run of a test that failed with this output.
fn failed(output: &str) -> String {
    run_of("failed", json!({"stdout": output}))
}

/// Returns a form of a run of a test that failed with this output, without the spaces of its margin and the escapes of its
/// markup.
fn shown(output: &str, format: Format, options: Options) -> String {
    let (text, _) = reported(options, format, &[&failed(output)]);
    let text = text.replace("%0A", "\n").replace("&quot;", "\"");
    match format {
        Format::Text => text.replace("\n    ", "\n"),
        Format::Html => without_spans(&text),
        _ => text,
    }
}

/// Returns a page without the spans that have the classes of colours.
fn without_spans(page: &str) -> String {
    let mut parts = page.split("<span class=\"");
    let first = parts.next().unwrap_or("").to_string();
    let is_colour = |class: &str| {
        let (letter, number) = class.split_at(1);
        "bdiu".contains(letter) && number.is_empty()
            || "cg".contains(letter) && number.parse::<u8>().is_ok()
    };
    parts.fold(first, |page, part| {
        let (classes, rest) = part.split_once("\">").expect("a span has classes");
        if classes.split(' ').all(is_colour) {
            page + &rest.replacen("</span>", "", 1)
        } else {
            page + "<span class=\"" + part
        }
    })
}

/// Returns a text without whole sequences that set styles.
fn without_colours(text: &str) -> String {
    let mut parts = text.split("\u{1b}[");
    let first = parts.next().unwrap_or("").to_string();
    parts.fold(first, |plain, part| {
        let (parameters, rest) = part.split_once('m').expect("a sequence is whole");
        assert!(parameters.bytes().all(|b| b.is_ascii_digit() || b == b';'));
        plain + rest
    })
}

#[test]
fn each_form_except_json_has_diffs_and_short_backtraces() {
    let output = format!("log\n{FAILED}{VALUES}{BACKTRACE}\n");
    let wanted = format!("log\n{FAILED}{DIFF}{FRAMES}");
    for format in FORMS {
        let text = shown(&output, format, OPTIONS);
        assert!(text.contains(&wanted), "{format:?}: {text}");
    }
    let model = json_of(&failed(&output), OPTIONS);
    assert_eq!(model["why"], output.trim_end());
    assert_eq!(model["output"], output);
    // Documents have the whole output, too. In the text, `--output whole` shows it.
    for format in [Format::Junit, Format::Html, Format::Markdown] {
        assert!(
            shown(&output, format, OPTIONS).contains(output.trim_end()),
            "{format:?}"
        );
    }
    let whole = Options {
        output: OutputDisplay::Whole,
        ..OPTIONS
    };
    // Annotations have options of their own.
    for format in FORMS.into_iter().filter(|format| *format != GITHUB) {
        let text = shown(&output, format, whole);
        assert!(text.contains(output.trim_end()), "{format:?}: {text}");
        assert!(!text.contains("(-)"), "{format:?}: {text}");
    }
}

#[test]
fn the_limit_counts_what_is_shown() {
    let output = format!("log\n{FAILED}{VALUES}{BACKTRACE}\n");
    let whole = format!("log\n{FAILED}{DIFF}{FRAMES}");
    let text = shown(&output, Format::Text, limited(whole.len()));
    assert!(text.contains(&whole), "{text}");
    let text = shown(&output, Format::Text, limited(whole.len() - 1));
    assert!(text.contains(&whole["log\n".len()..]), "{text}");
    assert!(text.contains("\n(1 more line of output)\n"), "{text}");
}

#[test]
fn only_a_raw_text_without_colours_has_no_colours_of_the_report() {
    let output = format!("{FAILED}{VALUES}{BACKTRACE}\n\u{1b}[1mlog\u{1b}[K");
    let raw = Options {
        raw: true,
        ..OPTIONS
    };
    let text = shown(&output, Format::Text, raw);
    let wanted = format!("{FAILED}{DIFF}{FRAMES}\n\u{1b}[1mlog\u{1b}[K\n");
    assert!(text.contains(&wanted), "{text}");
    let text = shown(&output, Format::Text, Options { color: true, ..raw });
    for part in [
        "\n\u{1b}[31m-     price: 250,\u{1b}[0m\n\u{1b}[32m+     price: 249,\u{1b}[0m\n",
        "\n\u{1b}[1m   2: ledger::tests::adds\u{1b}[0m\n\u{1b}[1m             at ./src/a.rs:1:2\u{1b}[0m\n",
        "\n\u{1b}[1mlog\u{1b}[K\n",
    ] {
        assert!(text.contains(part), "{part:?} is not in {text}");
    }
}

#[test]
fn the_short_reason_and_the_place_are_found_without_colours() {
    let output = "log\u{1b}[31m\n\u{1b}[1mthread 'a' (7) panicked at src/a.rs:1:2:\u{1b}[0m\n\u{1b}[33mno\u{1b}[0m money\n";
    let model = json_of(&failed(output), OPTIONS);
    assert_eq!(model["short"], "panicked at src/a.rs:1:2: no money");
    assert_eq!(
        model["place"],
        json!({"file": "src/a.rs", "line": "1", "column": "2"})
    );
    let members = json!({"message": "\u{1b}[31mpanicked at src/b.rs:3:4\u{1b}[0m", "stdout": ""});
    let model = json_of(&run_of("failed", members), OPTIONS);
    assert_eq!(model["short"], "panicked at src/b.rs:3:4");
    assert_eq!(model["why"], "panicked at src/b.rs:3:4");
    assert_eq!(model["place"]["line"], "3");
}

#[test]
fn an_output_with_colours_is_shown_as_one_without() {
    let red = |text: &str| text.replace('x', "\u{1b}[31mx").replace('y', "y\u{1b}[0m");
    let long = "x word y".repeat(100);
    for output in [
        format!("{long}\nxx\n\nyy \n"),
        format!("x{long}\n{FAILED}{VALUES}y\n"),
        "x one y\n".repeat(30),
        format!("{}error: x no\ny", "log x\n".repeat(20)),
        "xError: y\nx\ny\n".to_string(),
        format!("x\n \n{}\nx \n\n", "y\n".repeat(20)),
        "x a\r\ny b\r\n".repeat(20),
    ] {
        let coloured = red(&output);
        for limit in [10, 50, 100, usize::MAX] {
            for display in [
                OutputDisplay::Auto,
                OutputDisplay::Short,
                OutputDisplay::Whole,
            ] {
                let options = Options {
                    output: display,
                    ..limited(limit)
                };
                for format in FORMS {
                    let (text, plain) = (
                        shown(&coloured, format, options),
                        shown(&output, format, options),
                    );
                    assert_eq!(text, plain, "{format:?} {options:?}");
                }
                let raw = Options {
                    raw: true,
                    color: true,
                    ..options
                };
                let text = without_colours(&shown(&coloured, Format::Text, raw));
                let plain = without_colours(&shown(&output, Format::Text, raw));
                assert_eq!(text, plain, "{raw:?}");
                let models = [&coloured, &output].map(|output| json_of(&failed(output), options));
                for member in ["short", "why"] {
                    assert_eq!(models[0][member], models[1][member], "{options:?}");
                }
                assert_eq!(models[0]["output"], coloured);
            }
        }
    }
}

#[test]
fn outputs_of_tests_that_passed_and_reasons_of_skipped_ones_have_no_colours() {
    let options = Options {
        success_output: TestOutputDisplay::Immediate,
        ..OPTIONS
    };
    let run = run_of(
        "ok",
        json!({"stdout": "\u{1b}[1mlog\u{1b}[0m\n\u{1b}[Kend\n"}),
    );
    let (text, _) = reported(options, Format::Text, &[&run]);
    assert!(text.contains("\n    log\n    \\u{1b}[Kend\n"), "{text}");
    let run = run_of("ignored", json!({"message": "needs \u{1b}[1ma bank"}));
    for format in [Format::Junit, Format::Html] {
        let (text, _) = reported(OPTIONS, format, &[&run]);
        assert!(text.contains("needs a bank"), "{text}");
    }
}

#[test]
fn the_cost_is_in_proportion_to_the_output() {
    let numbers = |factor: usize| (0..30_000).map(|n| n * factor).collect::<Vec<usize>>();
    for output in [
        format!("x{}y", "\u{1b}[31m".repeat(100_000)),
        "\u{1b}[31m\u{1b}[1mlog\n".repeat(30_000),
        format!("\u{1b}[31m{}", "log\n".repeat(30_000)),
        format!(
            "{FAILED}  left: {:?}\n right: {:?}\n",
            numbers(1),
            numbers(2)
        ),
        format!("{FAILED}{VALUES}{BACKTRACE}\n").repeat(300),
    ] {
        let text = shown(&output, Format::Text, OPTIONS);
        assert!(text.len() < 20_000, "{}", text.len());
        let page = shown(&output, Format::Html, OPTIONS);
        assert!(page.len() < 2 * output.len() + 40_000, "{}", page.len());
    }
}
