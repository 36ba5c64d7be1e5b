//! The text on a terminal and in a log: its last lines, commands, links, and lines that are too long.

use crate::reports::small_run::{PARTS, RUN};
use crate::reports::{OPTIONS, reported};
use deodarsieve_cli::report::options::Options;
use deodarsieve_cli::report::screen::Screen;
use deodarsieve_cli::report::{Files, Format};
use deodarsieve_cli::report_text::ReportText;
use deodarsieve_tests::reports::{new_report, read_files};
use std::time::Duration;

/// A terminal with many columns and without links, that no CI system reads.
const TERMINAL: Screen = Screen {
    is_terminal: true,
    is_for_people: true,
    columns: None,
    has_links: false,
};

/// Returns the text of a run on a screen.
fn shown(run: &str, screen: Screen) -> String {
    let options = Options { screen, ..OPTIONS };
    reported(options, Format::Text, &[run]).0
}

/// Returns the lines of a suite of failed tests, each with this output.
fn run_of(names: &[&str], output: &str) -> String {
    let output = serde_json::Value::from(output);
    let tests = names.iter().map(|name| {
        format!(
            "{{\"type\":\"test\",\"event\":\"started\",\"name\":\"{name}\"}}\n\
             {{\"type\":\"test\",\"event\":\"failed\",\"name\":\"{name}\",\"stdout\":{output}}}\n"
        )
    });
    format!(
        "{{\"type\":\"suite\",\"event\":\"started\",\"test_count\":{}}}\n{}{{\"type\":\"suite\",\"event\":\"failed\"}}\n",
        names.len(),
        tests.collect::<String>()
    )
}

/// Returns a link to a file of this package.
fn link_to(file: &str, label: &str) -> String {
    let mut link = ReportText::for_terminal();
    let folder = env!("CARGO_MANIFEST_DIR");
    link.push_link(&format!("file://{folder}/{file}"), label);
    link.finish()
}

/// Returns the list in a text.
fn list_of(text: &str) -> &str {
    let (_, list) = text.split_once("------------\n").expect("there is a list");
    let numbers = list.find("\n1 failed").or_else(|| list.find("\n2 failed"));
    &list[..=numbers.expect("the numbers follow")]
}

#[test]
fn on_a_terminal_the_numbers_are_last() {
    let (log, terminal) = (shown(RUN, Screen::LOG), shown(RUN, TERMINAL));
    assert_eq!(log, PARTS.concat());
    let (before, _) = log.rsplit_once("------------\n").expect("it has a summary");
    assert_eq!(terminal, before);
    assert!(terminal.ends_with("\n1 failed, 1 not run\n"), "{terminal}");
}

#[test]
fn what_a_ci_system_reads_has_no_command_of_a_test() {
    let run = run_of(&["::a"], "::error::x ##[group]\u{1b}[2J\u{202e}");
    let on_terminal = Screen {
        is_for_people: false,
        ..TERMINAL
    };
    for (screen, line) in [
        (Screen::LOG, "    :\\u{3a}error::x ##\\u{5b}group]"),
        (on_terminal, "    :\\u{3a}error::x ##\\u{5b}group]"),
        (TERMINAL, "    ::error::x ##[group]"),
    ] {
        let text = shown(&run, screen);
        let line = format!("{line}\\u{{1b}}[2J\\u{{202e}}\n");
        assert!(text.contains(&line), "{screen:?}: {text}");
    }
}

#[test]
fn places_are_links_if_the_screen_has_some_and_the_file_is_there() {
    let screen = Screen {
        has_links: true,
        ..TERMINAL
    };
    let panic_at = |place: &str| format!("thread 'a' (7) panicked at {place}:\nwhy");
    let (here, nowhere) = ("src/reports.rs:1:2", "src/nothing.rs:1:2");
    let link = link_to("src/reports.rs", here);
    for (place, screen, label) in [
        (here, screen, link.as_str()),
        (here, TERMINAL, here),
        (nowhere, screen, nowhere),
    ] {
        let text = shown(&run_of(&["a"], &panic_at(place)), screen);
        let list = format!("        FAIL {label}: suite 1 a: why\n");
        assert_eq!(list_of(&text), list);
        // Above the list a place is what the test wrote.
        assert!(text.contains(&format!("    thread 'a' (7) panicked at {place}:\n")));
        let text = shown(&run_of(&["a", "b"], &panic_at(place)), screen);
        let list = format!(
            "        FAIL 2 tests: {label}: why\n             suite 1 a\n             suite 1 b\n"
        );
        assert_eq!(list_of(&text), list);
    }
}

#[test]
fn lines_of_the_list_are_cut_to_forty_columns() {
    let screen = Screen {
        columns: Some(40),
        ..TERMINAL
    };
    let (long, too_long) = ("1234567890123456", "12345678901234567");
    let list = |run: &str| list_of(&shown(run, screen)).to_string();
    let fits = format!("        FAIL suite 1 a: {long}\n");
    assert_eq!(list(&run_of(&["a"], long)), fits);
    let cut = "        FAIL suite 1 a: 12345678901234..\n";
    assert_eq!(list(&run_of(&["a"], too_long)), cut);
    // Characters count as wide as they are shown.
    let cut = "        FAIL suite 1 a: 漢字漢字漢字漢..\n";
    assert_eq!(list(&run_of(&["a"], "漢字漢字漢字漢字漢")), cut);
    let names = ["b2345678901234567890", "a234567890123456789"];
    let cut = "        FAIL 2 tests: why\n             \
        suite 1 a234567890123456789\n             \
        suite 1 b2345678901234567..\n";
    assert_eq!(list(&run_of(&names, "why")), cut);
    let early = run_of(&["a"], "why");
    let (early, _) = early
        .rsplit_once("{\"type\":\"suite\"")
        .expect("it has a last line");
    let damaged = format!("{early}a damaged {{\"type\":\"test\",\"event\":\"failed\"\n");
    let cut = "        FAIL suite 1 a: why\n       \
        ERROR a damaged line says that ..\n       \
        ERROR suite 1 ended early\n";
    assert_eq!(list(&damaged), cut);
}

#[test]
fn a_link_in_a_line_that_is_cut_leads_to_the_whole_place() {
    let screen = Screen {
        columns: Some(20),
        has_links: true,
        ..TERMINAL
    };
    let panic = "thread 'a' (7) panicked at src/reports.rs:1:2:\nwhy";
    let text = shown(&run_of(&["a"], panic), screen);
    let list = format!("        FAIL {}..\n", link_to("src/reports.rs", "src/r"));
    assert_eq!(list_of(&text), list);
}

#[test]
fn only_the_list_is_cut() {
    let screen = Screen {
        columns: Some(10),
        ..TERMINAL
    };
    let text = shown(&run_of(&["adds", "pays"], "no money"), screen);
    let wanted = "FAIL suite 1 adds\n    no money\n\
        FAIL suite 1 pays\n    no money\n\
        ------------\n        \
        ..\n        ..\n        ..\n\
        2 failed\n";
    assert_eq!(text, wanted);
}

#[test]
fn the_time_of_a_command_follows_the_numbers() {
    for (millis, wanted) in [
        (0, "1 failed, 1 not run in 0.0 s"),
        (8_149, "1 failed, 1 not run in 8.1 s"),
        (61_000, "1 failed, 1 not run in 61.0 s"),
    ] {
        let mut report = new_report(OPTIONS, Format::Text, Files::default());
        let mut written = Vec::new();
        report.add_duration(Duration::from_millis(millis));
        read_files(&mut report, &[RUN], &mut written).expect("the numbers fit");
        report.finish(None, &mut written).expect("the report ends");
        let text = String::from_utf8(written).expect("it is UTF-8");
        assert!(text.contains(&format!("\n{wanted}\n")), "{text}");
    }
}
