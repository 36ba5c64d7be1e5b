//! What a terminal or a CI system reads in a `ReportText`, with its sequences and without them. That the text without its
//! sequences has no other commands is proved. The rest is tested here, over generated pushes.

use deodarsieve_cli::report_text::{Kind, Property, PropertyName, ReportText, Style};

/// Pieces that are dangerous alone or together.
const PIECES: [&str; 20] = [
    "a",
    " ",
    "\t",
    "\n",
    "\r",
    "\u{3000}",
    "\u{2028}",
    ":",
    "::",
    "::error::x",
    "#",
    "##",
    "[",
    "vso[",
    "teamcity[",
    "\u{1b}[1m",
    "\u{1b}[",
    "\u{1b}]8;;x\u{1b}\\",
    "\u{9b}1m",
    "\u{202e}",
];

const STYLES: [Style; 4] = [Style::Reset, Style::Bold, Style::BoldRed, Style::Yellow];

/// Numbers from a fixed seed.
struct Numbers(u64);

impl Numbers {
    /// Returns a number below `end`.
    fn below(&mut self, end: usize) -> usize {
        self.0 ^= self.0 << 13;
        self.0 ^= self.0 >> 7;
        self.0 ^= self.0 << 17;
        (self.0 % end as u64) as usize
    }

    /// Returns a few pieces.
    fn text(&mut self) -> String {
        let count = self.below(5);
        (0..count)
            .map(|_| PIECES[self.below(PIECES.len())])
            .collect()
    }
}

/// Makes a random push. A command is added to `commands` as it must be written.
fn push(text: &mut ReportText, numbers: &mut Numbers, commands: &mut Vec<String>) {
    match numbers.below(7) {
        0 | 1 => text.push(&numbers.text()),
        2 => text.push_line(&numbers.text()),
        3 => text.push_coloured(&numbers.text()),
        4 => text.push_style(STYLES[numbers.below(STYLES.len())]),
        5 => text.push_link(&numbers.text(), &numbers.text()),
        _ => {
            let message = format!("message {}", commands.len());
            let title = Property {
                name: PropertyName::Title,
                value: "a,b",
            };
            text.push_command(Kind::Error, &[title], &message);
            commands.push(format!("error title=a%2Cb::{message}"));
        }
    }
}

/// Returns a text without the sequences that begin with `start` and end with `end`.
fn without(text: &str, start: &str, end: &str) -> String {
    let mut rest = text;
    let mut kept = String::new();
    while let Some((before, after)) = rest.split_once(start) {
        kept.push_str(before);
        rest = after.split_once(end).expect("a sequence is whole").1;
    }
    kept + rest
}

/// Returns a text without colours, and a text without links.
fn without_colours(text: &str) -> String {
    without(text, "\u{1b}[", "m")
}

fn without_links(text: &str) -> String {
    without(text, "\u{1b}]8;;", "\u{1b}\\")
}

/// Returns what follows `::` in each line that begins with it after white space.
fn commands_in(text: &str) -> Vec<&str> {
    text.split('\n')
        .filter_map(|line| line.trim_start().strip_prefix("::"))
        .collect()
}

/// Returns true for a control character except a tab and a line feed, and for one that changes the direction of writing.
fn is_hidden(c: char) -> bool {
    (c.is_control() && c != '\t' && c != '\n')
        || matches!(c, '\u{61c}' | '\u{200e}' | '\u{200f}' | '\u{202a}'..='\u{202e}' | '\u{2066}'..='\u{2069}')
}

#[test]
fn no_view_of_a_text_has_other_commands_or_control_characters() {
    let mut numbers = Numbers(0x9e37_79b9_7f4a_7c15);
    for _ in 0..4_000 {
        let (mut text, mut commands, mut written) = (ReportText::new(), Vec::new(), String::new());
        for _ in 0..numbers.below(20) {
            push(&mut text, &mut numbers, &mut commands);
            if numbers.below(8) == 0 {
                written.push_str(&text.take());
            }
        }
        written.push_str(&text.finish());
        let plain = without_links(&without_colours(&written));
        assert!(!plain.contains(is_hidden), "{written:?}");
        for view in [
            &written,
            &without_colours(&written),
            &without_links(&written),
            &plain,
        ] {
            assert_eq!(commands_in(view), commands, "{written:?}");
            for mark in ["##[", "##vso[", "##teamcity["] {
                assert!(!view.contains(mark), "{written:?}");
            }
        }
    }
}

#[test]
fn it_does_not_matter_how_a_text_is_divided() {
    let mut numbers = Numbers(7);
    for _ in 0..4_000 {
        let whole = numbers.text();
        let (mut once, mut divided) = (ReportText::new(), ReportText::new());
        once.push(&whole);
        for c in whole.chars() {
            divided.push(c.encode_utf8(&mut [0; 4]));
        }
        assert_eq!(once.finish(), divided.finish(), "{whole:?}");
    }
}

#[test]
fn a_text_for_a_terminal_keeps_what_only_a_log_reads() {
    let mut text = ReportText::for_terminal();
    text.push("::error::x\n##[group]\u{1b}[1m\n");
    text.push_link("file:///a b#c", "l\nb");
    assert_eq!(
        text.finish(),
        "::error::x\n##[group]\\u{1b}[1m\n\u{1b}]8;;file:///a%20b%23c\u{1b}\\l\\u{a}b\u{1b}]8;;\u{1b}\\"
    );
}
