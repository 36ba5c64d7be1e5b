//! What shows the text for people: a terminal, or a log.

use crate::report::escape::line;
use crate::report::output::Text;
use crate::report_text::Style;
use std::borrow::Cow;
use std::env;
use std::io::{self, IsTerminal};
use std::path::Path;
use terminal_size::terminal_size;
use unicode_width::UnicodeWidthChar;

/// What follows a line that is cut.
const CUT: &str = "..";

/// Variables that terminals with links set, and the values that they then have. An empty list means any value.
const SIGNS_OF_LINKS: [(&str, &[&str]); 8] = [
    (
        "TERM",
        &[
            "xterm-kitty",
            "xterm-ghostty",
            "alacritty",
            "foot",
            "wezterm",
        ],
    ),
    (
        "TERM_PROGRAM",
        &["iTerm.app", "WezTerm", "vscode", "ghostty", "Hyper", "rio"],
    ),
    ("VTE_VERSION", &[]),
    ("KITTY_WINDOW_ID", &[]),
    ("KONSOLE_VERSION", &[]),
    ("WT_SESSION", &[]),
    ("DOMTERM", &[]),
    ("ALACRITTY_WINDOW_ID", &[]),
];

/// What shows the text for people.
#[derive(Clone, Copy, Debug, PartialEq, Eq)]
pub struct Screen {
    /// True for a terminal. There the summary has no line for scripts.
    pub is_terminal: bool,

    /// True if no CI system reads the text. Then nothing in it is a command.
    pub is_for_people: bool,

    /// The number of columns, if it is known. Longer lines of the list at the end are cut.
    pub columns: Option<usize>,

    /// True if places in the sources are links.
    pub has_links: bool,
}

impl Screen {
    /// A log, which a CI system may read.
    pub const LOG: Screen = Screen {
        is_terminal: false,
        is_for_people: false,
        columns: None,
        has_links: false,
    };

    /// Returns what standard output is, by the variables of the environment.
    pub fn of_standard_output() -> Screen {
        if !io::stdout().is_terminal() {
            return Screen::LOG;
        }
        Screen {
            is_terminal: true,
            is_for_people: !is_set("CI"),
            columns: terminal_size().map(|(width, _)| usize::from(width.0)),
            has_links: !is_dumb_terminal() && has_sign_of_links(),
        }
    }
}

/// Returns true if a variable of the environment has a value that is not empty.
pub fn is_set(variable: &str) -> bool {
    env::var_os(variable).is_some_and(|value| !value.is_empty())
}

/// Returns true if the terminal has no colours, no links, and no line that is written anew.
pub fn is_dumb_terminal() -> bool {
    env::var_os("TERM").is_some_and(|term| term == "dumb")
}

/// Returns true if a variable says that the terminal has links. In `tmux` and `screen` it says so of another one.
fn has_sign_of_links() -> bool {
    let is_inside_other = is_set("TMUX") || is_set("STY");
    let is_sign = |(variable, values): &(&str, &[&str])| {
        is_set(variable)
            && (values.is_empty()
                || env::var(variable).is_ok_and(|it| values.contains(&it.as_str())))
    };
    let is_forced =
        env::var_os("FORCE_HYPERLINK").is_some_and(|value| !value.is_empty() && value != "0");
    is_forced || !is_inside_other && SIGNS_OF_LINKS.iter().any(is_sign)
}

/// A line for a screen, in parts.
#[derive(Default)]
pub(crate) struct ScreenLine<'a> {
    parts: Vec<(Cow<'a, str>, Look)>,
}

/// How a part of a line looks.
enum Look {
    Plain,
    Styled(Style),

    /// It is a text of a test, as it was.
    Raw,

    /// It is a link to a place in the sources.
    Link(String),
}

impl<'a> ScreenLine<'a> {
    /// Adds a text without control characters.
    pub(crate) fn push(&mut self, text: impl Into<Cow<'a, str>>) {
        self.parts.push((text.into(), Look::Plain));
    }

    /// Adds such a text in a style.
    pub(crate) fn push_styled(&mut self, text: impl Into<Cow<'a, str>>, style: Style) {
        self.parts.push((text.into(), Look::Styled(style)));
    }

    /// Adds a line of a test. It is left as it is if `is_raw` is true, and otherwise a tab is shown as a space.
    pub(crate) fn push_input(&mut self, text: &'a str, is_raw: bool) {
        if is_raw {
            self.parts.push((text.into(), Look::Raw));
        } else {
            self.push(line(&text.replace('\t', " ")));
        }
    }

    /// Adds a place in the sources, such as `src/lib.rs:9:32`. It is a link if the screen has some and the file is there.
    pub(crate) fn push_place(&mut self, place: &'a str, screen: Screen) {
        let link = Some(place).filter(|_| screen.has_links).and_then(link_to);
        self.parts
            .push((line(place).into(), link.map_or(Look::Plain, Look::Link)));
    }

    /// Appends the line to a text. If it has more columns than the screen, its end is cut.
    pub(crate) fn push_to(&self, text: &mut Text, screen: Screen) {
        let characters = self.parts.iter().flat_map(|(part, _)| part.chars());
        let width: usize = characters.map(columns_of).sum();
        let is_cut = screen.columns.is_some_and(|columns| width > columns);
        let mut left = match screen.columns {
            Some(columns) if is_cut => columns.saturating_sub(CUT.len()),
            Some(_) | None => usize::MAX,
        };
        for (part, look) in &self.parts {
            let (shown, columns) = front(part, left);
            left -= columns;
            match look {
                Look::Plain => text.push(shown),
                Look::Styled(style) => text.push_styled(shown, *style),
                Look::Raw => text.push_input(shown),
                Look::Link(target) => text.push_link(target, shown),
            }
            if shown.len() < part.len() {
                break;
            }
        }
        text.push(if is_cut { CUT } else { "" });
        text.push("\n");
    }
}

/// Returns the number of columns of a character.
fn columns_of(c: char) -> usize {
    c.width().unwrap_or(0)
}

/// Returns as much of the front of a text as has at most this number of columns, and how many it has.
fn front(text: &str, most: usize) -> (&str, usize) {
    let mut columns = 0;
    for (at, c) in text.char_indices() {
        let after = columns + columns_of(c);
        if after > most {
            return (&text[..at], columns);
        }
        columns = after;
    }
    (text, columns)
}

/// Returns the target of a link to a place in the sources: its file, in this folder or in one that has this folder in it.
/// The compiler names files from the folder of the workspace on. Returns `None` if there is no such file.
fn link_to(place: &str) -> Option<String> {
    let folder = env::current_dir().ok()?;
    let file = file_of(place);
    let path = folder
        .ancestors()
        .map(|folder| folder.join(file))
        .find(|path| path.is_file())?;
    Some(format!("file://{}", path.to_str()?))
}

/// Returns the file of a place: what is before the number of its line.
fn file_of(place: &str) -> &Path {
    let without_number = |text: &'_ str| -> Option<usize> {
        let (file, number) = text.rsplit_once(':')?;
        number
            .bytes()
            .all(|byte| byte.is_ascii_digit())
            .then_some(file.len())
    };
    let line = without_number(place).unwrap_or(place.len());
    let file = without_number(&place[..line]).unwrap_or(line);
    Path::new(&place[..file])
}

#[cfg(test)]
mod tests {
    use super::*;
    use crate::report::options::Options;

    /// Returns what a screen shows of a line of these parts, the first of which is bold.
    fn shown(parts: [&str; 2], columns: usize) -> String {
        let screen = Screen {
            columns: Some(columns),
            ..Screen::LOG
        };
        let mut line = ScreenLine::default();
        line.push_styled(parts[0], Style::Bold);
        line.push(parts[1]);
        let mut text = Text::new(Options {
            screen,
            color: true,
            ..Options::DEFAULT
        });
        line.push_to(&mut text, screen);
        let mut bytes = Vec::new();
        text.write_to(&mut bytes).expect("a vector can be written");
        String::from_utf8(bytes).expect("it is UTF-8")
    }

    #[test]
    fn a_line_that_is_too_long_is_cut() {
        let bold = |text: &str| format!("\u{1b}[1m{text}\u{1b}[0m");
        for (parts, columns, wanted) in [
            (["FAIL", " abc"], 8, bold("FAIL") + " abc\n"),
            (["FAIL", " abc"], 7, bold("FAIL") + " ..\n"),
            (["FAIL", " abc"], 6, bold("FAIL") + "..\n"),
            (["FAIL", " abc"], 5, bold("FAI") + "..\n"),
            (["FAIL", " abc"], 1, bold("") + "..\n"),
            // Each of these characters has two columns.
            (["漢字", "漢字"], 8, bold("漢字") + "漢字\n"),
            (["漢字", "漢字"], 7, bold("漢字") + "..\n"),
        ] {
            assert_eq!(shown(parts, columns), wanted, "{parts:?} {columns}");
        }
    }

    #[test]
    fn the_file_of_a_place_is_before_its_line() {
        for (place, file) in [
            ("src/lib.rs:9:32", "src/lib.rs"),
            ("src/lib.rs:9", "src/lib.rs"),
            ("a:b.rs:9:32", "a:b.rs"),
            ("src/lib.rs", "src/lib.rs"),
        ] {
            assert_eq!(file_of(place), Path::new(file));
        }
    }

    #[test]
    fn a_link_leads_to_a_file_of_this_folder_or_of_one_around_it() {
        let package = Path::new(env!("CARGO_MANIFEST_DIR"));
        let file = Path::new("src/report/screen.rs");
        let from_around = Path::new(package.file_name().expect("it has a name")).join(file);
        let link = format!("file://{}", package.join(file).display());
        for place in [file.display(), from_around.display()] {
            assert_eq!(link_to(&format!("{place}:1:2")), Some(link.clone()));
        }
        assert_eq!(link_to("src/none.rs:1:2"), None);
    }
}
