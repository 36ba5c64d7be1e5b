//! A man page while it is written, in the language roff.
//!
//! Each text may have code in backquotes, which becomes bold, and links. The page keeps only the text of a link.

/// Characters that troff does not print as they are, and how it prints them. The first is in the others.
const ESCAPES: [(char, &str); 7] = [
    ('\\', r"\e"),
    ('-', r"\-"),
    ('`', r"\(ga"),
    ('\'', r"\(aq"),
    ('"', r"\(dq"),
    ('^', r"\(ha"),
    ('~', r"\(ti"),
];

/// A man page, as the lines of roff that it has so far.
pub struct Page {
    roff: String,
}

impl Page {
    /// Returns the page of a program, with its title and what its foot says, and no section.
    pub fn new(program: &str, foot: &str) -> Page {
        let title = escaped(&program.to_uppercase());
        let roff = format!(".TH \"{title}\" \"1\" \"\" \"{}\" \"\"\n", escaped(foot));
        Page { roff }
    }

    /// Begins a section.
    pub fn section(&mut self, heading: &str) {
        self.request(&format!(".SH {}", escaped(&heading.to_uppercase())));
    }

    /// Adds a paragraph.
    pub fn paragraph(&mut self, text: &str) {
        self.request(".PP");
        self.text(text);
    }

    /// Adds an item of a list: its mark, which is `-` or a number such as `1.`, and its text.
    pub fn item(&mut self, mark: &str, text: &str) {
        let mark = if mark == "-" { r"\(bu" } else { mark };
        self.request(&format!(".IP {mark} 4"));
        self.text(text);
    }

    /// Adds the explanation of some words, which may have a value after them.
    pub fn entry(&mut self, words: &str, value: &str, text: &str) {
        self.request(".TP");
        let space = if words.is_empty() || value.is_empty() {
            ""
        } else {
            " "
        };
        self.request(&format!("{}{space}{}", font('B', words), font('I', value)));
        self.text(text);
    }

    /// Adds lines of code, which stay as they are.
    pub fn code<'line>(&mut self, lines: impl IntoIterator<Item = &'line str>) {
        self.request(".PP");
        self.request(".EX");
        for line in lines {
            self.line(&escaped(line));
        }
        self.request(".EE");
    }

    /// Adds a text to the paragraph, the item or the entry above it, or to the section if that is empty. A line that
    /// begins with `- ` stays a line of its own.
    pub fn text(&mut self, text: &str) {
        for line in inline(text).lines() {
            if line.starts_with(r"\- ") {
                self.request(".br");
            }
            self.line(line);
        }
    }

    /// Adds a text as a line that is joined with no other.
    pub fn line_of_its_own(&mut self, text: &str) {
        self.request(".br");
        self.text(text);
    }

    /// Returns the whole page.
    pub fn into_roff(self) -> String {
        self.roff
    }

    /// Adds a line of text. A dot at its start would make it a request, so `\&` comes first.
    fn line(&mut self, line: &str) {
        let start = if line.starts_with('.') { r"\&" } else { "" };
        self.request(&format!("{start}{line}"));
    }

    /// Adds a line as it is.
    fn request(&mut self, line: &str) {
        self.roff.push_str(line);
        self.roff.push('\n');
    }
}

/// Returns a text so that troff prints each of its characters. It has no quote, which would make a line a
/// request if it came first, or would end a title.
fn escaped(text: &str) -> String {
    let escapes = ESCAPES.iter();
    escapes.fold(text.to_owned(), |text, (character, escape)| {
        text.replace(*character, escape)
    })
}

/// Returns a text in a font, and in the font of the page after it.
fn font(name: char, text: &str) -> String {
    if text.is_empty() {
        return String::new();
    }
    format!(r"\f{name}{}\fR", escaped(text))
}

/// Returns a text in roff: code in backquotes is bold, other bold text is plain, and links are their texts.
fn inline(text: &str) -> String {
    let text = without_links(text).replace("**", "");
    let parts = text.split('`').enumerate();
    parts
        .map(|(at, part)| {
            if at % 2 == 0 {
                escaped(part)
            } else {
                code(part)
            }
        })
        .collect()
}

/// Returns code in bold. If it begins or ends with a space, its backquotes show that, and no line ends in it.
fn code(text: &str) -> String {
    let bold = font('B', text);
    if text.trim() == text {
        return bold;
    }
    format!(r"\(ga{}\(ga", bold.replace(' ', r"\ "))
}

/// Returns a text with each link `[text](target)` replaced by its own text.
pub fn without_links(text: &str) -> String {
    let mut parts = text.split("](");
    let mut plain = parts.next().unwrap_or_default().to_owned();
    for part in parts {
        if let (Some(opening), Some((_, rest))) = (plain.rfind('['), part.split_once(')')) {
            plain.remove(opening);
            plain.push_str(rest);
        } else {
            plain.push_str("](");
            plain.push_str(part);
        }
    }
    plain
}

#[cfg(test)]
mod tests {
    use super::*;

    /// Returns what a page has after its title.
    fn written(write: impl FnOnce(&mut Page)) -> String {
        let mut page = Page::new("a-program", "a-program 1.2");
        write(&mut page);
        let roff = page.into_roff();
        let title = ".TH \"A\\-PROGRAM\" \"1\" \"\" \"a\\-program 1.2\" \"\"\n";
        roff.strip_prefix(title)
            .expect("the title comes first")
            .to_owned()
    }

    #[test]
    fn troff_prints_each_character() {
        assert_eq!(escaped(r"a\n --raw"), r"a\en \-\-raw");
        assert_eq!(
            escaped("`it's' \"^~\""),
            r"\(gait\(aqs\(aq \(dq\(ha\(ti\(dq"
        );
        assert_eq!(escaped("a.b, $1 | €"), "a.b, $1 | €");
    }

    #[test]
    fn no_line_of_a_text_is_a_request() {
        let text = ".. | sh\n'quoted'\n`.hidden`";
        let wanted = "\\&.. | sh\n\\(aqquoted\\(aq\n\\fB.hidden\\fR\n";
        assert_eq!(written(|page| page.text(text)), wanted);
        assert_eq!(
            written(|page| page.code([".PP", "\\n"])),
            ".PP\n.EX\n\\&.PP\n\\en\n.EE\n"
        );
    }

    #[test]
    fn each_part_has_its_request() {
        assert_eq!(
            written(|page| page.section("Exit status")),
            ".SH EXIT STATUS\n"
        );
        assert_eq!(
            written(|page| page.paragraph("One.\nTwo.")),
            ".PP\nOne.\nTwo.\n"
        );
        assert_eq!(written(|page| page.item("-", "one")), ".IP \\(bu 4\none\n");
        assert_eq!(written(|page| page.item("2.", "two")), ".IP 2. 4\ntwo\n");
    }

    #[test]
    fn words_are_bold_and_values_italic() {
        let entry = |words, value| written(|page| page.entry(words, value, "is it"));
        assert_eq!(
            entry("--limit", "<N>"),
            ".TP\n\\fB\\-\\-limit\\fR \\fI<N>\\fR\nis it\n"
        );
        assert_eq!(entry("--raw", ""), ".TP\n\\fB\\-\\-raw\\fR\nis it\n");
        assert_eq!(entry("", "[FILE]"), ".TP\n\\fI[FILE]\\fR\nis it\n");
    }

    #[test]
    fn code_is_bold_and_shows_its_spaces() {
        assert_eq!(inline("`--raw`, and so on"), "\\fB\\-\\-raw\\fR, and so on");
        assert_eq!(inline("after ` slow`"), "after \\(ga\\fB\\ slow\\fR\\(ga");
    }

    #[test]
    fn bold_text_is_plain() {
        assert_eq!(inline("**It is `so`.** Yes"), "It is \\fBso\\fR. Yes");
    }

    #[test]
    fn links_are_their_texts() {
        assert_eq!(
            without_links("a [link](#one), and [another](two.md)."),
            "a link, and another."
        );
        assert_eq!(
            inline("[`code`](#code) of [a] list"),
            "\\fBcode\\fR of [a] list"
        );
        assert_eq!(without_links("no [link](here"), "no [link](here");
        assert_eq!(without_links("nor](here)"), "nor](here)");
    }
}
