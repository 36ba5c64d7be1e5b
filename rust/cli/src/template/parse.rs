// Made by tools/erase from crates/template/src/parse.rt. Do not edit.
//! The parser of templates.

use crate::template::hole::Hole;
use crate::template::part::Part;

/// What a name between braces means.
#[derive(Clone, Copy)]
enum Kind {
    /// `{{name}}`: a hole in a tag, or between tags.
    Value,

    /// `{{*name}}`: a hole of Markdown, outside of `<pre>`.
    Plain,

    /// `{{#name}}`: a section for each item.
    Each,

    /// `{{^name}}`: a section if there is no item.
    Otherwise,

    /// `{{/name}}`: the end of a section.
    End,
}

/// A section that is not over.
#[derive(Clone)]
struct Section {
    for_each: bool,
    name: String,
    before: Vec<Part>,
}

/// What was parsed.
#[derive(Clone)]
struct Parsed {
    /// The sections that are not over, the innermost last.
    sections: Vec<Section>,

    /// The parts of the innermost section.
    parts: Vec<Part>,

    /// The text is in a tag.
    in_tag: bool,
}

/// The state of the parser.
#[derive(Clone)]
enum Parsing {
    /// In a text, which is this so far.
    InText(Parsed, String),

    /// After a text and a brace.
    OneBrace(Parsed, String),

    /// After two braces.
    TwoBraces(Parsed),

    /// In a name.
    InName(Parsed, Kind, String),

    /// After a name and a brace.
    NameEnd(Parsed, Kind, String),

    /// The text is no template.
    Bad,
}

impl Parsed {
    /// Adds a part.
    fn with_part(mut self, part: Part) -> Parsed {
        self.parts.push(part);
        self
    }

    /// Adds a text, unless it is empty.
    fn with_text(self, text: String) -> Parsed {
        if text.is_empty() {
            self
        } else {
            self.with_part(Part::Text(text))
        }
    }

    /// Returns the state after a part.
    fn after_part(self, part: Part) -> Parsing {
        let parsed = self.with_part(part);
        Parsing::InText(parsed, String::new())
    }

    /// Returns the state after the beginning of a section.
    fn begin_section(self, for_each: bool, name: String) -> Parsing {
        let Parsed {
            mut sections,
            parts,
            in_tag,
        } = self;
        sections.push(Section {
            for_each,
            name,
            before: parts,
        });
        let parsed = Parsed {
            sections,
            parts: Vec::new(),
            in_tag,
        };
        Parsing::InText(parsed, String::new())
    }

    /// Ends a section.
    fn close(self, name: &str) -> Parsing {
        let Parsed {
            mut sections,
            parts,
            in_tag,
        } = self;
        match sections.pop() {
            Some(section) => {
                if section.name.as_str() != name {
                    return Parsing::Bad;
                }
                let part = section_part(section.for_each, section.name, parts);
                let outer = Parsed {
                    sections,
                    parts: section.before,
                    in_tag,
                };
                outer.after_part(part)
            }
            None => Parsing::Bad,
        }
    }

    /// Returns the state after a name.
    fn on_name(self, kind: Kind, name: String) -> Parsing {
        match kind {
            Kind::Value => {
                let kind = kind_at(self.in_tag);
                self.after_part(Part::Hole { kind, name })
            }
            Kind::Plain => {
                let kind = Hole::Plain;
                self.after_part(Part::Hole { kind, name })
            }
            Kind::Each => self.begin_section(true, name),
            Kind::Otherwise => self.begin_section(false, name),
            Kind::End => self.close(name.as_str()),
        }
    }

    /// Returns the state after one more character of a text.
    fn more_text(mut self, mut text: String, c: char) -> Parsing {
        self.in_tag = in_tag_after(self.in_tag, c);
        text.push(c);
        self.end_line(text, c)
    }

    /// Returns the state after a text. If it ends a line, it is a part of its own.
    fn end_line(self, text: String, c: char) -> Parsing {
        if c == '\n' {
            Parsing::InText(self.with_text(text), String::new())
        } else {
            Parsing::InText(self, text)
        }
    }

    /// Returns the state after a text, a brace and a character.
    fn after_brace(self, mut text: String, c: char) -> Parsing {
        if c == '{' {
            Parsing::TwoBraces(self.with_text(text))
        } else {
            text.push('{');
            self.more_text(text, c)
        }
    }

    /// Returns the state after one more character of a name.
    fn more_name(self, kind: Kind, mut name: String, c: char) -> Parsing {
        if c == '}' {
            Parsing::NameEnd(self, kind, name)
        } else {
            name.push(c);
            Parsing::InName(self, kind, name)
        }
    }

    /// Returns the state after the first character after two braces.
    fn begin_name(self, c: char) -> Parsing {
        let mut name = String::new();
        match c {
            '#' => Parsing::InName(self, Kind::Each, name),
            '^' => Parsing::InName(self, Kind::Otherwise, name),
            '/' => Parsing::InName(self, Kind::End, name),
            '*' => Parsing::InName(self, Kind::Plain, name),
            '{' | '}' => Parsing::Bad,
            _ => {
                name.push(c);
                Parsing::InName(self, Kind::Value, name)
            }
        }
    }
}

/// Returns the part of a section with these parts.
fn section_part(for_each: bool, name: String, parts: Vec<Part>) -> Part {
    if for_each {
        Part::Each { name, parts }
    } else {
        Part::Otherwise { name, parts }
    }
}

/// Returns the kind of a hole in a tag, or between tags.
fn kind_at(in_tag: bool) -> Hole {
    if in_tag { Hole::Attribute } else { Hole::Text }
}

/// Returns true if a text is in a tag after a character.
fn in_tag_after(in_tag: bool, c: char) -> bool {
    match c {
        '<' => true,
        '>' => false,
        _ => in_tag,
    }
}

impl Parsing {
    /// Returns the state after one more character.
    fn step(self, c: char) -> Parsing {
        match self {
            Parsing::InText(parsed, text) => {
                if c == '{' {
                    Parsing::OneBrace(parsed, text)
                } else {
                    parsed.more_text(text, c)
                }
            }
            Parsing::OneBrace(parsed, text) => parsed.after_brace(text, c),
            Parsing::TwoBraces(parsed) => parsed.begin_name(c),
            Parsing::InName(parsed, kind, name) => parsed.more_name(kind, name, c),
            Parsing::NameEnd(parsed, kind, name) => {
                if c == '}' {
                    parsed.on_name(kind, name)
                } else {
                    Parsing::Bad
                }
            }
            Parsing::Bad => Parsing::Bad,
        }
    }

    /// Returns the parts, if the text is over here.
    fn finish(self) -> Option<Vec<Part>> {
        match self {
            Parsing::InText(parsed, text) => {
                let parsed = parsed.with_text(text);
                if parsed.sections.is_empty() {
                    Some(parsed.parts)
                } else {
                    None
                }
            }
            Parsing::OneBrace(..)
            | Parsing::TwoBraces(..)
            | Parsing::InName(..)
            | Parsing::NameEnd(..)
            | Parsing::Bad => None,
        }
    }
}

/// Returns the parts of a template. `None` means that a section is not ended, that its end has another name, that a
/// name begins with a brace or does not end with two braces, or that the last character of the text is `{`.
pub fn parse_template(text: &str) -> Option<Vec<Part>> {
    let parsed = Parsed {
        sections: Vec::new(),
        parts: Vec::new(),
        in_tag: false,
    };
    let mut state = Parsing::InText(parsed, String::new());
    for c in text.chars() {
        state = state.step(c);
    }
    state.finish()
}
