//! The man page of a program: its arguments as clap knows them, and sections of its document.

use crate::document::add_section;
use crate::page::Page;
use clap::builder::StyledStr;
use clap::{Arg, Command};

/// How the paragraphs of `--help` begin that are sections of the man page.
const EXAMPLES: &str = "Examples";
const EXIT_STATUS: &str = "Exit status:";

/// What the proved program does if memory runs out. The program that cargo builds aborts then.
const OUT_OF_MEMORY: &str = "The status is also 3 if there was not enough memory.";

/// The document of a program.
#[derive(Clone, Copy)]
pub struct Document {
    /// Its path in the repository.
    pub path: &'static str,
    /// Its text, in Markdown.
    pub text: &'static str,
    /// The sections that the man page has, each with its heading there.
    pub sections: &'static [(&'static str, &'static str)],
    /// Whether a release has the proved program.
    pub is_proved: bool,
}

/// Returns the man page of a program. The error says which section the document lacks.
pub fn man_page(mut command: Command, document: &Document) -> Result<String, String> {
    command.build();
    let usage = command.render_usage().to_string();
    let help = plain(command.get_after_long_help().or(command.get_after_help()));
    let (sections, description): (Vec<_>, Vec<_>) = help.split("\n\n").partition(is_section);
    let mut page = Page::new(command.get_name(), command.render_version().trim_end());
    add_name(&mut page, &command, usage.trim_start_matches("Usage: "));
    for paragraph in description {
        add_paragraph(&mut page, paragraph);
    }
    add_arguments(&mut page, &command);
    add_sections(&mut page, document)?;
    for paragraph in sections {
        add_section_of_help(&mut page, paragraph, document.is_proved);
    }
    Ok(page.into_roff())
}

/// Adds the name of a program, what it does, and how it is called, and begins its description.
fn add_name(page: &mut Page, command: &Command, usage: &str) {
    let (name, about) = (command.get_name(), plain(command.get_about()));
    page.section("Name");
    page.text(&format!("{name} - {about}"));
    page.section("Synopsis");
    for line in usage.lines() {
        page.line_of_its_own(&line.trim_start().replacen(name, &format!("`{name}`"), 1));
    }
    page.section("Description");
    page.text(&format!("{about}."));
}

/// Adds the sections of a document. The error says which one it lacks.
fn add_sections(page: &mut Page, document: &Document) -> Result<(), String> {
    for (name, heading) in document.sections {
        add_section(page, document.text, name, heading)
            .ok_or_else(|| format!("{} has no section {name}", document.path))?;
    }
    Ok(())
}

/// Returns a text of clap without its style.
fn plain(text: Option<&StyledStr>) -> String {
    text.map(ToString::to_string).unwrap_or_default()
}

/// Adds the arguments, the commands and the options of a program, each as a section if there are any.
fn add_arguments(page: &mut Page, command: &Command) {
    let arguments = command.get_arguments();
    let (files, options): (Vec<_>, Vec<_>) = arguments.partition(|it| it.is_positional());
    add_list(page, "Arguments", &files);
    if command.has_subcommands() {
        page.section("Commands");
    }
    for subcommand in command.get_subcommands() {
        page.entry(subcommand.get_name(), "", &plain(subcommand.get_about()));
    }
    add_list(page, "Options", &options);
}

/// Adds a section of arguments, unless there are none.
fn add_list(page: &mut Page, heading: &str, arguments: &[&Arg]) {
    if !arguments.is_empty() {
        page.section(heading);
    }
    for argument in arguments {
        let text = plain(argument.get_long_help().or(argument.get_help()));
        page.entry(&flags_of(argument), &value_of(argument), &text);
    }
}

/// Returns the flags of an option, the short one first, or nothing for another argument.
fn flags_of(argument: &Arg) -> String {
    let short = argument.get_short().map(|letter| format!("-{letter}"));
    let long = argument.get_long().map(|name| format!("--{name}"));
    short.into_iter().chain(long).collect::<Vec<_>>().join(", ")
}

/// Returns what comes after the flags of an option, such as `<FILE>`, or the name of another argument.
fn value_of(argument: &Arg) -> String {
    let shown = argument.to_string();
    if argument.is_positional() {
        return shown;
    }
    shown
        .split_once(' ')
        .map_or_else(String::new, |(_, value)| value.to_owned())
}

/// Returns true if a paragraph of `--help` is a section of its own, and no part of the description.
fn is_section(paragraph: &&str) -> bool {
    paragraph.starts_with(EXAMPLES) || paragraph.starts_with(EXIT_STATUS)
}

/// Adds the section that a paragraph of `--help` is.
fn add_section_of_help(page: &mut Page, paragraph: &str, is_proved: bool) {
    if let Some(statuses) = paragraph.strip_prefix(EXIT_STATUS) {
        page.section("Exit status");
        add_statuses(page, statuses);
        if is_proved {
            page.paragraph(OUT_OF_MEMORY);
        }
    } else {
        page.section("Examples");
        add_paragraph(page, paragraph);
    }
}

/// Adds a paragraph of `--help`. Its indented lines are code.
fn add_paragraph(page: &mut Page, paragraph: &str) {
    let (code, text): (Vec<_>, Vec<_>) = paragraph.lines().partition(|line| line.starts_with("  "));
    if !text.is_empty() {
        page.paragraph(&text.join("\n"));
    }
    if !code.is_empty() {
        page.code(code.iter().map(|line| &line[2..]));
    }
}

/// Adds exit statuses. A line without a status belongs to the one above it.
fn add_statuses(page: &mut Page, statuses: &str) {
    for line in statuses.trim().lines().map(str::trim_start) {
        match line.split_once("  ") {
            Some((status, meaning)) => page.entry(status, "", meaning),
            None => page.text(line),
        }
    }
}

#[cfg(test)]
mod tests {
    use super::*;
    use clap::ArgAction;

    const DOCUMENT: Document = Document {
        path: "docs/SOME.md",
        text: "# Some\n\n## How\n\nSo.\n\n## Why\n\nSo, too.\n",
        sections: &[("Why", "Reasons")],
        is_proved: true,
    };

    const HELP: &str = "\
Without a file, `-` is read:
  ./first
    .second

Examples (of two):
  a-program one

Exit status:
  0  it is so,
     or not
  1  there is no file";

    const FORM_HELP: &str = "How `it` is:\n- a: so\n- b: not so";

    /// The man page of the program below.
    const PAGE: &str = r#".TH "A\-PROGRAM" "1" "" "a\-program 1.2" ""
.SH NAME
a\-program \- Does it
.SH SYNOPSIS
.br
\fBa\-program\fR [OPTIONS]
.br
\fBa\-program\fR [FILE]...
.SH DESCRIPTION
Does it.
.PP
Without a file, \fB\-\fR is read:
.PP
.EX
\&./first
  .second
.EE
.SH ARGUMENTS
.TP
\fI[FILE]...\fR
A file
.SH OPTIONS
.TP
\fB\-f, \-\-form\fR \fI<FORM>\fR
How \fBit\fR is:
.br
\- a: so
.br
\- b: not so
.TP
\fB\-\-raw\fR
As it is
.SH REASONS
.PP
So, too.
.SH EXAMPLES
.PP
Examples (of two):
.PP
.EX
a\-program one
.EE
.SH EXIT STATUS
.TP
\fB0\fR
it is so,
or not
.TP
\fB1\fR
there is no file
.PP
The status is also 3 if there was not enough memory.
"#;

    /// Returns a program that has each kind of argument.
    fn program() -> Command {
        let file = Arg::new("file")
            .value_name("FILE")
            .num_args(0..)
            .help("A file");
        let form = Arg::new("form").long("form").short('f').value_name("FORM");
        let raw = Arg::new("raw")
            .long("raw")
            .action(ArgAction::SetTrue)
            .help("As it is");
        Command::new("a-program")
            .version("1.2")
            .about("Does it")
            .override_usage("a-program [OPTIONS]\n       a-program [FILE]...")
            .args([file, form.help("How").long_help(FORM_HELP), raw])
            .disable_help_flag(true)
            .disable_version_flag(true)
            .after_help("See --help")
            .after_long_help(HELP)
    }

    #[test]
    fn a_page_has_all_parts_in_order() {
        assert_eq!(man_page(program(), &DOCUMENT).as_deref(), Ok(PAGE));
    }

    #[test]
    fn a_program_that_aborts_has_no_status_for_memory() {
        let document = Document {
            is_proved: false,
            ..DOCUMENT
        };
        let (without, _) = PAGE.split_once(".PP\nThe status").expect("it is there");
        assert_eq!(man_page(program(), &document).as_deref(), Ok(without));
    }

    #[test]
    fn commands_are_a_section() {
        let command = Command::new("one")
            .about("Does one")
            .disable_help_flag(true);
        let program = Command::new("all")
            .subcommand(command)
            .disable_help_subcommand(true);
        let page = man_page(program, &DOCUMENT).expect("the document has the section");
        assert!(
            page.contains("\n.SH COMMANDS\n.TP\n\\fBone\\fR\nDoes one\n.SH OPTIONS\n"),
            "{page}"
        );
        assert!(!page.contains(".SH ARGUMENTS"), "{page}");
    }

    #[test]
    fn a_document_must_have_its_sections() {
        let document = Document {
            sections: &[("Wh", "")],
            ..DOCUMENT
        };
        let message = "docs/SOME.md has no section Wh".to_owned();
        assert_eq!(man_page(program(), &document), Err(message));
    }
}
