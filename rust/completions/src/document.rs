//! Sections of a document in Markdown, as a man page has them.

use crate::page::{Page, without_links};

/// Adds a section of a document to a page, under another heading and without its subsections. Returns
/// `None` if the document has no such section.
///
/// The section may have paragraphs, tables, lists and fenced blocks. A release does not have the folder
/// `examples/`: paragraphs with links to it are left out, and so is its name in code.
pub fn add_section(page: &mut Page, document: &str, name: &str, heading: &str) -> Option<()> {
    let text = section_of(document, name)?;
    page.section(heading);
    for (at, part) in text.split("```").enumerate() {
        if at % 2 == 0 {
            add_blocks(page, part);
        } else {
            let code = part
                .replace("examples/test-report/", "")
                .replace("examples/", "");
            page.code(code.lines().skip(1));
        }
    }
    Some(())
}

/// Returns the text from a heading to the next one.
fn section_of<'a>(document: &'a str, name: &str) -> Option<&'a str> {
    let mut sections = document.split("\n##");
    let heading = format!(" {name}\n");
    sections.find_map(|section| section.trim_start_matches('#').strip_prefix(&heading))
}

/// Adds the blocks between two fenced ones.
fn add_blocks(page: &mut Page, text: &str) {
    let blocks = text.split("\n\n").map(|block| block.trim_matches('\n'));
    for block in blocks.filter(|block| !block.is_empty() && !block.contains("](../examples")) {
        add_block(page, block);
    }
}

/// Adds a table, a list or a paragraph.
fn add_block(page: &mut Page, block: &str) {
    if block.starts_with('|') {
        return add_table(page, block);
    }
    let items: Option<Vec<_>> = block.lines().map(item_of).collect();
    match items {
        Some(items) => items
            .into_iter()
            .for_each(|(mark, text)| page.item(mark, text)),
        None => page.paragraph(block),
    }
}

/// Returns the mark and the text of a line, if it is an item of a list.
fn item_of(line: &str) -> Option<(&str, &str)> {
    let (mark, text) = line.split_once(' ')?;
    let number = mark.strip_suffix('.').unwrap_or_default();
    (mark == "-" || number.parse::<usize>().is_ok()).then_some((mark, text))
}

/// Adds the rows of a table as explanations of their first cells.
fn add_table(page: &mut Page, table: &str) {
    let mut rows = table.lines().map(cells_of);
    let headings = rows.next().unwrap_or_default();
    for cells in rows.skip(1) {
        let words = without_links(&cells[0]).replace('`', "");
        page.entry(&words, "", &explanation(&headings[1..], &cells[1..]));
    }
}

/// Returns the cells of a row. `\|` is no end of a cell.
fn cells_of(row: &str) -> Vec<String> {
    let row = row.trim_matches('|').replace(r"\|", "\0");
    row.split('|')
        .map(|cell| cell.trim().replace('\0', "|"))
        .collect()
}

/// Returns the only cell, or several cells, each after its heading.
fn explanation(headings: &[String], cells: &[String]) -> String {
    if let [cell] = cells {
        return cell.clone();
    }
    let pairs = headings.iter().zip(cells);
    let named: Vec<_> = pairs
        .map(|(heading, cell)| format!("{heading}: {cell}"))
        .collect();
    named.join("; ")
}

#[cfg(test)]
mod tests {
    use super::*;

    const DOCUMENT: &str = r"# A program

It is [shown](../examples/here).

## Forms

See [below](#input).

[A folder](../examples/README.md) has some.

| form | for | at |
|---|---|---|
| `text` | people | once |

```console
$ cat examples/one.txt examples/test-report/two.txt
  three

four
```

### Input

| line | meaning |
|---|---|
| `a\|b` | a, or `b` |
| [c](#c) | `c` |

- one
- `two`

10. ten

1. no list,
as this line shows
";

    const FORMS: &str = r".SH ITS HEADING
.PP
See below.
.TP
\fBtext\fR
for: people; at: once
.PP
.EX
$ cat one.txt two.txt
  three

four
.EE
";

    const INPUT: &str = r".SH ITS HEADING
.TP
\fBa|b\fR
a, or \fBb\fR
.TP
\fBc\fR
\fBc\fR
.IP \(bu 4
one
.IP \(bu 4
\fBtwo\fR
.IP 10. 4
ten
.PP
1. no list,
as this line shows
";

    /// Returns the roff of a section, or `None` if there is no such section.
    fn roff_of(name: &str) -> Option<String> {
        let mut page = Page::new("p", "");
        add_section(&mut page, DOCUMENT, name, "Its heading")?;
        let roff = page.into_roff();
        roff.split_once('\n').map(|(_, section)| section.to_owned())
    }

    #[test]
    fn a_section_ends_at_the_next_heading() {
        assert_eq!(roff_of("Forms").as_deref(), Some(FORMS));
    }

    #[test]
    fn lists_and_tables_keep_their_order() {
        assert_eq!(roff_of("Input").as_deref(), Some(INPUT));
    }

    #[test]
    fn a_section_must_be_there() {
        assert_eq!(roff_of("Form"), None);
        assert_eq!(roff_of("Inputs"), None);
    }
}
