// Made by tools/erase from crates/run_digest_engine/src/parts.rt. Do not edit.
//! The parts of a text between occurrences of an ASCII character.

/// Returns the first part of a text, and the text after `divider` if it occurs.
fn first_part(text: &str, divider: char) -> (&str, Option<&str>) {
    match text.split_once(divider) {
        Some((part, rest)) => (part, Some(rest)),
        None => (text, None),
    }
}

/// An iterator over the parts of a text.
#[derive(Clone)]
pub(crate) struct Parts<'a> {
    rest: Option<&'a str>,
    divider: char,
}

impl<'a> Parts<'a> {
    /// Returns an iterator over the parts of a text. `divider` must be an ASCII character.
    pub(crate) fn new(text: &'a str, divider: char) -> Parts<'a> {
        Parts {
            rest: Some(text),
            divider,
        }
    }
}

impl<'a> Iterator for Parts<'a> {
    type Item = &'a str;

    fn next(&mut self) -> Option<&'a str> {
        let (part, rest) = first_part(self.rest?, self.divider);
        self.rest = rest;
        Some(part)
    }
}
