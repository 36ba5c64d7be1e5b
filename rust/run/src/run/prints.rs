// Made by tools/erase from crates/test_report_run/src/prints.rt. Do not edit.
//! Prints that come one after the other, without a heading or a failure of cargo between them.

use crate::run::cuts::shortened;
use crate::run::error::{RunError, one_more};
use crate::run::longest_end::LongestEnd;

/// How many of the last prints that are not blank are kept besides.
const LAST_PRINTS: usize = 3;

/// A print that is not blank.
#[derive(Clone, Debug)]
pub(crate) struct LastPrint {
    /// The number of prints that came before it.
    place: usize,

    /// Its first 200 bytes.
    line: String,
}

/// Prints that come one after the other: the longest end of them that fits, and the last three that are not blank.
#[derive(Clone, Debug)]
pub(crate) struct Prints {
    count: usize,
    kept: LongestEnd,
    last: Vec<LastPrint>,
}

impl Prints {
    /// Returns no prints.
    pub(crate) fn new() -> Prints {
        Prints {
            count: 0,
            kept: LongestEnd::new(),
            last: Vec::new(),
        }
    }

    /// Returns the number of prints.
    pub(crate) fn count(&self) -> usize {
        self.count
    }

    /// Takes the next print. Fails if memory runs out, or the number of prints does not fit.
    pub(crate) fn take_print(&mut self, line: &str) -> Result<(), RunError> {
        self.kept.take_line(line);
        if !line.trim().is_empty() {
            self.push_last(line);
        }
        self.count = one_more(self.count)?;
        Ok(())
    }

    /// Keeps a print that is not blank among the last three.
    fn push_last(&mut self, line: &str) {
        let line = String::from(shortened(line));
        let place = self.count;
        self.last.push(LastPrint { place, line });
        drop_early(&mut self.last);
    }

    /// Returns the text of the prints that are kept, from the print on before which `first` others came. Prints are
    /// joined by line feeds.
    pub(crate) fn text_from(&self, first: usize) -> String {
        let dropped = self.count.saturating_sub(self.kept.len());
        self.kept.text(first.saturating_sub(dropped))
    }

    /// Returns the last three prints that are not blank, of those from that print on. Of each print there are at
    /// most 200 bytes.
    pub(crate) fn last_from(&self, first: usize) -> Vec<String> {
        let mut lines = Vec::new();
        for print in &self.last {
            if print.place >= first {
                lines.push(print.line.clone());
            }
        }
        lines
    }
}

/// Drops all prints but the last three.
fn drop_early(prints: &mut Vec<LastPrint>) {
    while prints.len() > LAST_PRINTS {
        prints.remove(0);
    }
}
