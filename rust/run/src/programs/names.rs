// Made by tools/erase from crates/test_report_programs/src/names.rt. Do not edit.
//! The threads that standard error names.

use std::collections::BTreeSet;

/// Returns the names of the threads in the lines `thread 'NAME' (N)WORDS..` of a text, which may lack ` (N)`.
pub(crate) fn threads_of(words: &str, text: &str) -> BTreeSet<String> {
    let mut names = BTreeSet::new();
    for line in text.lines() {
        add_thread(&mut names, words, line);
    }
    names
}

/// Adds the name of the thread in a line, if it is such a line.
fn add_thread(names: &mut BTreeSet<String>, words: &str, line: &str) {
    let Some(name) = thread_of(words, line) else {
        return;
    };
    let name = String::from(name);
    names.insert(name);
}

/// Returns the name of the thread in a line, if it is such a line.
fn thread_of<'a>(words: &str, line: &'a str) -> Option<&'a str> {
    match line.strip_prefix("thread '") {
        Some(text) => quoted(words, text),
        None => None,
    }
}

/// Returns the text before the first quote, if these words follow the quote, perhaps after the number of a thread.
fn quoted<'a>(words: &str, text: &'a str) -> Option<&'a str> {
    match text.split_once('\'') {
        Some((name, after)) => {
            if follows(words, after) {
                Some(name)
            } else {
                None
            }
        }
        None => None,
    }
}

/// Returns true if these words follow the name of a thread and perhaps its number.
fn follows(words: &str, text: &str) -> bool {
    without_number(text).starts_with(words)
}

/// Returns the text after the name of a thread, without the number of the thread.
fn without_number(text: &str) -> &str {
    if !text.starts_with(" (") {
        return text;
    }
    match text.split_once(')') {
        Some((_, after)) => after,
        None => "",
    }
}
