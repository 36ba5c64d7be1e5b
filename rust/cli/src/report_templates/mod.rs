// Made by tools/erase from crates/report_templates/src/lib.rt. Do not edit.
//! The templates of a report: a page for a browser, the XML of JUnit, and a summary in Markdown.
//!
//! `template` renders them of values. Whatever the values are, the page and the XML are one document each, in which no
//! value is markup, and the summary has no marks of Markdown except the template's own. What is rendered has no control
//! characters except tabs and line feeds.

pub mod junit_template;
pub mod markdown_template;
pub mod page_template;

pub use crate::report_templates::junit_template::JUNIT;
pub use crate::report_templates::markdown_template::{FAILED, MARKDOWN};
pub use crate::report_templates::page_template::PAGE;
