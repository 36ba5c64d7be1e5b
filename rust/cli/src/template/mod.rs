// Made by tools/erase from crates/template/src/lib.rt. Do not edit.
//! Templates like those of mustache: texts with holes for values. A value is escaped for the place where it is
//! written, in HTML, in XML or in Markdown. If the template is sound, no value is read as markup.
//!
//! | in a template | what is rendered |
//! |---|---|
//! | `{{name}}` | the text `name`: the value of an attribute in a tag, and otherwise a text between tags |
//! | `{{*name}}` | the text `name` in Markdown, outside of `<pre>` |
//! | `{{#list}}..{{/list}}` | what is between them, for each item of `list` |
//! | `{{^list}}..{{/list}}` | what is between them, if `list` has no item |

pub mod hole;
pub mod parse;
pub mod part;
mod plain;
pub mod rendering;
pub mod shown;
pub mod value;

pub use crate::template::hole::Hole;
pub use crate::template::parse::parse_template;
pub use crate::template::part::Part;
pub use crate::template::rendering::render;
pub use crate::template::value::{Value, push_item, push_section, push_text};
