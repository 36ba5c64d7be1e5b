// Made by tools/erase from crates/template/src/rendering.rt. Do not edit.
//! What a template renders of values.

use crate::template::hole::push_hole;
use crate::template::part::Part;
use crate::template::value::{Value, has_item, item_in, text_of};

/// Appends what a part renders of values.
fn push_part(text: &mut String, part: &Part, values: &[Value]) {
    match part {
        Part::Text(data) => text.push_str(data.as_str()),
        Part::Hole { kind, name } => push_hole(text, *kind, text_of(name.as_str(), values)),
        Part::Each { name, parts } => {
            for value in values {
                if let Some(item) = item_in(name.as_str(), value) {
                    for inner in parts {
                        push_part(text, inner, item);
                    }
                }
            }
        }
        Part::Otherwise { name, parts } => {
            if has_item(name.as_str(), values) {
                return;
            }
            for other in parts {
                push_part(text, other, values);
            }
        }
    }
}

/// Appends what the parts of a template render of values.
pub fn render(text: &mut String, parts: &[Part], values: &[Value]) {
    for part in parts {
        push_part(text, part, values);
    }
}
