// Made by tools/erase from crates/template/src/value.rt. Do not edit.
//! Values that a template is rendered of.

/// A value with a name. Several items with one name are a list.
#[derive(Clone)]
pub enum Value {
    /// A text.
    Text {
        /// Its name.
        name: &'static str,

        /// The text.
        text: String,
    },

    /// An item of a list.
    Item {
        /// The name of the list.
        name: &'static str,

        /// The values of the item.
        values: Vec<Value>,
    },
}

/// Returns the text of a value with this name.
fn text_in<'a>(name: &str, value: &'a Value) -> Option<&'a str> {
    match value {
        Value::Text { name: key, text } => {
            if *key == name {
                Some(text.as_str())
            } else {
                None
            }
        }
        Value::Item { .. } => None,
    }
}

/// Returns the values of an item of the list with this name.
pub(crate) fn item_in<'a>(name: &str, value: &'a Value) -> Option<&'a [Value]> {
    match value {
        Value::Text { .. } => None,
        Value::Item { name: key, values } => {
            if *key == name {
                Some(values.as_slice())
            } else {
                None
            }
        }
    }
}

/// Returns the first text with this name, or an empty text.
pub(crate) fn text_of<'a>(name: &str, values: &'a [Value]) -> &'a str {
    for value in values {
        if let Some(text) = text_in(name, value) {
            return text;
        }
    }
    ""
}

/// Returns true if the list with this name has an item.
pub(crate) fn has_item(name: &str, values: &[Value]) -> bool {
    for value in values {
        if item_in(name, value).is_some() {
            return true;
        }
    }
    false
}

/// Adds a text.
pub fn push_text(values: &mut Vec<Value>, name: &'static str, text: String) {
    values.push(Value::Text { name, text });
}

/// Adds an item of a list.
pub fn push_item(values: &mut Vec<Value>, name: &'static str, item: Vec<Value>) {
    values.push(Value::Item { name, values: item });
}

/// Adds a section with these values, unless there are none.
pub fn push_section(values: &mut Vec<Value>, name: &'static str, items: Vec<Value>) {
    if items.is_empty() {
        return;
    }
    push_item(values, name, items);
}
