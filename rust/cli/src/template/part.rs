// Made by tools/erase from crates/template/src/part.rt. Do not edit.
//! Parts of a template.

use crate::template::hole::Hole;

/// A part of a template.
#[derive(Clone)]
pub enum Part {
    /// A text.
    Text(String),

    /// A hole for a value.
    Hole {
        /// Its kind.
        kind: Hole,

        /// The name of the value.
        name: String,
    },

    /// Parts for each item of a list.
    Each {
        /// The name of the list.
        name: String,

        /// The parts.
        parts: Vec<Part>,
    },

    /// Parts for a list without items.
    Otherwise {
        /// The name of the list.
        name: String,

        /// The parts.
        parts: Vec<Part>,
    },
}
