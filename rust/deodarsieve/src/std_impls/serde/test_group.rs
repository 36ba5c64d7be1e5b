//! Test groups by their names in nextest's configuration.

use crate::run_events::config::TestGroup;
use ::serde::{Deserialize, Deserializer, Serialize, Serializer};
use alloc::string::String;

/// The name of the global group. No other group can have it.
const GLOBAL: &str = "@global";

/// Writes the name of the group. That of the global group is `@global`.
impl Serialize for TestGroup {
    fn serialize<S: Serializer>(&self, serializer: S) -> Result<S::Ok, S::Error> {
        serializer.serialize_str(match self {
            TestGroup::Global => GLOBAL,
            TestGroup::Custom(name) => name,
        })
    }
}

impl<'de> Deserialize<'de> for TestGroup {
    fn deserialize<D: Deserializer<'de>>(deserializer: D) -> Result<Self, D::Error> {
        let name = String::deserialize(deserializer)?;
        Ok(if name == GLOBAL {
            TestGroup::Global
        } else {
            TestGroup::Custom(name)
        })
    }
}
